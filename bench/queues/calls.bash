# shellcheck shell=bash disable=SC2034,SC2154
# What the kinds of bench/calls have in common: programs that make calls on a queue (calls.cpp, or a driver that takes
# the same words), run in turn, at orders 6 and 12, each thread on a processor of its own. Which words share a line of
# the cache depends on where malloc lays them, so each round has another of the eight places that there are in two
# lines: preload/threads.c takes as much off the heap before the program has taken any. Medians over places and rounds
# count. A pair is lend, send, take and give_back, but for `peers` with no byte written. The loops that are timed are
# functions that aren't inlined, and take the queue by reference. What one thread saw is compared.
#
# From the environment: PAIRS, how many pairs of calls one thread makes in a run (4000000; other runs in
# proportion); LIMIT, in how many seconds a run has to end (50); UNDER, a command that runs are started by, as
# `chrt --fifo 30` where other work on the machine is to wait meanwhile.
kept_in "$@"
preload threads
# shellcheck source=over.bash
. "$bench/queues/over.bash"
turns=$(rounds 8)
pairs=$(many "${PAIRS:-4000000}")
limit=${LIMIT:-50}
# Of each mode, how many calls each thread makes, the roles of the threads, and its title.
declare -A each_of roles_of title sums
while read -r mode each roles words; do
    each_of[$mode]=$((each)) roles_of[$mode]=$roles title[$mode]=$words
done <<<"one pairs b one thread
empty pairs*12 e on empty
pair pairs/4 pg one to one
two pairs/8 pgpg two to two
four pairs/16 bbbb four threads
many pairs/64 bbbbbbbbbbbbbbbb sixteen threads
busy pairs/80 tttt four threads
calm pairs/200 cc two threads that pause
stop $(many 150) ss one of two threads stopped 150 times for 50 ms"

# `ours`, the driver in Rattle of this name, and `plain`, the C++ of the step table over this header, by the kit's
# compiler too.
ours_and_plain() {
    proved "$1" b 3 1
    cp "$ours" ours
    by_kit plain -I "$bench/queues" -DBARE -DQUEUE="\"$2.hpp\"" "$bench/queues/calls.cpp"
}

built() { for it; do [ ! -x "$it" ] || printf '%s ' "$it"; done; }

# The aim that a program's speed in a mode is at each order so many times that of another in it.
aim() {
    local what=$1 mine=$2 other=$3 mode=$4 wanted=$5 order
    [ -x "$other" ] || return 0
    for order in 6 12; do
        verdict "$what at order $order" "$(ratio "$mine.$mode.$order" "$other.$mode.$order")" '>=' "$wanted"
    done
}

# Runs a program once, PROGRAM.MODE.ORDER, and notes what it says under this key, or million pairs a second.
run_once() {
    local key=$1 program mode order figures it status=0
    IFS=. read -r program mode order <<<"$key"
    local each=${each_of[$mode]} roles=${roles_of[$mode]}
    # Who stops a thread has a processor too.
    [ "$mode" = stop ] && it=3 || it=${#roles}
    # Rounds that are fewer than the places are spread over them.
    # shellcheck disable=SC2086
    timeout "$limit" ${UNDER-} env LD_PRELOAD=./threads.so PIN="$it" PLACE=$((round * 3 % 8)) \
        "./$program" "$roles" "$order" "$each" >answer || status=$?
    read -ra figures <answer || true
    case $status-$mode in
        0-busy | 0-calm) for it in 50.0 99.1 999.2 send.3 take.4; do note "$key.${it%.*}" "${figures[${it#*.}]}"; done ;;
        0-stop) for it in held.0 longest.1; do note "$key.${it%.*}" "${figures[${it#*.}]}"; done ;;
        0-*)
            [[ $roles != pg* ]] || each=$((each / 2))
            note "$key" "$(calc "${#roles} * $each * 1000 / ${figures[0]}")"
            # What one thread saw is told by the calls alone.
            [ "${#roles}" -gt 1 ] || [ "${sums[$mode.$order]=${figures[1]}}" = "${figures[1]}" ] ||
                miss "$mode, order $order: saw ${figures[1]} and not ${sums[$mode.$order]}"
            ;;
        124-*) note "$key.endless" 1 ;;
        *) miss "$key ends with $status" ;;
    esac
}

# Runs the programs in turn, in a mode at an order, so many rounds, and begins a table of what it said.
in_rounds() {
    local last=$1 mode=$2 order=$3 unit=$4
    shift 4
    in_turn "$last" run_once "${@/%/.$mode.$order}"
    echo "${title[$mode]}, order $order$unit"
}

# Says how fast the programs are in each mode at each order, and how many times as fast as the first, by rounds.
measure() {
    local names mode order it key endless
    read -ra names <<<"$3"
    for mode in $1; do
        for order in $2; do
            in_rounds "$turns" "$mode" "$order" ", million a second, and times of ${names[0]}" "${names[@]}"
            for it in "${names[@]}"; do
                key=$it.$mode.$order endless=$(numbers "$it.$mode.$order.endless" | wc -l)
                printf '  %-16s %-27s %s%s\n' "$it" "$(spread "$key")" \
                    "$(ratio "$key" "${names[0]}.$mode.$order" spread)" \
                    "$([ "$endless" = 0 ] || echo "; of $turns runs $endless did not end in $limit s")"
            done
        done
    done
}
