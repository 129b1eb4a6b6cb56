# How dist/start.bash and dist/make prove and build, who read this file behind sources.bash. `say` and `fail` are
# theirs. All is done in folders of its own: nothing is written where rt works by hand.
work=$top/crates/scq_main/out
log=$work/scq.log
# A folder for each crate that is at work, or was when a start was interrupted.
rooms=$work/scq.rooms
# For each crate what was made of it, packed, and the sum of what that was made of.
kept=$work/scq.kept
# How many lines first proofs go through in a minute: of a crate that has the machine, and of one processor
# where many crates share it.
pace_alone=3000
pace_shared=1450

# Waits until no other start builds here.
take_turn() {
    exec {lock}<"$top/scq"
    flock -n "$lock" || {
        say "another start is building here; waiting for it"
        flock "$lock"
    }
}

end_turn() { exec {lock}<&-; }

# How many checks run side by side: one a processor, where each finds 2 GB of memory.
side_by_side() {
    local free
    free=$(awk '/^MemAvailable:/ { print int($2 / 2097152) }' /proc/meminfo 2>/dev/null)
    [ "${free:-0}" -gt 0 ] || free=1
    echo $((free < processors ? free : processors))
}

# For each crate those below it, and a sum of what it is made of; the crates by the lines of the longest chain
# that begins with each and goes up; and in how many minutes first proofs of all are through.
plan() {
    local crate under own at longest=0 lines=0
    local -A chain=()
    for ((at = ${#crates[@]} - 1; at >= 0; at--)); do
        crate=${crates[at]}
        below[$crate]=$(crates_of "$crate" | grep -vx "$crate")
        # shellcheck disable=SC2086
        sums[$crate]=$(sum_with "$kit" "$(sources_of ${below[$crate]} "$crate")")
        own=$(files_of "$crate" | (cd "$top/crates" && xargs -0 cat) | wc -l)
        lines=$((lines + own))
        chain[$crate]=$((${chain[$crate]-0} + own))
        for under in ${below[$crate]}; do
            [ "${chain[$under]-0}" -ge "${chain[$crate]}" ] || chain[$under]=${chain[$crate]}
        done
        [ "${chain[$crate]}" -le "$longest" ] || longest=${chain[$crate]}
    done
    minutes=$((longest / pace_alone + 1))
    [ "$minutes" -ge $((lines / pace_shared / processors)) ] || minutes=$((lines / pace_shared / processors))
    mapfile -t by_chain < <(for crate in "${crates[@]}"; do echo "${chain[$crate]} $crate"; done | sort -rn | cut -d ' ' -f 2)
}

so_far() { printf '%d:%02d' $((SECONDS / 60)) $((SECONDS % 60)); }

# What is made of a crate stands here while the build goes on.
made_of() { echo "$rooms/$1/crates/$1/out"; }

is_kept() { [ "$(cat "$kept/$1/sum" 2>/dev/null)" = "${sums[$1]}" ]; }

unpack() { tar -xzf "$kept/$1/$2.tar.gz" -C "$(made_of "$1")"; }

# Takes a crate as it was proved.
restore() {
    rm -rf "$(made_of "$1")"
    mkdir -p "$(made_of "$1")"
    unpack "$1" rlib || {
        rm -f "$kept/$1/sum"
        return 1
    }
}

# Makes a crate's room: its files and those of the crates below, the libraries that these were built to, and
# what is kept of it. rt lets only one check be at work in a folder and in those of the crates below, so that
# crates with one below them can't be proved side by side where they lie.
make_room() {
    local crate=$1 room=$rooms/$1 under part made
    made=$(made_of "$crate")
    mkdir -p "$made"
    find "$room" -mindepth 1 -maxdepth 1 ! -name crates -exec rm -rf {} +
    find "$room/crates" "$room/crates/$crate" -mindepth 1 -maxdepth 1 ! -name "$crate" ! -name out -exec rm -rf {} +
    # shellcheck disable=SC2086
    lines_of ${below[$crate]} "$crate" >"$room/crates.txt"
    for under in ${below[$crate]} "$crate"; do
        mkdir -p "$room/crates/$under/out"
        for part in src specs proofs; do
            [ ! -d "$top/crates/$under/$part" ] || cp -r "$top/crates/$under/$part" "$room/crates/$under"
        done
        # rt never writes into a library that is there, so a second name is enough.
        [ "$under" = "$crate" ] || cp -al "$(made_of "$under")/rlib" "$room/crates/$under/out" 2>/dev/null ||
            cp -r "$(made_of "$under")/rlib" "$room/crates/$under/out"
    done
    part=$top/crates/$crate/out/incremental
    [ -d "$made/incremental" ] || unpack "$crate" incremental 2>/dev/null || [ ! -d "$part" ] || cp -r "$part" "$made"
}

# Keeps what was made of a crate, while the build goes on.
pack() {
    local part to=$kept/$1 made
    made=$(made_of "$1")
    mkdir -p "$to"
    rm -f "$to/sum"
    for part in incremental rlib; do
        [ -d "$made/$part" ] || continue
        # (1: a file got a second name meanwhile, as the libraries' files do in the rooms of the crates above)
        nice tar -C "$made" -czf "$to/new" "$part" || [ $? = 1 ] || return
        mv "$to/new" "$to/$part.tar.gz" || return
    done
    echo "${sums[$1]}" >"$to/sum"
}

# Ends what is at work. What it has proved stays in its room.
stop() {
    local job
    for job in "${running[@]}" "${packing[@]}"; do kill "$job" 2>/dev/null; done
    wait
}

# Takes note that a crate is through.
end() {
    local crate=$1
    unset "running[$crate]"
    { echo "== $crate" && cat "$rooms/$crate.log"; } >>"$log"
    is_kept "$crate" || {
        pack "$crate" </dev/null >/dev/null 2>&1 {lock}<&- &
        packing+=($!)
    }
}

# Ends with what rt said last, and where the whole of it is.
report_end() {
    tail -n 20 "$rooms/$1.log" >&2
    cat "$rooms/$1.log" >>"$log"
    fail "$1 isn't $2; the whole of what rt said is in $log"
}

# Has these words at work for a crate.
start() {
    local crate=$1
    shift
    TMPDIR=$rooms "$@" </dev/null >"$rooms/$crate.log" 2>&1 {lock}<&- &
    running[$crate]=$!
}

# Begins to prove a crate. One crate at a time, the leader, has a job for each processor, and the others take
# what it leaves: a proof begins and ends with work for one processor.
begin() {
    local crate=$1 words=(nice rt lib --jobs 1)
    if is_kept "$crate"; then
        start "$crate" restore "$crate"
        return
    fi
    make_room "$crate"
    if [ -z "$leader" ]; then
        leader=$crate
        words=(rt lib --jobs "$most")
    fi
    start "$crate" env -C "$rooms/$crate/crates/$crate" "${words[@]}"
}

# Whether all crates below a crate are proved.
is_ready() {
    local under
    for under in ${below[$1]}; do [ -n "${proved[$under]-}" ] || return 1; done
}

# Proves these crates, each as soon as those below it are proved and the earlier ones first, and says how far
# it is.
prove() {
    local crate most leader=
    local -A proved=()
    most=$(side_by_side)
    while [ ${#proved[@]} -lt $# ]; do
        for crate; do
            [ ${#running[@]} -lt "$most" ] || break
            [ -n "${running[$crate]-}${proved[$crate]-}" ] || ! is_ready "$crate" || begin "$crate"
        done
        sleep 0.2
        for crate in "${!running[@]}"; do
            ! kill -0 "${running[$crate]}" 2>/dev/null || continue
            wait "${running[$crate]}" || report_end "$crate" proved
            end "$crate"
            proved[$crate]=1
            [ "$leader" != "$crate" ] || leader=
            say "through with $crate, ${#proved[@]} of $#, $(so_far) so far"
        done
    done
}

# Copies a file that was built of a crate to where it is looked for. Never written into: whoever runs it keeps what he has.
put_out() {
    local crate=$1 place=$2 made
    made=$top/crates/$crate/out/$place
    mkdir -p "$(dirname "$made")"
    cp "$(made_of "$crate")/$place" "$made.new" && mv "$made.new" "$made" || fail "can't write in $(dirname "$made")"
}

# Builds a proved program or static library, and a static library also for these targets, each with the assembly text that it is made of. A program is
# run, with no words, since only so rt leaves it in out/. Its status is the program's own, so what counts is that rt came to run it.
build_one() {
    local crate=$1 verb=lib target words=()
    shift
    [ ! -e "$top/crates/$crate/src/main.rt" ] || verb=run
    say "building $crate, $(so_far) so far"
    make_room "$crate"
    start "$crate" env -C "$rooms/$crate/crates/$crate" rt "$verb" --jobs "$(side_by_side)"
    wait "${running[$crate]}" || grep -q "^rt: running out/$crate;" "$rooms/$crate.log" ||
        report_end "$crate" "$(grep -q '^logic=proved' "$rooms/$crate.log" && echo built || echo proved)"
    put_out "$crate" "$(file_of "$crate")"
    for target; do
        say "building $crate for $target, $(so_far) so far"
        { echo "== $crate" && cat "$rooms/$crate.log"; } >>"$log"
        mkdir -p "$(made_of "$crate")/$target"
        toolchain_that_keeps "$(made_of "$crate")/$target/$crate.s" "$rooms/$crate/toolchain-$target" || fail "can't write in $rooms"
        mapfile -t words < <(words_for "$crate" "$target")
        start "$crate" env -C "$rooms/$crate/crates/$crate" "${words[@]}"
        wait "${running[$crate]}" || report_end "$crate" "built for $target"
        put_out "$crate" "$target/$(file_of "$crate")"
        put_out "$crate" "$target/$crate.s"
    done
    end "$crate"
}

# The command by which a static library is built for a target, a word on a line. rt builds for its own target alone and by its own toolchain, so this
# has the words of rt, and these. The libraries below are of no target; of the crate what is checked already is taken.
words_for() {
    local crate=$1 target=$2 of under
    printf '%s\n' "$kit_folder/bin/rattle" build --crate-name "$crate" src/lib.rt --extern "std=$kit_folder/rlibs/std.rlib"
    # shellcheck disable=SC2013
    for under in $(sed -n "s/^$crate [^:]*://p" "$top/crates.txt"); do
        of=$rooms/$crate/crates/$under/out/rlib
        [ -d "$of" ] || of=$kit_folder/rlibs
        printf '%s\n' --extern "$under=$of/$under.rlib"
    done
    printf '%s\n' -L "dependency=$kit_folder/rlibs"
    for under in ${below[$crate]}; do printf '%s\n' -L "dependency=$rooms/$crate/crates/$under/out/rlib"; done
    printf '%s\n' --antt-project "$kit_folder/rattle/logic/antt-project.json" --logic-built "$kit_folder/logic_built" \
        --jobs "$(side_by_side)" --links "$crate=" --crate-type staticlib --target "$target" --toolchain "$rooms/$crate/toolchain-$target" \
        --backend llvm --incremental out/incremental -o "out/$target/$(file_of "$crate")"
}

# The name of what a crate is built to.
file_of() { [ -e "$top/crates/$1/src/main.rt" ] && echo "$1" || echo "lib$1.a"; }

# Proves these crates and builds what they are: of a program out/NAME, of a static library out/libNAME.a, and out/TARGET/libNAME.a and out/TARGET/NAME.s for
# each target that stands behind it, as NAME@TARGET@TARGET; then dist/library.bash was read and `kit_folder` is the kit's folder. `kit` is the kit's line.
build() {
    local crate minutes crates by_chain libraries=() processors packing=()
    local -A below=() sums=() running=()
    mapfile -t crates < <(crates_of "${@%%@*}")
    mkdir -p "$rooms" "$kept" 2>/dev/null || fail "can't write in $work, and the program has to be built"
    trap stop EXIT
    trap 'exit 130' INT
    trap 'exit 143' TERM
    trap 'exit 129' HUP
    : >"$log"
    processors=$(nproc)
    plan
    say "proving ${#crates[@]} crates, about $minutes minutes on $processors processors where nothing of them is kept"
    for crate in "${by_chain[@]}"; do [[ " ${*%%@*} " = *" $crate "* ]] || libraries+=("$crate"); done
    prove "${libraries[@]}"
    # shellcheck disable=SC2086
    for crate; do build_one ${crate//@/ }; done
    wait
    trap - EXIT INT TERM HUP
    rm -rf "$rooms"
}
