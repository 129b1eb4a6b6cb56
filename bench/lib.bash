# shellcheck shell=bash disable=SC2034
# What the scripts of bench/ have in common, who read this file first. The script goes on in a folder of its own, which
# is removed at its end, with `top` and `bench` as the names of the repository and of bench/.
#
# From the environment, for each script:
#   SHORT=1   a short run, to see that it works: one round, and a fiftieth of each size
#   ROUNDS    how often each program is run, in place of the script's own number
#   JOBS      how many checks may run side by side where a driver is proved (1)
#   RESULTS   the folder for results: bench/results where neither SHORT nor ROUNDS is set, else none
set -eu
export LC_ALL=C
bench=$(dirname "$(readlink -f "${BASH_SOURCE[0]}")")
top=$(dirname "$bench")
script=$(basename "$0")
scratch=$(mktemp -d)
folder=$scratch
missed=0 round=1
# What functions below find: programs, the name of a crate, and what a script does.
scq='' scq_wait='' archive='' ours='' crate='' kind=''
results=${RESULTS-$([ -n "${SHORT-}${ROUNDS-}" ] || echo "$bench/results")}
cd "$folder"
. "$top/dist/sources.bash"

end() {
    local status=$?
    [ -z "${tee-}" ] || write_result
    cd / && rm -rf "$scratch"
    exit "$status"
}
trap end EXIT

# The end of a script that can't do its work here.
stop() {
    echo "$script: $1" >&2
    exit 2
}

# A script that does several things, by these names: its first word is the name of one, or it is run for each. Sets
# `kind`. Where builds are kept for all of them, each has a folder of its name.
kind_of() {
    local kinds=$1 it status=0
    shift
    kind=${1-}
    case " $kinds " in
        *" ${kind:-none} "*) script="$script $kind" && return ;;
    esac
    [[ $kind = @(|build|run) ]] || stop "not understood; bench/$script [${kinds// / | }]"
    for it in $kinds; do "$bench/$script" "$it" "${@:1:1}" ${2:+"$2/$it"} || status=$?; done
    exit "$status"
}

# A script whose builds are kept: without words it builds and measures, else one of them. Sets `builds` and `runs`.
kept_in() {
    builds=yes runs=yes
    case $#-${1-} in
        0-) return ;;
        2-build) runs= ;;
        2-run) builds= ;;
        *) stop "not understood; bench/$script [build FOLDER | run FOLDER]" ;;
    esac
    folder=$(mkdir -p "$2" && cd "$2" && pwd)
    cd "$folder" && rm -f samples
}

# So many, or in a short run a fiftieth, and in one of rounds one.
many() { [ -z "${SHORT-}" ] && echo "$1" || echo $(($1 < 50 ? 1 : $1 / 50)); }
rounds() { echo "${ROUNDS:-$([ -z "${SHORT-}" ] && echo "$1" || echo 1)}"; }

# Calls a command with each of these names, so many times.
in_turn() {
    local last=$1 command=$2 name
    shift 2
    for ((round = 1; round <= last; round++)); do
        for name; do "$command" "$name"; done
        set -- "${@:2}" "$1"
    done
}

# Notes a number of this round under a key.
note() { echo "$1 $round $2" >>"$folder/samples"; }

# A key's numbers; the median of them, with the lowest and the highest in brackets, and the largest.
numbers() { awk -v key="$1" '$1 == key { print $3 }' "$folder/samples"; }
median() { numbers "$1" | middle; }
spread() { numbers "$1" | middle spread; }
most() { numbers "$1" | sort -g | tail -n 1; }
# The median of the rounds' ratios of a key to another, and with `spread` the lowest and the highest.
ratio() {
    awk -v key="$1" -v other="$2" '$1 == key { mine[$2] = $3 } $1 == other { its[$2] = $3 }
        END { for (r in mine) if (its[r] > 0) printf "%.2f\n", mine[r] / its[r] }' "$folder/samples" | middle "${3-}"
}
middle() {
    sort -g | awk -v spread="${1-}" '{ it[NR] = $1 }
        END { print (NR ? it[int((NR + 1) / 2)] : "-") (spread && NR ? " (" it[1] "-" it[NR] ")" : "") }'
}

calc() { awk "BEGIN { printf \"%.2f\", $1 }"; }

# Whether a number is in this sense what is aimed at.
verdict() {
    local said="$1: $2, wanted $3 $4"
    if awk "BEGIN { exit !(\"$2\" + 0 $3 $4) }"; then echo "met: $said"; else miss "$said"; fi
}

# A case that went wrong, and the end of a script: how many did.
miss() {
    echo "missed: $1"
    missed=$((missed + 1))
}
finish() {
    echo "$script: $missed went wrong"
    exit $((missed != 0))
}

# Runs a command once. Its seconds of the processor and by the clock, and the most memory that it held in KB, are
# notes KEY.time, KEY.wall and KEY.memory; what it writes is KEY.out.
once() {
    local key=$1 user system memory wall
    shift
    /usr/bin/time -q -f '%U %S %M %e' -o "$folder/spent" "$@" >"$key.out"
    read -r user system memory wall < <(tail -n 1 "$folder/spent")
    note "$key.time" "$(calc "$user + $system")"
    note "$key.memory" "$memory"
    note "$key.wall" "$wall"
}

# A line for each of these keys of `once`.
spent_by() {
    local key
    printf '%-26s %10s %10s %11s\n' '' clock processor memory
    for key; do
        printf '%-26s %8.2f s %8.2f s %8d KB\n' "$key" "$(median "$key.wall")" "$(median "$key.time")" \
            "$(most "$key.memory")"
    done
}

# A program of dist/, to the variable of its name, and libscq.a, or what ARCHIVE names, to `archive`; or a file of dist/,
# or what is named, to a variable. It is what dist/make makes in a copy where that of dist/ is of other sources.
program() { shipped "x86_64-linux/$1" "$1"; }
archive() { shipped x86_64-linux/libscq.a archive "${ARCHIVE-}"; }
shipped() {
    local file=dist/$1 path=${3:-$top/dist/$1}
    if [ -z "${3-}" ] && "$top/dist/make" --fresh 2>&1 | grep -q "^dist/make: $file "; then
        copied "$folder/tree"
        "$folder/tree/dist/make" >"$folder/made" 2>&1 || stop "${1##*/} can't be made: $(tail -n 1 "$folder/made")"
        path=$folder/tree/$file
    fi
    [ -f "$path" ] || stop "no file $path"
    printf -v "$2" %s "$(readlink -f "$path")"
    echo "${1##*/} is ${!2#"$top"/}, $(sum_of_file "${!2}" | cut -c 1-12)"
}

# Copies the repository as it stands, but what git ignores.
copied() {
    mkdir -p "$1"
    (cd "$top" && git ls-files -z --cached --others --exclude-standard |
        xargs -0 cp --parents -t "$1" 2>/dev/null) || true
}

# A library in C that is loaded before a program.
preload() {
    cc -std=gnu11 -O2 -Wall -Wextra -Werror -shared -fPIC "$bench/preload/$1.c" -o "$1.so" -ldl
}

# A crate and those that it stands on, as a repository in this folder, by what bench/proved/ has of this name.
laid_out() {
    git init -q .
    cp "$top/HANDLES" .
    # shellcheck disable=SC1090
    . "$bench/proved/$1.bash"
}
crate_over() {
    local it below
    crate=${1%%:*}
    # shellcheck disable=SC2086
    mapfile -t below < <(crates_of ${1#*:})
    for it in "${below[@]}"; do
        mkdir -p "crates/$it"
        rm -rf "crates/$it"/{src,specs,proofs}
        cp -r "$top/crates/$it"/{src,specs,proofs} "crates/$it"
    done
    { lines_of "${below[@]}" && echo "$1"; } >crates.txt
}
crate_file() {
    mkdir -p "$(dirname "crates/$crate/$1")"
    cat >"crates/$crate/$1"
}

# Proves and compiles such a crate, and runs it with these words. Sets `ours`, its program.
proved() {
    laid_out "$1"
    shift
    (cd "crates/$crate" && rt run --jobs "${JOBS:-1}" -- "$@") >rt.log 2>&1 || {
        tail -n 40 rt.log >&2
        stop "$crate isn't proved, or its program ends wrong"
    }
    ours=$folder/crates/$crate/out/$crate
}

# Compiles a C++ file as the kit compiles its programs: by its clang, with g++'s headers.
by_kit() {
    local program=$1 clang headers
    clang=$(dirname "$(rt doc)")/toolchain/bin/clang
    mapfile -t headers < <(g++ -E -x c++ -v /dev/null 2>&1 | sed -n '/^#include </,/^End/s/^ /-isystem/p')
    "$clang" -x c++ -std=c++17 -O3 -march=x86-64-v2 -Wall -Wextra -Werror -Wno-deprecated-declarations -nostdinc \
        "${headers[@]}" "${@:2}" -c -o "$program.o"
    g++ -pthread -o "$program" "$program.o"
}

# Unpacks packages of Debian to the folder `packages`; `registry` is where their crates are, or those of installed ones.
registry=/usr/share/cargo/registry
packages() {
    local it
    mkdir -p packages
    for it; do
        ! compgen -G "packages/${it}_*.deb" >/dev/null || continue
        (cd packages && apt-get download -q "$it" && dpkg -x "$it"_*.deb .) >packages.log 2>&1 || return 1
    done
    registry=$folder/packages/usr/share/cargo/registry
}

# Makes of a folder with src/ a crate of this name, over crates of Debian's packages: the lines of its dependencies.
cargo_of_debian() {
    mkdir -p "$1/.cargo"
    printf '[source.crates-io]\nreplace-with = "debian"\n[source.debian]\ndirectory = "%s"\n' \
        "$registry" >"$1/.cargo/config.toml"
    printf '%s\n' '[package]' "name = \"$1\"" 'version = "0.0.0"' 'edition = "2021"' '[dependencies]' "${@:2}" \
        '[profile.release]' 'lto = true' 'codegen-units = 1' 'panic = "abort"' >"$1/Cargo.toml"
}

# Has what is said from here on written to a result too, below the date, the machine, and versions of these commands.
result() {
    [ -n "$results" ] || return 0
    read -r _ _ _ _ _ _ _ _ stolen _ </proc/stat
    exec {screen}>&1 > >(tee "$scratch/said" >&"$screen")
    tee=$!
    echo "bench/$script, $(date -u '+%F %R') UTC, of commit $(git -C "$top" rev-parse --short=12 HEAD)$(
        git -C "$top" diff --quiet HEAD -- crates dist bench bindings ':!bench/results' || echo ' and changes')"
    echo "machine: $(sed -n 's/^model name.*: //p' /proc/cpuinfo | head -n 1), $(nproc) processors," \
        "$(awk '/^MemTotal/ { printf "%.0f GB", $2 / 1e6 }' /proc/meminfo), $(uname -sr)"
    echo "versions: $(recorded kit && for it; do
        { "$it" --version || "$it" -W version || echo "no $it"; } 2>/dev/null | sed '/^$/d' | head -n 1
    done)"
    echo "load at the start: $(cut -d ' ' -f 1-3 /proc/loadavg)${ROUNDS:+; in $ROUNDS rounds}"
}

write_result() {
    local before=$stolen
    read -r _ _ _ _ _ _ _ _ stolen _ </proc/stat
    echo "load at the end: $(cut -d ' ' -f 1-3 /proc/loadavg); ticks of processors stolen meanwhile: $((stolen - before))"
    exec >&"$screen"
    wait "$tee"
    mkdir -p "$results" && cp "$scratch/said" "$results/${script// /-}.txt"
}
