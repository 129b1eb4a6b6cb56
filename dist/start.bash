# How ./scq and ./scq_wait start, who read this file: each says which crate its program is made of, and which words that begins with. The program
# is the one of dist/, where that is of exactly these sources, whole, and starts on this machine. Else, or where SCQ_BUILD=1 asks for it, it is the
# one that this kit makes of these sources, which is proved and built first where it isn't there yet, over what is kept, with lines on standard
# error that say why and how far it is. A second start waits for the first. Where the program can't be built, the status is 125.
# `self` is the launcher, whose name is the program's.
name=${self##*/}
top=${self%/*}
top=${top:-/}
out=$top/crates/$crate/out
program=$out/$crate
# Four lines: the kit, which file rt was, the sum of what the program was made of, and the program's own sum.
record=$out/$name.record
shipped=x86_64-linux/$name
# To sum all sources takes a tenth of a second. So the last check that found the program of dist/ to be of these is noted here, as note_seen says.
# dist/make takes it away, and sums them in any case.
checked=$top/dist/.$name.checked
printf -v started '%(%s)T' -1

say() { echo "$name: $1" >&2; }

fail() {
    say "$1"
    exit 125
}

is_command() {
    local word
    for word in $commands; do [ "$word" != "$1" ] || return 0; done
    return 1
}

# A text as the program writes it: ASCII's control characters and the backslash as `\x` and two digits.
shown() (
    LC_ALL=C text=${1//\\/'\x5c'}
    for code in {1..31} 127; do
        printf -v escaped '\\x%02x' "$code"
        printf -v byte "$escaped"
        text=${text//"$byte"/"$escaped"}
    done
    printf '%s\n' "$text"
)

# Refuses words whose first is no command with the lines of the program, for which there are none where one isn't UTF-8.
refuse() {
    echo 'words not understood'
    [ $# = 0 ] || ! printf '%s\n' "$@" | iconv -f UTF-8 -t UTF-16 >/dev/null 2>&1 || shown "word 1 is $1"
    exit 2
} >&2

read_crates() {
    mapfile -t crates < <(crates_of "$crate")
    [ ${#crates[@]} -gt 0 ] || fail "no crates.txt beside this file names $crate"
}

read_sources() {
    read_crates
    sources=$(sources_of "${crates[@]}")
}

# The names of all that tells whether the program of dist/ is of these crates' sources: folders too, in which a file may be new.
names_of() {
    cd "$top/crates" && printf '%s\0' ../crates.txt ../dist/RECORD "../dist/$shipped" "$@" &&
        { find "${@/%//src}" "${@/%//specs}" "${@/%//proofs}" -print0 2>/dev/null || true; }
}

# Of each of the names in a file: when it was last changed in any way, which nobody can set, its size, number and name.
seen_of() {
    cd "$top/crates" && xargs -0 stat -Lc '%.9Z %s %i %n' <"$1" && echo whole
}

# Whether all is as it was when it was checked.
is_as_checked() { [ -s "$checked" ] && seen_of "$checked.names" 2>/dev/null | cmp -s - "$checked"; }

# Notes what there is to see, before it is summed, to be kept by keep_note if the sums are right.
note_seen() {
    [ -w "$top/dist" ] || return
    (names_of "${crates[@]}") >"$checked.$$.names" && (seen_of "$checked.$$.names") >"$checked.$$"
} 2>/dev/null

# Who writes a file later gives it a later time. So that none can come twice, the file system's has to be this machine's, and the last of them of
# more than two seconds ago.
keep_note() {
    local newest
    newest=$(awk '$1 + 0 > newest { newest = $1 + 0 } END { printf "%d", newest }' "$checked.$$")
    case $(stat -fc %T "$top/dist") in
        ext* | xfs | btrfs | f2fs | zfs | tmpfs | overlayfs)
            [ "$newest" -ge $((started - 2)) ] || { mv "$checked.$$.names" "$checked.names" && mv "$checked.$$" "$checked"; }
            ;;
    esac
} 2>/dev/null

# Whether the program of dist/ is of these sources, and whole. If not, `reason` says why.
is_right() {
    local noted=
    read_crates
    ! note_seen || noted=yes
    read_sources
    if [ "$(sum_with "$(recorded kit)" "$sources")" != "$(recorded sources "$shipped")" ]; then
        reason="dist/$shipped was made of other sources"
    elif [ "$(sum_of_file "$top/dist/$shipped")" != "$(recorded sum "$shipped")" ]; then
        reason="dist/$shipped isn't what dist/RECORD says"
    elif [ -n "$noted" ]; then
        keep_note
    fi
    rm -f "$checked.$$" "$checked.$$.names" 2>/dev/null
    [ -z "$reason" ]
}

# Whether the program of dist/ can be taken. If not, `reason` says why. No file is written but `checked`, and rt isn't asked.
is_shipped() {
    local machine file=$top/dist/$shipped said status
    reason=
    [ "${SCQ_BUILD-}" != 1 ] || return 1
    machine=$(uname -sm)
    if [ "$machine" != 'Linux x86_64' ]; then
        reason="dist/ has no program for $machine"
    elif [ ! -e "$file" ] || [ ! -e "$top/dist/RECORD" ]; then
        reason="dist/$shipped or dist/RECORD isn't there"
    elif is_as_checked || is_right; then
        # It may be for another C library, may not be marked as a program, or lie where none may be started.
        said=$("$file" 2>&1 </dev/null)
        status=$?
        [ "$status" != 2 ] || [ "$said" != 'words not understood' ] || return 0
        said=${said%%$'\n'*}
        reason="dist/$shipped doesn't start here: status $status${said:+, ${said##*: }}"
    fi
    return 1
}

# The kit's own line. To ask for it takes a third of a second, so that is done only where rt is another
# file than at the last build. Where there is no rt, the kit counts as the last one.
read_kit() {
    local known=()
    [ ! -e "$record" ] || mapfile -t known <"$record"
    rt_file=$(stat -Lc '%n %d %i %s %Z' "$(command -v rt)" 2>/dev/null)
    if [ -n "$rt_file" ] && [ "$rt_file" != "${known[1]-}" ]; then
        kit=$(rt version)
    else
        kit=${known[0]-}
    fi
}

is_built() {
    local known
    read_kit
    sum=$(sum_with "$kit" "$sources")
    [ -x "$program" ] && [ -e "$record" ] || return 1
    mapfile -t known <"$record"
    [ "$sum" = "${known[2]-}" ] && [ "$(sum_of_file "$program")" = "${known[3]-}" ]
}

is_command "${1-}" || refuse "$@"
. "$top/dist/sources.bash" || exit 125
sources=
! is_shipped || exec "$top/dist/$shipped" "$@"
[ -n "$sources" ] || read_sources
if ! is_built; then
    [ -z "$reason" ] || say "$reason"
    [ -n "$rt_file" ] || fail "the command rt isn't on the PATH, and the program has to be built"
    . "$top/dist/build.bash"
    take_turn
    # It may have been built meanwhile.
    read_sources
    is_built || {
        build "$crate"
        printf '%s\n' "$kit" "$rt_file" "$sum" "$(sum_of_file "$program")" >"$record"
    }
    end_turn
fi
exec "$program" "$@"
