#!/usr/bin/env bash
# Stands in the place of the kit's `rattle` below bench/gate: runs it (RATTLE), and notes in the folder NOTES what took
# how long. A line of `checks` has a crate, which check of it, the number of an edit, seconds by the clock and of the
# processor, and KB held; one of `functions` a crate, the microseconds since the function before was done, none for the
# first, which has the libraries' loading before it, and the name.
crate='' which=proof number=- words=("$@")
for ((at = 0; at < $#; at++)); do
    next=${words[at + 1]-}
    case ${words[at]} in
        --crate-name) crate=$next ;;
        --test) which=tests ;;
        --crate-checked) which=build ;;
        # Edits are tried over a check of the crate from nothing; once they were, it is checked over that too.
        --incremental)
            case $next in
                */seed) [ -n "$(ls -A "$next")" ] && which=fixed || which=seed ;;
                *) which=edit number=${next##*/} ;;
            esac
            ;;
    esac
done
[ -n "$crate" ] || exec "$RATTLE" "$@"
[[ $which$PWD != proof*/rt-edit-* ]] || which=edit number=anew
run=(/usr/bin/time -q -a -o "$NOTES/checks" -f "$crate $which $number %e %U %S %M" "$RATTLE" "$@")
case $1-$which in
    check-proof | check-seed)
        "${run[@]}" --progress 2>&1 | while IFS= read -r line; do
            [[ $line = 'checked '* ]] || { printf '%s\n' "$line" && continue; }
            now=${EPOCHREALTIME/./} name=${line#checked }
            echo "$crate $((now - ${before:-$now})) ${name%, *}" >>"$NOTES/functions"
            before=$now
        done
        status=${PIPESTATUS[0]}
        ;;
    *) "${run[@]}" && status=0 || status=$? ;;
esac
[ "$status" -le 128 ] || kill -$((status - 128)) $$
exit "$status"
