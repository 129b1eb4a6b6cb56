# What dist/start.bash and dist/make have in common, who read this file: which crates a file is made of, the sum of
# their sources, and what dist/RECORD says of each file of dist/. `top` is the repository's folder.

# The crates of the repository that these crates are made of, lowest first and themselves last.
crates_of() {
    awk -v roots="$*" '
        { sub(/#.*/, "") }
        /:/ { split($0, side, ":"); split(side[1], word, " "); below[word[1]] = side[2] }
        function visit(crate,    count, i, under) {
            if (crate in seen || !(crate in below)) return
            seen[crate]
            count = split(below[crate], under, " ")
            for (i = 1; i <= count; i++) visit(under[i])
            print crate
        }
        END { count = split(roots, root, " "); for (i = 1; i <= count; i++) visit(root[i]) }
    ' "$top/crates.txt"
}

# The lines of crates.txt of these crates.
lines_of() { (IFS='|' && grep -E "^($*)( .*)?:" "$top/crates.txt" | LC_ALL=C sort); }

# The files that these crates are proved and built of.
files_of() {
    (cd "$top/crates" && find "${@/%//src}" "${@/%//specs}" "${@/%//proofs}" -type f -print0 2>/dev/null) | LC_ALL=C sort -z
}

# The sums of all that is made of these crates but the kit: their lines of crates.txt and their files.
sources_of() {
    lines_of "$@"
    files_of "$@" | (cd "$top/crates" && xargs -0 sha256sum --)
}

# One sum of a kit's line and of what sources_of gave.
sum_with() { printf '%s\n' "$1" "$2" | sha256sum | cut -d ' ' -f 1; }

sum_of_file() { sha256sum <"$1" | cut -d ' ' -f 1; }

# A line of dist/RECORD: of the kit or the C library, or of a file where one is named.
recorded() {
    awk -v key="$1:" -v file="${2-}" '
        $1 == "file:" { named = $2 }
        $1 == key && named == file { sub(/^[^ ]* /, ""); print; exit }
    ' "$top/dist/RECORD" 2>/dev/null
}
