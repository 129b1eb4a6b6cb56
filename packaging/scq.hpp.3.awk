# Makes the manual page scq.hpp(3) of the headers for C++ and of its own frame, so that what stands in a header stands on the page:
#
#     awk -f scq.hpp.3.awk scq.hpp scq_bell.hpp scq.hpp.3
#
# The frame's lines @HEAD@ and @CLASSES@ are filled by the first header's first comment, and by each class, structure and enumeration of both, with
# its comment and those of what is public in it. It reads the headers by how they are laid out: what stands in a class begins behind four spaces.

function escaped(s) {
    gsub(/\\/, "\\e", s)
    gsub(/-/, "\\-", s)
    if (s ~ /^[.']/) s = "\\&" s
    return s
}

# The text of a comment: lines that are further in are an example, a line without text ends a paragraph, and a dash begins a point.
function page(text,    count, i, line, out, is_code, gap) {
    count = split(text, line, "\n")
    for (i = 1; i <= count; i++) {
        if (line[i] ~ /^    /) {
            if (!is_code) out = out ".PP\n.nf\n"
            is_code = 1
            out = out escaped(substr(line[i], 5)) "\n"
            continue
        }
        if (is_code && line[i] != "") { out = out ".fi\n"; is_code = 0; gap = 1 }
        if (line[i] == "") { gap = !is_code; continue }
        if (sub(/^- /, "", line[i])) out = out ".IP \\(bu 2\n"
        else if (gap && out != "") out = out ".PP\n"
        gap = 0
        sub(/^ +/, "", line[i])
        out = out escaped(line[i]) "\n"
    }
    return out (is_code ? ".fi\n" : "")
}

# A declaration without its body, and what is set before it.
function shown(text) {
    gsub(/SCQ_[A-Z_]*NODISCARD /, "", text)
    sub(/ *(: [a-z_]+[({].*)?\{.*$/, "", text)
    sub(/;.*$/, "", text)
    gsub(/ +/, " ", text)
    sub(/^ /, "", text)
    return text
}

FILENAME ~ /\.3$/ {
    if ($0 == "@HEAD@") printf "%s", page(head)
    else if ($0 == "@CLASSES@") printf "%s", classes
    else print
    next
}
FNR == 1 { in_head = 1; hidden = 0; in_class = 0; comment = "" }
in_head && /^\/\// { if (first == "" || first == FILENAME) { first = FILENAME; sub(/^\/\/ ?/, ""); head = head $0 "\n" } next }
{ in_head = 0 }
/^namespace detail/ { hidden = 1 }
/^} \/\/ namespace detail/ { hidden = 0; next }
hidden { next }
# What stands in the namespace.
/^\/\// { sub(/^\/\/ ?/, ""); comment = comment $0 "\n"; next }
/^template/ { sub(/^template <[^>]*> */, ""); if ($0 == "") next }
/^(class|struct|enum class) [A-Za-z]+.*\{$/ {
    is_public = $1 != "class"
    in_class = 1
    is_list = $1 == "enum"
    name = $2
    classes = classes ".SS " shown($0) "\n" page(comment)
    listed = inner = comment = ""
    next
}
/^};/ {
    classes = classes inner (is_list ? ".PP\n" escaped(listed) "\n" : "")
    in_class = is_list = is_inner = 0
    inner = comment = ""
    next
}
/^[a-z].*\(.*\{/ { if (comment != "") classes = classes ".SS " escaped(shown($0)) "\n" page(comment); comment = ""; next }
!in_class { if (/^$/) comment = ""; next }
# A class in a class, which stands behind what else that has.
!is_inner && is_public && /^    class [A-Za-z]+ \{$/ {
    inner = inner ".SS class " name "::" $2 "\n" page(comment)
    is_inner = 1
    is_public = 0
    comment = ""
    next
}
is_inner && /^    };/ { is_inner = 0; is_public = 1; comment = ""; next }
is_inner { sub(/^    /, "") }
is_list { sub(/ = .*$/, ""); sub(/^ +/, ""); listed = listed (listed == "" ? "" : ", ") $0; next }
/^  (public|private|protected):/ { is_public = /public/; comment = ""; next }
!is_public || /^#/ { next }
/^    \/\// { sub(/^    \/\/ ?/, ""); comment = comment $0 "\n"; next }
/^$/ { comment = ""; next }
/^    (class|struct|template|friend|using|static_assert)/ { comment = ""; next }
/^    [A-Za-z~]/ || declared != "" {
    if (/^        / && declared == "") next
    sub(/^ +/, " ")
    declared = declared $0
    if (declared !~ /[{;]/) next
    text = shown(declared)
    declared = ""
    if (text ~ /= (delete|default)$|operator[^ ]*=\(|^~/ ) { comment = ""; next }
    text = ".TP\n\\fB" escaped(text) "\\fP\n" (comment == "" ? "\\&\n" : page(comment))
    if (is_inner) inner = inner text
    else classes = classes text
    comment = ""
}
