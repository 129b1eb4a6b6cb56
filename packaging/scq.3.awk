# Makes the manual page scq(3), scq_bell(3) or scq_ring(3), of the header and of its own frame, so that what stands in the header stands on the page:
#
#     awk -f scq.3.awk scq.h scq.3
#     awk -f scq.3.awk scq_bell.h scq_bell.3
#     awk -f scq.3.awk scq_ring.h scq_ring.3
#
# The frame's lines @HEAD@, @SYNOPSIS@, @TYPES@, @CALLS@ and @ANSWERS@ are filled by the header's first comment, its declarations with their
# comments, its structs, and its enumeration. Of an inline function the head is taken, and not the body.

function escaped(s) {
    gsub(/\\/, "\\e", s)
    gsub(/-/, "\\-", s)
    if (s ~ /^[.']/) s = "\\&" s
    return s
}

# A line of text, with the names that a program writes in bold.
function marked(s) {
    s = escaped(s)
    gsub(/(SCQ|scq)_[A-Za-z_0-9]*[A-Za-z0-9]/, "\\fB&\\fP", s)
    return s "\n"
}

# The text of a comment. A line without text ends a paragraph, and one that begins with a number or with what is asked, tested or answered
# begins one.
function page(text,    count, i, line, out, gap) {
    count = split(text, line, "\n")
    out = ""
    gap = 0
    for (i = 1; i <= count; i++) {
        if (line[i] ~ /^ *$/) { gap = 1; continue }
        if (match(line[i], /^[0-9]+\. /)) {
            out = out ".IP " substr(line[i], 1, RLENGTH - 1) " 4\n"
            line[i] = substr(line[i], RLENGTH + 1)
        } else if (match(line[i], /^(Asks|Tested|Answers): /)) {
            out = out ".IP " substr(line[i], 1, RLENGTH - 2) " 9\n"
            line[i] = substr(line[i], RLENGTH + 1)
        } else if (gap && out != "") out = out ".PP\n"
        gap = 0
        sub(/^ +/, "", line[i])
        out = out marked(line[i])
    }
    return out
}

# Line by line of the header.
FNR == NR && in_comment {
    at_end = sub(/ *\*\/.*$/, "")
    sub(/^ \* ?/, "")
    comment = comment "\n" $0
    if (at_end) in_comment = 0
    if (at_end && head == "") { head = comment; comment = "" }
    next
}
FNR == NR && in_enum {
    if (/^};/) in_enum = 0
    else if (match($0, /SCQ_[A-Z_]+ = [0-9]+/)) {
        name = substr($0, RSTART, RLENGTH)
        text = $0
        if (!sub(/^.*\/\* */, "", text)) text = "the call did what it says"
        sub(/ *\*\/.*$/, "", text)
        answers = answers ".TP\n\\fB" escaped(name) "\\fP\n" escaped(text) "\n"
    }
    next
}
FNR == NR && in_type {
    types = types escaped($0) "\n"
    if (/^}/) { in_type = 0; types = types "\n"; comment = "" }
    next
}
FNR == NR && in_call {
    sub(/^ +/, " ")
    declare($0)
    next
}
FNR == NR && /^\/\* / {
    comment = $0
    at_end = sub(/ *\*\/.*$/, "", comment)
    sub(/^\/\* /, "", comment)
    in_comment = !at_end
    next
}
FNR == NR && /^enum/ { in_enum = 1; comment = ""; next }
FNR == NR && /^typedef struct/ { in_type = 1; types = types escaped($0) "\n"; next }
# A name may be defined in several ways, for several compilers: the page has the first.
FNR == NR && /^#define SCQ_[A-Z_]+(\([a-z, ]+\))? / {
    match($2, /^[A-Z_]+/)
    name = substr($2, 1, RLENGTH)
    if (name !~ /_H$/ && !(name in defined)) { defined[name]; line_of[++lines] = name; text_of[name] = escaped($0) }
    comment = ""
    next
}
# What is for the header alone.
FNR == NR && /^#undef / { delete text_of[$2]; next }
# A declaration whose lines end with a semicolon, or of an inline function with its brace. Those that follow one another have one comment.
FNR == NR && /^(static inline )?(SCQ_ANSWERED )?[a-z][a-z0-9_ ]*[ *]scq_[a-z0-9_]+\(/ {
    in_call = 1
    declared = ""
    declare($0)
    next
}
FNR == NR { if (/^$/) comment = ""; next }

function declare(line) {
    declared = declared line
    if (line !~ /[;{]/) return
    in_call = 0
    sub(/ *[;{].*$/, "", declared)
    sub(/^static inline /, "", declared)
    sub(/^SCQ_ANSWERED /, "", declared)
    match(declared, /scq_[a-z0-9_]+\(/)
    name = substr(declared, RSTART, RLENGTH - 1)
    # One that has no comment is for the header alone.
    if (comment == "") return
    line_of[++lines] = name
    text_of[name] = "\\fB" escaped(declared) ";\\fP"
    calls = calls ".SS " name "\n" page(comment)
}

# The header's macros and calls, in the order in which they stand there.
function synopsis(    i, out) {
    for (i = 1; i <= lines; i++) if (line_of[i] in text_of) out = out text_of[line_of[i]] "\n"
    return out
}

/^@HEAD@$/ { printf "%s", page(head); next }
/^@SYNOPSIS@$/ { printf "%s", synopsis(); next }
/^@TYPES@$/ { printf "%s", types; next }
/^@CALLS@$/ { printf "%s", calls; next }
/^@ANSWERS@$/ { printf "%s", answers; next }
{ print }
