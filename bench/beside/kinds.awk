# What `scq run` writes with these four topics, for any files.
BEGIN {
    n = split("get words err echo put len tick sum -", declared, " ")
    for (i = 1; i < n; i += 2) kind[declared[i]] = declared[i + 1]
}
FNR == 1 { file++ }
length($0) {
    space = index($0, " ")
    topic = space ? substr($0, 1, space - 1) : $0
    payload = space ? substr($0, space + 1) : ""
    if (!(topic in kind)) topic = "-"
    if (kind[topic] == "echo") reply = payload
    else if (kind[topic] == "words") reply = split(payload, parts)
    else if (kind[topic] == "sum") {
        reply = 0
        for (i = split(payload, parts, " "); i > 0; i--) reply += parts[i]
    } else reply = length(payload)
    print file ":" FNR " " topic " " reply
    count[topic]++
    bytes[topic] += length(payload)
}
END {
    for (i = 1; topic = declared[i]; i += 2) printf "total %s %d %d\n", topic, count[topic], bytes[topic]
}
