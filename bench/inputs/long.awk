# `many` messages of so many topics, with payloads of `length_of` bytes.
BEGIN {
    piece = sprintf("%1000s", "")
    gsub(/ /, "y", piece)
    while (length(payload) < length_of) payload = payload piece
    payload = substr(payload, 1, length_of)
    for (i = 0; i < many; i++) print "topic" i % topics " " payload
}
