# What `scq run` writes without topics.
FNR == 1 { file++ }
length($0) {
    space = index($0, " ")
    size = space ? length($0) - space : 0
    print file ":" FNR " - " size
    count++
    bytes += size
}
END { printf "total - %d %d\n", count, bytes }
