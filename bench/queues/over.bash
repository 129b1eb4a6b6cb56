# shellcheck shell=bash disable=SC2154
# What drives the queues of this folder, compiled over each of them: calls.cpp, or what `driver` names.
driver=calls.cpp

# Compiles the driver over this queue, with these flags behind it. A file without a Queue has the Ring of one.
calls_over() {
    local queue=(-DQUEUE="\"$1.hpp\"") program=$2
    grep -q '^struct Queue' "$bench/queues/$1.hpp" || queue=(-DQUEUE='"two.hpp"' -DRING="\"$1.hpp\"")
    shift 2
    g++ -std=c++17 -O3 -march=x86-64-v2 -pthread -Wall -Wextra -Werror -I "$bench/queues" \
        -I "$top/bindings/c" -I "$top/recorders" "${queue[@]}" "$bench/queues/$driver" \
        "$@" -o "$program"
}

# The same over a queue in Rust, with the features behind it too: ArrayQueue, as two of buffers or one of values,
# crossbeam-channel, or the crate of bindings/rust, as its queue or its ring.
rust_over() {
    local kind=$1 program=$2 crate=rust_$1 needs="scq = { path = \"$top/bindings/rust\" }"
    shift 2
    command -v cargo >/dev/null || return 1
    case $kind in
        array | one)
            packages librust-{crossbeam-queue,crossbeam-utils,cfg-if}-dev || return 1
            needs='crossbeam-queue = "0.3"'
            ;;
        channel)
            packages librust-{crossbeam-channel,crossbeam-utils,cfg-if}-dev || return 1
            needs='crossbeam-channel = "0.5"'
            ;;
    esac
    mkdir -p "$crate/src" library
    cp "$bench"/queues/rust/*.rs "$crate/src"
    [ -z "$archive" ] || cp "$archive" library/libscq.a
    cargo_of_debian "$crate" "$needs" '[lib]' 'crate-type = ["staticlib"]' \
        '[features]' 'array = []' 'one = []' 'channel = []' 'scq = []' 'ring = []' 'bare = []'
    (cd "$crate" && SCQ_LIB_DIR=$folder/library RUSTFLAGS='-C target-cpu=x86-64-v2' \
        cargo build -q --release --offline --features "$kind $*")
    [ "$*" != bare ] || set -- -DBARE
    calls_over rust "$program" "$@" "$crate/target/release/lib$crate.a" -ldl
}

# Compiles the driver over each of these queues, as programs of their names, and says which are left out.
peers() {
    local it
    for it; do over_peer "$it" || echo "left out: $it"; done
}

said_packages() { echo "packages: $(basename -s .deb packages/*.deb | tr '\n' ' ')"; }

over_peer() {
    local include=$folder/packages/usr/include libraries=$folder/packages/usr/lib/x86_64-linux-gnu file=$1 more=()
    # shellcheck disable=SC2054
    local loose=(-Wl,--allow-shlib-undefined "-Wl,-rpath,$libraries" -Wl,--disable-new-dtags)
    local headers=(-isystem "$include" -isystem "$include/dpdk" -isystem "$include/x86_64-linux-gnu/dpdk")
    case $1 in
        scq_rust) rust_over scq scq_rust && return ;;
        array) rust_over array array && return ;;
        array_one) rust_over one array_one && return ;;
        channel) rust_over channel channel && return ;;
        ring_rust) rust_over ring ring_rust && return ;;
        scq | scq_bulk | scq_packed | ring_values | ring_pointers) more=("$archive") ;;
        boost) packages libboost1.74-dev && more=(-mcx16) ;;
        tbb) packages libtbb-dev libtbb12 && more=("$libraries/libtbb.so.12" "${loose[@]}") ;;
        moodycamel) packages libconcurrentqueue-dev ;;
        ck)
            packages libck-dev && more=(-flto ck.o) &&
                gcc -std=gnu11 -O3 -march=x86-64-v2 -flto -c -Wall -Wextra -Werror "${headers[@]}" "$bench/queues/ck.c"
            ;;
        rte | rte_bulk)
            file=dpdk${1#rte}
            packages libdpdk-dev librte-{ring,eal,kvargs,telemetry}23 libnuma1 libjansson4 libfdt1 libbsd0 &&
                more=("$libraries"/librte_{ring,eal}.so.23 "${loose[@]}")
            ;;
    esac || return
    calls_over "$file" "$1" "${headers[@]}" "${more[@]}"
}
