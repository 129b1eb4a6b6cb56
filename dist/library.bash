# How dist/make and packaging/from-assembly link the library, who read this file: for each processor the archive and the shared object, both of one
# object file, which is made of the assembly text that stands beside them. `kit_folder` is the kit's folder, of which all tools are: its clang is also
# LLVM's linker, llvm-ar, llvm-nm and llvm-objcopy. dist/RECORD names its version.

# The version as dist/PACKAGE has it, and its first number: that of the soname, of the symbols' version and of SCQ_VERSION.
version() { sed -n 's/^version: *//p' "$top/dist/PACKAGE"; }
first_number() { version | cut -d . -f 1; }

# One of the tools of the kit's clang, which takes the name that it is started by for the tool's.
tool() { (exec -a "$kit_folder/toolchain/bin/$1" "$kit_folder/toolchain/bin/clang" "${@:2}"); }
lld() { tool ld.lld "$@"; }
tools() { echo "$(lld --version | sed 's/ (.*//'), the kit's, and the other tools of its clang"; }

# The target of a file of dist/, by its folder.
target_of() { echo "${1%%-linux/*}-unknown-linux-gnu"; }

# Compiles C or assembly for a target. There are no headers. Where a processor has atomic instructions beside loops, code that runs on all has loops.
compile() { tool clang --target="$1" -x "$2" -std=c11 -O3 -fPIC -nostdinc -Wall -Wextra -Werror -Wno-unused-command-line-argument -c "$3" -o "$4"; }

# A toolchain as the kit's in a folder that isn't there yet, whose clang leaves in a file the assembly that it makes of a module: `rattle build` takes
# it for its own, and no other assembly comes of one. The text has no table of which addresses are taken, which other assemblers don't know.
toolchain_that_keeps() {
    local text=$1 folder=$2 of=$kit_folder/toolchain it
    mkdir -p "$folder/bin" && ln -s "$of/lib" "$folder/lib" || return
    for it in "$of"/bin/*; do [ "${it##*/}" = clang ] || ln -s "$it" "$folder/bin" || return; done
    cat >"$folder/bin/clang" <<END_OF_FILE && chmod +x "$folder/bin/clang"
#!/usr/bin/env bash
words=()
for word; do
    case \$word in
        -c) words+=(-S -fno-addrsig) ;;
        *.o) words+=("$text") ;;
        *) words+=("\$word") ;;
    esac
done
case " \$* " in *' -c -x ir '*) "$of/bin/clang" "\${words[@]}" || exit ;; esac
exec "$of/bin/clang" "\$@"
END_OF_FILE
}

# The global names that an object file defines, and those that it asks for.
globals_of() { tool llvm-nm -g --defined-only -j "$1"; }
asked_by() { tool llvm-nm -u -j "$1"; }

# The calls for memory: those that the kit has, which are for x86-64, or those of memory.c.
memory_of() {
    local target=$1 to=$2
    case $target in
        x86_64-*) cp "$kit_folder/c/liblibc_c.a" "$to" ;;
        *) compile "$target" c "$top/dist/memory.c" "$to.o" && tool llvm-ar qcsD "$to" "$to.o" ;;
    esac
}

# One object file of these object files and archives, whole, in which the calls, whose names begin with scq_, are global and nothing else is: a program may
# have a rattle_alloc of its own.
join() {
    local to=$1 others
    shift
    lld -r --whole-archive "$@" -o "$to" || return
    tool llvm-objcopy --wildcard --keep-global-symbol='scq_*' "$to" || return
    others=$(globals_of "$to" | grep -vxE 'scq_[a-z0-9_]+')
    [ -z "$others" ] || {
        say "a program can't call these global names of the library: $others"
        return 1
    }
}

# The same object file with the calls hidden: a program links them, and a shared object that holds them keeps them to itself. So two such
# objects, each with a version of its own, may be in one process. The linker gives a name the narrowest visibility that an object asks for.
hide() {
    local target=$1 from=$2 to=$3
    globals_of "$from" | sed 's/.*/.globl &\n.hidden &/' >"$to.s"
    echo '.section .note.GNU-stack,"",%progbits' >>"$to.s"
    compile "$target" assembler "$to.s" "$to.names" && lld -r "$from" "$to.names" -o "$to"
}

# The static library of an object file.
archive() {
    local target=$1 from=$2 to=$3 folder
    folder=$(dirname "$from")
    hide "$target" "$from" "$folder/scq.o" && rm -f "$to" && tool llvm-ar qcsD "$to" "$folder/scq.o"
}

# The C library that the shared object is linked with. The kit's is for x86-64. For another processor it is one that has nothing but the names,
# of the version that glibc gave its first calls there; that all of these are of that version is known of the six that are named here.
c_library() {
    local target=$1 from=$2 to=$3 others
    case $target in
        x86_64-*)
            cp "$kit_folder/toolchain/lib/libc.so.6" "$to"
            return
            ;;
        aarch64-*) echo 'GLIBC_2.17 { global: *; };' >"$to.map" ;;
    esac
    others=$(asked_by "$from" | grep -vxE 'malloc|realloc|free|memcpy|memmove|memset')
    [ -z "$others" ] || {
        say "it isn't known of which version these calls of the C library are: $others"
        return 1
    }
    asked_by "$from" | sed 's/.*/.globl &\n.type &, %function\n&:/' >"$to.s"
    compile "$target" assembler "$to.s" "$to.o" && lld -shared -soname libc.so.6 --version-script "$to.map" "$to.o" -o "$to"
}

# The shared object: its names have a version, its calls among themselves are bound within, and it asks for the C library alone.
shared() {
    local target=$1 from=$2 to=$3 number
    number=$(first_number)
    echo "SCQ_$number { global: scq_*; local: *; };" >"$from.map"
    c_library "$target" "$from" "$from.libc" || return
    lld -shared -soname "libscq.so.$number" --version-script "$from.map" -Bsymbolic -z defs -z now -z relro -z noexecstack --hash-style=gnu \
        --build-id=sha1 "$from" "$from.libc" -o "$to" && chmod 755 "$to"
}

# Writes the static library or the shared object for a target, by how the file is called, of this assembly text, with the calls for memory in it, which
# is all that a program links.
link_library() {
    local target=$1 text=$2 to=$3 room status
    room=$(mktemp -d) || return
    compile "$target" assembler "$text" "$room/made.o" && memory_of "$target" "$room/memory.a" &&
        join "$room/joined.o" "$room/made.o" "$room/memory.a" && case $to in
        *.a.new) archive "$target" "$room/joined.o" "$to" ;;
        *) shared "$target" "$room/joined.o" "$to" ;;
    esac
    status=$?
    rm -rf "$room"
    return "$status"
}
