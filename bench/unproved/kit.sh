# Compiles programs over crates that nothing proves, for the scripts that source this.
#
# A program goes through `rattle-cases`, which older kits have, with a compiler that keeps the module that it is to
# compile with -O3. What today's `rt try` compiles tests each step as it runs, so that its times say nothing.
kit=$(dirname "$(dirname "$(readlink -f "$(rt doc)")")")
own=$kit/on/$(uname -m)
target=x86_64-unknown-linux-gnu
if [ ! -x "$own/bin/rattle-cases" ]; then
    echo "bench: this kit compiles only what is proved; one with rattle-cases is needed" >&2
    exit 2
fi

# sources REPOSITORY NAME...: words that name the sources of these crates and of all that they reach, the lowest first;
# crates.txt has each crate after those that it uses.
sources() {
    local repository=$1
    shift
    tac "$repository/crates.txt" | awk -F: -v names="$*" -v place="$repository/crates" '
        BEGIN { n = split(names, name, " "); for (i = 1; i <= n; i++) reached[name[i]] = 1 }
        { sub(/ .*/, "", $1) }
        reached[$1] {
            print "--lib " $1 "=" place "/" $1 "/src/lib.rt"
            n = split($2, used, " ")
            for (i = 1; i <= n; i++) reached[used[i]] = 1
        }' | tac
}

# kit_sources NAME...: the same of libraries of the kit.
kit_sources() {
    for name in "$@"; do echo "--lib $name=$kit/libs/$name/src/lib.rt"; done
}

# keeping_toolchain ROOM: the toolchain in ROOM/toolchain, with a compiler that keeps its module in ROOM/module.bc.
keeping_toolchain() {
    mkdir -p "$1/toolchain/bin"
    ln -s "$(readlink -f "$own/toolchain/lib")" "$1/toolchain/lib"
    for program in "$own"/toolchain/bin/*; do ln -s "$program" "$1/toolchain/bin/"; done
    rm "$1/toolchain/bin/clang"
    cat >"$1/toolchain/bin/clang" <<SH
#!/bin/sh
case " \$* " in *" -O3 "*) cp module.bc "$1/module.bc" ;; esac
exec "$own/toolchain/bin/clang" "\$@"
SH
    chmod +x "$1/toolchain/bin/clang"
}

# write_module ROOM PROGRAM WORDS...: the module of a program as LLVM text, in ROOM/module.ll; what went wrong, where
# there is none. WORDS are for `rattle-cases`: objects to link first, `--link FILE`, then libraries.
write_module() {
    local room=$1 linked=()
    cp "$2" "$room/main.rt"
    shift 2
    while [ "${1:-}" = --link ]; do
        linked+=("$1" "$2")
        shift 2
    done
    set -- "$room/main.rt" --crate-name unproved --lib "std=$kit/libs/std/src/lib.rt" "$@"
    keeping_toolchain "$room"
    (cd "$room" && "$own/bin/rattle-cases" --toolchain "$room/toolchain" "${linked[@]}" "$@") >"$room/log" 2>&1 || true
    if [ ! -f "$room/module.bc" ]; then
        cat "$room/log" >&2
        "$own/bin/rattle-print-mir" "$@" 2>&1 >/dev/null | head -n 20 >&2
        return 1
    fi
    "$own/toolchain/bin/clang" --target=$target -x ir -S -emit-llvm -O0 -Xclang -disable-llvm-passes \
        -o "$room/module.ll" "$room/module.bc"
}

# compile_module ROOM: ROOM/module.o of ROOM/module.ll, with the words with which such a kit compiles a static library.
compile_module() {
    "$own/toolchain/bin/clang" --target=$target -march=x86-64 -ffunction-sections -fdata-sections \
        -mllvm -trap-unreachable -mllvm -no-trap-after-noreturn --no-default-config -no-canonical-prefixes \
        -fintegrated-cc1 -c -x ir "$1/module.ll" -o "$1/module.o" -fPIC -O3 -Xclang -fmerge-functions \
        -mllvm -mergefunc-use-aliases --sysroot="$own/toolchain"
}
