#!/bin/sh
# Times SHA-256 and a sort under `ldso turns rr`, a library and a program each, against qemu-riscv64 on the
# same code linked statically, and prints seconds and their ratio. Both have to write the same. Run by hand:
# bench/real.sh [ROUNDS]. It needs clang, lld and qemu-riscv64 (Debian: clang, lld, qemu-user), and ldso
# built (rt run in crates/ldso, or PROGRAM names another).
set -eu
top=$(cd "$(dirname "$0")/.." && pwd)
program=${PROGRAM:-$top/crates/ldso/out/ldso}
rounds=${1:-4}
work=$(mktemp -d)
trap 'rm -rf "$work"' EXIT
cd "$work"
mkdir lib
flags="--target=riscv64-linux-gnu -march=rv64ima -mabi=lp64 -mno-relax -O2 -ffreestanding -fno-builtin -nostdlib -fuse-ld=lld -DROUNDS=$rounds"

seconds() {
    { /usr/bin/env time -f %U "$@" > out 2> spent; } || { tail -3 out spent; exit 1; }
    tail -1 spent
}

for name in hash:sha256 sort:sort; do
    main=${name%:*}
    part=${name#*:}
    # shellcheck disable=SC2086
    clang $flags -fPIC -shared -Wl,-soname,"lib$part.so" "$top/bench/real/$part.c" -o "lib/lib$part.so"
    # shellcheck disable=SC2086
    clang $flags -fPIE -pie -Wl,--no-dynamic-linker "$top/bench/real/${main}_main.c" "lib/lib$part.so" -o "$main"
    # shellcheck disable=SC2086
    clang $flags -static "$top/bench/real/${main}_main.c" "$top/bench/real/$part.c" -o "$main.static"
    ours=$(seconds "$program" turns --lib lib --fuel 4294967296 rr "$main")
    cp out "$main.journal"
    theirs=$(seconds qemu-riscv64 "./$main.static")
    echo "$main: $(head -1 out)"
    tail -2 "$main.journal"
    awk -v a="$ours" -v b="$theirs" -v n="$main" 'BEGIN { printf "%s: ldso %.2f s, qemu-riscv64 %.2f s, ratio %.1f\n", n, a, b, a / b }'
done
