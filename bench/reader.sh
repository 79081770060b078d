#!/bin/sh
# Times `ldso dump` of large objects against `readelf -aWD` of the same files (they have no sections, so
# that only -D makes it print their symbols and relocations), both written to a file,
# and says how much memory it took. Run by hand: bench/reader.sh. It needs python3, GNU time, and
# readelf for RISC-V (Debian: time, binutils-riscv64-linux-gnu).
set -eu
top=$(cd "$(dirname "$0")/.." && pwd)
program=$top/crates/ldso/out/ldso
work=$(mktemp -d)
trap 'rm -rf "$work"' EXIT
python3 "$top/bench/objects.py" "$work"

seconds() {
    best=
    for _ in 1 2 3; do
        /usr/bin/time -f '%e %M' -o "$work/time" "$@" > "$work/out" 2> /dev/null || true
        now=$(tail -n 1 "$work/time")
        best=$(printf '%s\n%s\n' "$best" "$now" | grep . | sort -n | head -n 1)
    done
    echo "$best"
}

printf '%-14s %8s %8s %8s %8s  %s\n' object dump readelf ratio MiB end
for object in "$work"/*.so; do
    name=$(basename "$object" .so)
    dump=$(cd "$work" && seconds "$program" dump "$name.so")
    end=$(tail -n 1 "$work/out")
    other=$(seconds timeout 20 riscv64-linux-gnu-readelf -aWD "$object")
    echo "$name $dump $other" | awk -v end="$end" '{
        printf "%-14s %8.2f %8.2f %8.2f %8d  %s\n", $1, $2, $4, $2 / ($4 > 0 ? $4 : 0.01), $3 / 1024, end
    }'
done
