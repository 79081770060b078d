#!/bin/sh
# Compares `ldso dump` of objects with what readelf says of them. Run by hand:
# bench/readelf.sh OBJECT.. (Debian: binutils-riscv64-linux-gnu).
set -eu
top=$(cd "$(dirname "$0")/.." && pwd)
work=$(mktemp)
trap 'rm -f "$work"' EXIT
for object in "$@"; do
    (cd "$(dirname "$object")" && "$top/crates/ldso/out/ldso" dump "$(basename "$object")") > "$work"
    python3 "$top/bench/readelf.py" "$work" "$object"
done
