#!/bin/sh
# Times turns of a hart under `ldso turns rr`, the loop of bench/steps.sh as a program, three times over. To be
# compared with what bench/steps.sh prints of a step over a plain memory, run just before or behind it. Run by
# hand: bench/turns.sh [MILLIONS]. It needs ldso built (rt run in crates/ldso, or PROGRAM names another).
set -eu
top=$(cd "$(dirname "$0")/.." && pwd)
program=${PROGRAM:-$top/crates/ldso/out/ldso}
millions=${1:-20}
work=$(mktemp -d)
trap 'rm -rf "$work"' EXIT
cd "$work"

# Five instructions a round.
cat > loop.s <<SOURCE
.kind prog
_start: la t0, d
li t1, $((millions * 200000))
again: ld a0, 0(t0)
add a0, a0, sp
sd a0, 0(t0)
addi t1, t1, -1
bnez t1, again
li a0, 0
li a7, 93
ecall
.data
.align 8
d: .dword 4
SOURCE
"$program" asm loop.s > loop
for round in 1 2 3; do
    python3 - "$program" "$millions" <<'TIME'
import os, subprocess, sys
program, millions = sys.argv[1], int(sys.argv[2])
said = subprocess.run([program, "turns", "--fuel", "4294967296", "rr", "loop"], capture_output=True, text=True)
assert said.stdout.endswith("end 0 exit\n"), said.stdout
print(f"{millions} million turns: {os.times().children_user * 1000 / millions:.1f} ns a turn")
TIME
done
