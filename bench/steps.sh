#!/bin/sh
# Times steps of a hart over a plain memory, as Rattle builds them, against the same sources as plain
# Rust: contracts and ghost items taken out, built by rustc. Run by hand: bench/steps.sh [MILLIONS]
set -eu
millions=${1:-100}
top=$(cd "$(dirname "$0")/.." && pwd)
work=$(mktemp -d)
trap 'rm -rf "$work"' EXIT

mkdir -p "$work/repo/crates/bench/src"
for crate in ld_base rv_isa rv_hart; do
    mkdir "$work/repo/crates/$crate"
    for part in src specs proofs out; do
        if [ -d "$top/crates/$crate/$part" ]; then
            cp -r "$top/crates/$crate/$part" "$work/repo/crates/$crate/"
        fi
    done
done
{
    grep -E '^(ld_base|rv_isa|rv_hart):' "$top/crates.txt"
    echo 'bench: ld_base rv_isa rv_hart'
} > "$work/repo/crates.txt"

# A loop of five instructions: ld a0, 64(x0); add a0, a0, sp; sd a0, 64(x0); addi sp, sp, -1;
# bnez sp, .-16.
cat > "$work/main" <<'MAIN'
fn run(memory: &mut Plain, steps: u64) -> (u64, u64) {
    let mut hart = Hart::new(0, steps, 0, 0);
    let mut count: u64 = 0;
    for _ in 0..steps {
        match step(&mut hart, memory) {
            Ok(()) => count = count.wrapping_add(1),
            Err(_) => break,
        }
    }
    let sum = hart.x[10];
    (count, sum)
}
MAIN
words='0x0025_0533_0400_3503 0xfff1_0113_04a0_3023 0x0010_0073_fe01_18e3'

plain="$top/bench/plain.rattle"
{
    echo '#![tactic(auto)]'
    sed -n '/^ghost use/p' "$plain"
    echo 'use ld_base::Role;'
    echo 'use rv_hart::{Bus, BusFault, Doubleword, Hart, step};'
    echo 'use rv_isa::AmoOp;'
    sed -n '/^#\[derive(Drop)\]/,$p' "$plain"
    cat "$work/main"
    echo 'fn word(value: u64, role: Role) -> Doubleword { Doubleword { value, role, version: 0 } }'
    echo 'fn main(rt: HostRuntime) -> std::io::Result<()> {'
    echo '    let words = ['
    for value in $words; do echo "        word($value, Role::Rx),"; done
    for _ in 1 2 3 4 5; do echo '        word(0, Role::Rx),'; done
    echo '        word(0, Role::Rw),'
    echo '    ].to_vec(rt.alloc())?;'
    echo '    let mut memory = Plain { words };'
    echo "    let (count, sum) = run(&mut memory, ${millions}000000);"
    echo '    println!(rt; "{count} {sum}")?;'
    echo '    Ok(())'
    echo '}'
} > "$work/repo/crates/bench/src/main.rt"

python3 - "$top" "$work" <<'STRIP'
import pathlib, sys
top, work = map(pathlib.Path, sys.argv[1:])
sys.path.insert(0, str(top / "bench"))
from plain_rust import BASE, crates, strip

rust = work / "rust"
crates(top, rust)
bench = (work / "repo/crates/bench/src/main.rt").read_text()
bench = strip(bench).replace("use ld_base", "use crate::ld_base").replace("use rv_", "use crate::rv_")
bench = bench.replace("rt: HostRuntime", "").replace("rt.alloc()", "").replace("to_vec()?", "to_vec()").replace("println!(rt; ", "println!(").replace('}")?;', '}");')
(rust / "main.rs").write_text(BASE + bench)
STRIP

(cd "$work/repo/crates/bench" && rt run > "$work/rattle.log" 2>&1) || { tail -20 "$work/rattle.log"; exit 1; }
rustc --edition 2024 -C opt-level=3 -C codegen-units=1 -C target-cpu=x86-64-v2 -o "$work/plain" "$work/rust/main.rs"
seconds() { python3 -c 'import os, subprocess, sys; print(subprocess.run(sys.argv[1], capture_output=True, text=True, check=True).stdout.strip()); print(os.times().children_user)' "$1"; }
for round in 1 2 3; do
    ours=$(seconds "$work/repo/crates/bench/out/bench")
    rust=$(seconds "$work/plain")
    printf '%s\n%s\n' "$ours" "$rust" | python3 -c 'import sys; a, t, b, u = sys.stdin.read().split("\n")[:4]; assert a == b, (a, b); n = float(a.split()[0]); print(f"{n:.0f} steps: rattle {float(t)/n*1e9:.2f} ns, rust {float(u)/n*1e9:.2f} ns a step, ratio {float(t)/float(u):.2f}")'
done
