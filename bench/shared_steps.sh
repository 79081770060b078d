#!/bin/sh
# Times steps of harts over guest memory in atomic words, as Rattle builds them: one hart, four harts on four
# threads with words of their own, and four that add to one word. Beside it the same steps as plain Rust over
# AtomicU64, where a doubleword is one word, without roles and locks, and an AMO is a compare-exchange loop.
# Run by hand:
#   bench/shared_steps.sh make FOLDER [MILLIONS]    proves the programs and builds them in a new folder, for so
#                                                   many million steps of each hart
#   bench/shared_steps.sh time FOLDER               runs them, three times each: the seconds of processors, all
#                                                   threads together, and those of the clock
set -eu
if [ "$1" = time ]; then
    exec python3 "$(dirname "$0")/time_steps.py" "$2"
fi
mkdir "$2"
work=$(cd "$2" && pwd)
millions=${3:-20}
top=$(cd "$(dirname "$0")/.." && pwd)

below='ld_base rv_isa rv_hart history_event word_rule word_steps word_access word_memory'
mkdir -p "$work/repo/crates/bench/src" "$work/repo/crates/bench/proofs"
cp "$top/HANDLES" "$work/repo/"
for crate in $below; do
    mkdir "$work/repo/crates/$crate"
    for part in src specs proofs; do
        if [ -d "$top/crates/$crate/$part" ]; then
            cp -r "$top/crates/$crate/$part" "$work/repo/crates/$crate/"
        fi
    done
    # (what is kept has many files, which rt never writes into)
    if [ -d "$top/crates/$crate/out" ]; then
        cp -rl "$top/crates/$crate/out" "$work/repo/crates/$crate/" 2>/dev/null || cp -r "$top/crates/$crate/out" "$work/repo/crates/$crate/"
    fi
done
{
    for crate in $below; do grep "^$crate:" "$top/crates.txt"; done
    echo "bench: $below"
} > "$work/repo/crates.txt"

# The function that sets a word, with its proof, is that of test_words.
tests="$top/crates/test_words"
mkdir "$work/repo/crates/bench/specs"
for part in specs proofs; do
    cp "$tests/$part/WordTests/Unset.antt" "$work/repo/crates/bench/$part/"
    echo 'pub mod Unset' > "$work/repo/crates/bench/$part/Lib.antt"
done
cp -r "$tests/proofs/word_tests/words/put_word" "$work/repo/crates/bench/proofs/"
sed -i 's/Rattle\.test_words\.proofs\.word_tests\.words\./Rattle.bench.proofs./; s/Rattle\.test_words\.\(specs\|proofs\)\.WordTests\./Rattle.bench.\1./' \
    "$work"/repo/crates/bench/proofs/*.antt "$work"/repo/crates/bench/proofs/*/*.antt "$work"/repo/crates/bench/specs/*.antt
for part in code data; do
    mkdir "$work/repo/crates/bench/proofs/put_$part"
    cat > "$work/repo/crates/bench/proofs/put_$part/Invariants.antt" <<LOOP
use Rattle.bench.specs.Unset.{AreUnset}
use Rattle.bench.proofs.put_$part.Given as goal

abbrev pub invariant-loop-index : goal.invariant-loop-index
invariant-loop-index g l = AreUnset l.keeper l.index
LOOP
done

mkdir "$work/repo/crates/bench/proofs/main"
cat > "$work/repo/crates/bench/proofs/main/Invariants.antt" <<'PICK'
use Rattle.bench.proofs.main.Given as goal

abbrev pub ghosts-time : goal.ghosts-time
ghosts-time g a = record { table = a.fresh }
PICK

# Two loops of five instructions, at 0x10000 and at 0x10020; sp counts down, a2 is the word's address.
# ld a0, (a2); add a0, a0, sp; sd a0, (a2); addi sp, sp, -1; bnez sp, .-16.
# amoadd.d a0, sp, (a2); add a1, a1, a0; addi a3, a3, 1; addi sp, sp, -1; bnez sp, .-16.
own='0x0025_0533_0006_3503 0xfff1_0113_00a6_3023 0x0010_0073_fe01_18e3 0x0010_0073_0010_0073'
ebreaks='0x0010_0073_0010_0073 0x0010_0073_0010_0073 0x0010_0073_0010_0073 0x0010_0073_0010_0073 0x0010_0073_0010_0073 0x0010_0073_0010_0073'
shared='0x00a5_85b3_0026_352f 0xfff1_0113_0016_8693 0x0010_0073_fe01_18e3 0x0010_0073_0010_0073'

cat > "$work/common" <<'MAIN'
fn hart_at(address: u64) -> Hart {
    let mut hart = Hart::new(PC, STEPS, 0, 0);
    hart.x[12] = address;
    hart
}

// Steps a hart, which tries again what another hart was in the way of.
fn run<B: Bus>(bus: &mut B, address: u64) -> u64 {
    let mut hart = hart_at(address);
    let mut done: u64 = 0;
    for _ in 0..1000 * STEPS {
        if done >= STEPS {
            break;
        }
        if step(&mut hart, bus).is_ok() {
            done = done.wrapping_add(1);
        }
    }
    done
}
MAIN
{
    cat <<'MAIN'
//! Steps over shared words.
#![tactic(auto)]

ghost use Rattle.std.specs.Prelude.{◌≡◌, ◌≢◌, ◌≤◌, ◌<◌, ◌+◌};
ghost use Rattle.ld_base.specs.declared.linking.Role.TheVariants.{None as NoRole, Slot as SlotRole};
ghost use Rattle.word_memory.specs.WordSeats.Making.{IsMade};
ghost use Rattle.bench.specs.Unset.{AreUnset};

use ld_base::Role;
use rv_hart::{Bus, Hart, step};
use std::alloc::{AllocError, Global};
use std::marker::Brand;
use std::thread::{Threads, join};
use word_memory::{
    Fresh, HartSeat, HartSeats, KeeperSeat, Memory, Naming, Seats, TableBus, name_memory, set_word,
};

MAIN
    cat "$work/common"
    sed -n '/^\/\/ Gives a doubleword its role/,/^}/p' "$tests/src/word_tests/words.rt"
    echo "const CODE: [u64; 14] = [$(echo "$own" "$shared" $ebreaks | tr ' ' ',')];"
    cat <<'MAIN'

const WORDS: u64 = 0x1_0000;

// The code.
#[tactic(auto, using(crate::proofs::Unset::unset_first))]
fn put_code<J: Naming>(memory: &Memory<J>, keeper: &mut KeeperSeat<J>)
    requires { IsMade keeper.old 512 4 }
    ensures { AreUnset keeper.new 14 }
{
    for index in 0..14u64 {
        put_word(memory, keeper, index, CODE[index as usize], Role::Rx);
    }
}

// Words that harts write.
fn put_data<J: Naming>(memory: &Memory<J>, keeper: &mut KeeperSeat<J>)
    requires { AreUnset keeper.old 14 }
    ensures { AreUnset keeper.new 48 }
{
    for index in 14..48u64 {
        put_word(memory, keeper, index, 0, Role::Rw);
    }
}
MAIN
    cat <<'MAIN'

// One hart over the words of a memory.
fn over<J: Naming>(memory: &Memory<J>, mut seat: HartSeat<J>, address: u64) -> u64 {
    run(&mut TableBus::new(memory, &mut seat), address)
}

// Two harts on two threads.
fn two<J: Naming + Send + Sync, R: Threads>(
    rt: &R,
    memory: &Memory<J>,
    one: HartSeat<J>,
    other: HartSeat<J>,
    first: u64,
    second: u64,
) -> u64 {
    let (a, b) = join(
        rt,
        || -> u64 { over(memory, one, first) },
        || -> u64 { over(memory, other, second) },
    );
    a.wrapping_add(b)
}

// Four harts on four threads, or one.
fn harts_over<J: Naming + Send + Sync, R: Threads + Sync>(
    rt: &R,
    memory: &Memory<J>,
    seats: HartSeats<J>,
) -> u64 {
    let mut seats = seats.into_vec();
    let (Some(a), Some(b), Some(c), Some(d)) = (seats.pop(), seats.pop(), seats.pop(), seats.pop()) else {
        return 0;
    };
    if ONE {
        return over(memory, a, DATA);
    }
    let (p, q) = join(
        rt,
        || -> u64 { two(rt, memory, a, b, DATA, DATA + STRIDE) },
        || -> u64 { two(rt, memory, c, d, DATA + 2 * STRIDE, DATA + 3 * STRIDE) },
    );
    p.wrapping_add(q)
}

// Makes the memory, and steps the harts.
fn time<J: Naming + Send + Sync, R: Threads + Sync>(rt: &R, fresh: Fresh, alloc: Global) -> Result<u64, AllocError>
    requires { fresh ≡ J.table }
{
    let (memory, seats) = name_memory::<J>(fresh, alloc, 4)?;
    let Seats { mut keeper, harts } = seats;
    put_code(&memory, &mut keeper);
    put_data(&memory, &mut keeper);
    Ok(harts_over(rt, &memory, harts))
}

fn main(rt: HostRuntime) -> std::io::Result<()> {
    let fresh = Memory::new(rt.alloc())?;
    let done = time::<Brand, HostRuntime>(&rt, fresh, rt.alloc())?;
    println!(rt; "{done}")?;
    Ok(())
}
MAIN
} > "$work/main.rt"

cat > "$work/main.rs" <<'RUST'
use crate::ld_base::Role;
use crate::rv_hart::{combined, lane, step, with_lane, Bus, BusFault, Hart};
use crate::rv_isa::AmoOp;
use std::sync::atomic::{AtomicU64, Ordering::SeqCst};

struct Atomics<'a> {
    words: &'a [AtomicU64],
}

impl Atomics<'_> {
    fn word(&self, address: u64, size: u8) -> Result<&AtomicU64, BusFault> {
        if address % u64::from(size) != 0 {
            return Err(BusFault::Misaligned);
        }
        let at = (address.wrapping_sub(0x1_0000) / 8) as usize;
        self.words.get(at).ok_or(BusFault::Role(Role::None))
    }

    fn change(&self, address: u64, size: u8, f: impl Fn(u64) -> u64) -> Result<u64, BusFault> {
        let word = self.word(address, size)?;
        let mut old = word.load(SeqCst);
        loop {
            match word.compare_exchange(old, f(old), SeqCst, SeqCst) {
                Ok(_) => return Ok(old),
                Err(found) => old = found,
            }
        }
    }
}

impl Bus for Atomics<'_> {
    fn fetch(&mut self, address: u64) -> Result<u32, BusFault> {
        Ok(lane(self.word(address, 4)?.load(SeqCst), address, 4) as u32)
    }
    fn read(&mut self, address: u64, size: u8) -> Result<u64, BusFault> {
        Ok(lane(self.word(address, size)?.load(SeqCst), address, size))
    }
    fn write(&mut self, address: u64, size: u8, value: u64) -> Result<(), BusFault> {
        if size == 8 {
            self.word(address, 8)?.store(value, SeqCst);
            return Ok(());
        }
        self.change(address, size, |old| with_lane(old, address, size, value))?;
        Ok(())
    }
    fn amo(&mut self, address: u64, size: u8, op: AmoOp, value: u64) -> Result<u64, BusFault> {
        let old = self.change(address, size, |old| {
            with_lane(old, address, size, combined(op, size, lane(old, address, size), value))
        })?;
        Ok(lane(old, address, size))
    }
    fn reserve(&mut self, _: u64, _: u8) -> Result<(u64, u64), BusFault> {
        Err(BusFault::Misaligned)
    }
    fn conditional(&mut self, _: u64, _: u8, _: u64, _: u64) -> Result<bool, BusFault> {
        Err(BusFault::Misaligned)
    }
}

fn main() {
    let words: Vec<AtomicU64> = (0..1 << 20).map(|_| AtomicU64::new(0)).collect();
    for (at, value) in [OWN, SHARED].concat().into_iter().enumerate() {
        words[at].store(value, SeqCst);
    }
    let harts = if ONE { 1 } else { 4 };
    let done: u64 = std::thread::scope(|scope| {
        let words = &words[..];
        let all: Vec<_> = (0..harts)
            .map(|n| scope.spawn(move || run(&mut Atomics { words }, DATA + n * STRIDE)))
            .collect();
        all.into_iter().map(|hart| hart.join().unwrap()).sum()
    });
    println!("{done}");
}
RUST
python3 "$top/bench/plain_rust.py" "$top" "$work/rust"

# NAME PC STRIDE ONE
case_of() {
    name=$1
    constants="const PC: u64 = $2; const STRIDE: u64 = $3; const STEPS: u64 = ${millions}000000; const ONE: bool = $4; const DATA: u64 = 0x1_0070;"
    { cat "$work/main.rt"; echo "$constants"; } > "$work/repo/crates/bench/src/main.rt"
    (cd "$work/repo/crates/bench" && rt fmt > /dev/null && rt run > "$work/rattle.log" 2>&1) || { tail -30 "$work/rattle.log"; exit 1; }
    {
        python3 -c 'import sys; sys.path.insert(0, sys.argv[1]); from plain_rust import BASE; print(BASE)' "$top/bench"
        echo "$constants"
        echo "const OWN: [u64; 4] = [$(echo "$own" | tr ' ' ',')];"
        echo "const SHARED: [u64; 4] = [$(echo "$shared" | tr ' ' ',')];"
        cat "$work/main.rs" "$work/common"
    } > "$work/rust/main.rs"
    rustc --edition 2024 -C opt-level=3 -C codegen-units=1 -C target-cpu=x86-64-v2 -o "$work/plain" "$work/rust/main.rs"
    cp "$work/repo/crates/bench/out/bench" "$work/$name.rattle"
    mv "$work/plain" "$work/$name.rust"
}
case_of one_hart 0x1_0000 0 true
case_of four_harts_own_words 0x1_0000 64 false
case_of four_harts_one_word 0x1_0020 0 false
