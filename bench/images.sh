#!/bin/sh
# Times the image of one object of 8 MiB in guest memory with 250,000 relocations, made and relocated, as
# Rattle builds seg_image and relocator, against a plain Rust loop over the same bytes (bench/images.rs,
# which gives no roles). Run by hand: bench/images.sh [ROUNDS]; it proves what isn't proved yet. It needs
# python3 and rustc. More relocations of so many places don't fit: each takes 24 bytes of the object's
# table and 8 of its data, and guest memory has 8 MiB.
set -eu
rounds=${1:-50}
top=$(cd "$(dirname "$0")/.." && pwd)
work=$(mktemp -d)
trap 'rm -rf "$work"' EXIT

crates='ld_base library_source elf_head elf_dynamic elf_versions sym_hash elf_object scope_rule address_space
history_event history_graph tls_blocks seg_image relocator history_state history_journal'
mkdir -p "$work/crates/bench/src" "$work/crates/bench/specs"
mkdir -p "$work/crates/bench/proofs/bindings" "$work/crates/bench/proofs/run" "$work/crates/bench/proofs/main"
for crate in $crates; do
    cp -r "$top/crates/$crate" "$work/crates/"
    grep -E "^$crate:" "$top/crates.txt" >> "$work/crates.txt"
done
echo 'bench: ld_base elf_object seg_image relocator history_journal' >> "$work/crates.txt"

cat > "$work/crates/bench/src/main.rt" <<'FILE'
//! Makes the image of the file `object` and relocates it, so many times.
#![tactic(auto)]

ghost use Rattle.std.specs.Prelude.{◌≡◌, map, IfOk};
ghost use Rattle.relocator.specs.Bindings.{AreBindings};
ghost use Rattle.seg_image.specs.Accepted.{Accepted};
ghost use Rattle.seg_image.specs.Pages.{IsPlaced};
ghost use Rattle.bench.specs.Weak.{undefined};

use elf_object::read_object;
use history_journal::one_image;
use ld_base::{Bytes, Choice, Object, Reloc, Serial, SharedBytes};
use relocator::{Binding, Bindings, TlsPlaces, relocate};
use seg_image::{low_of, make_image, pages_of};
use std::alloc::{AllocError, Global};
use std::{fs, io};

const ROUNDS: u64 = 1;

const BASE: u64 = 0x10000;

/// The symbol of the relocation is weak and has no definition.
fn undefined(alloc: Global, _reloc: &Reloc) -> Binding
    ensures { result ≡ undefined }
{
    Binding {
        bound: true,
        choice: Choice::WeakZero,
        value: 0,
        size: 0,
        object: None,
        copied: Bytes::new(alloc),
    }
}

/// Every symbol is weak and has no definition.
fn bindings(alloc: Global, relocs: &[Reloc]) -> Result<Bindings, AllocError>
    ensures { IfOk result (λ bindings. bindings ≡ map (λ r. undefined) relocs.now) }
{
    let mut bindings = Bindings::new(alloc);
    for reloc in relocs {
        bindings.push(undefined(alloc, reloc))?;
    }
    Ok(bindings)
}

/// The sum of a word of each image.
#[tactic(auto, unfolding(seg_image::specs::Pages::guest_address))]
fn run(alloc: Global, object: &Object) -> Result<u64, AllocError>
    requires { Accepted object.now }
{
    if !object.plt_relocs.is_empty() || low_of(object) != 0 || pages_of(object) > 2048 {
        return Ok(0);
    }
    let bindings = bindings(alloc, object.relocs.as_slice())?;
    rounds(alloc, object, &bindings)
}

fn rounds(alloc: Global, object: &Object, bindings: &Bindings) -> Result<u64, AllocError>
    requires accepted { Accepted object.now }
    requires placed { IsPlaced object.now 0x10000 }
    requires bindings { AreBindings object.now bindings.now }
{
    let mut sum: u64 = 0;
    for _ in 0..ROUNDS {
        sum = sum.wrapping_add(round(alloc, object, bindings)?);
    }
    Ok(sum)
}

fn round(alloc: Global, object: &Object, bindings: &Bindings) -> Result<u64, AllocError>
    requires accepted { Accepted object.now }
    requires placed { IsPlaced object.now 0x10000 }
    requires bindings { AreBindings object.now bindings.now }
{
    let places = TlsPlaces::new(alloc);
    let mut image = make_image(alloc, object, BASE)?;
    let relocated = relocate(&mut image, object, BASE, Serial::new(1), bindings, &places);
    match (relocated, image.words.as_slice().get(1002)) {
        (Ok(()), Some(word)) => Ok(word.value),
        _ => Ok(0),
    }
}

fn main(rt: HostRuntime) -> io::Result<()> {
    let bytes = fs::read(&rt, "object")?;
    one_image();
    let file = SharedBytes::from_vec(bytes)?;
    match read_object(rt.alloc(), &file, false) {
        Ok((object, _table)) => println!(rt; "{}", run(rt.alloc(), &object)?),
        Err(_) => println!(rt; "it isn't accepted"),
    }
}
FILE

cat > "$work/crates/bench/specs/Lib.antt" <<'FILE'
pub mod Weak
FILE

cat > "$work/crates/bench/specs/Weak.antt" <<'FILE'
-- A weak symbol without a definition.
use Rattle.std.specs.Prelude.{true, None, []}
use Rattle.ld_base.specs.declared.linking.Choice.TheVariants.{WeakZero}
use Rattle.relocator.specs.declared.binding.Binding.{Binding}

abbrev pub undefined : Binding
undefined = record { bound = true; choice = WeakZero; value = 0; size = 0; object = None; copied = [] }
FILE

cat > "$work/crates/bench/proofs/Lib.antt" <<'FILE'
pub mod Bound
FILE

cat > "$work/crates/bench/proofs/Bound.antt" <<'FILE'
-- Such a binding serves every relocation.
use Rattle.std.proofs.Common.{◌≡◌, ◌≢◌, ℕ, zero, suc, ◌+◌, List, [], ◌∷◌, length, map, drop, Option, Some, None, true, refl, sym, ap, subst, ◌∙◌, arith}
use Rattle.std.specs.Prelude.{IsTrue, min}
use Rattle.std.specs.List.{slice_get, zip}
use Rattle.std.proofs.lemmas.List.{length-map}
use Rattle.std.proofs.lemmas.Option.{slice_get_past}
use Rattle.ld_base.specs.declared.object.Object.{Object}
use Rattle.ld_base.specs.declared.object.Reloc.{Reloc}
use Rattle.relocator.specs.Bindings.{AreBindings, IsBinding}
use Rattle.relocator.specs.declared.binding.Binding.{Binding}
use Rattle.bench.specs.Weak.{undefined}

none_least : (n : ℕ) → min n 0 ≡ 0
none_least n = omega arith

serves : (o : Object) (r : Reloc) → IsBinding o r undefined
serves o r = record { found = λ same. absurd cc; object = refl; weak = λ same. (refl, refl); copied = λ is. sym (none_least _) }

abbrev bound_by : Option (Reloc × Binding) → Binding
bound_by None = undefined
bound_by (Some p) = p.1

same : (rs : List Reloc) (k : ℕ) (r : Reloc) (b : Binding) → slice_get (zip rs (map (λ (x : Reloc). undefined) rs)) k ≡ Some (r, b) → undefined ≡ b
same [] k r b is = absurd (let none : slice_get (zip {K = Reloc} {X = Binding} [] []) k ≡ None = slice_get_past (zip {K = Reloc} {X = Binding} [] []) k (omega arith) in cc)
same (x ∷ rs) zero r b is = ap bound_by is
same (x ∷ rs) (suc k) r b is = same rs k r b is

nothing : (o : Object) (k : ℕ) (r : Reloc) (b : Binding) (bs : List Binding) → o.plt_relocs ≡ [] → slice_get (zip o.plt_relocs bs) k ≡ Some (r, b) → IsBinding o r b
nothing o k r b bs none is =
    let there : slice_get (zip {K = Reloc} {X = Binding} [] bs) k ≡ Some (r, b) = subst (λ (rs : List Reloc). slice_get (zip rs bs) k ≡ Some (r, b)) none is in
    absurd (let past : slice_get (zip {K = Reloc} {X = Binding} [] bs) k ≡ None = slice_get_past (zip {K = Reloc} {X = Binding} [] bs) k (omega arith) in cc)

pub are_bindings : (o : Object) → o.plt_relocs ≡ [] → AreBindings o (map (λ r. undefined) o.relocs)
are_bindings o none = record {
  count = let many = length-map o.relocs (λ (r : Reloc). undefined) in let no : length o.plt_relocs ≡ 0 = ap length none in omega arith;
  relas = λ k r b is. subst (λ (x : Binding). IsBinding o r x) (same o.relocs k r b is) (serves o r);
  slots = λ k r b is bound. nothing o k r b (drop (length o.relocs) (map (λ (r : Reloc). undefined) o.relocs)) none is;
}
FILE

cat > "$work/crates/bench/proofs/bindings/Invariants.antt" <<'FILE'
use Rattle.std.proofs.Common.{◌≡◌, map, take}
use Rattle.bench.specs.Weak.{undefined}
use Rattle.bench.proofs.bindings.Given as goal

-- one for each relocation so far
abbrev pub invariant-loop-reloc : goal.invariant-loop-reloc
invariant-loop-reloc l = l.bindings ≡ map (λ r. undefined) (take l.reloc-index l.relocs)
FILE

cat > "$work/crates/bench/proofs/bindings/Answers.antt" <<'FILE'
use Rattle.std.proofs.Common.{◌≡◌, ◌∙◌, ap, sym, ℕ, ◌+◌, ◌<◌, List, [], ◌∷◌, ◌++◌, map, take, length, arith, pos}
use Rattle.std.proofs.lemmas.List.{map_more}
use Rattle.ld_base.specs.declared.object.Reloc.{Reloc}
use Rattle.relocator.specs.declared.binding.Binding.{Binding}
use Rattle.bench.specs.Weak.{undefined}
use Rattle.bench.proofs.bindings.Goals as goal

null : Reloc
null = record { place = 0; kind = 0; symbol = 0; addend = pos 0 }

grown : (relocs : List Reloc) (old new : List Binding) (b : Binding) (i : ℕ) → i < length relocs → old ≡ map (λ (r : Reloc). undefined) (take i relocs) → new ≡ old ++ b ∷ [] → b ≡ undefined
    → new ≡ map (λ (r : Reloc). undefined) (take (i + 1) relocs)
grown relocs old new b i low so pushed is =
    pushed ∙ ap (λ (bs : List Binding). bs ++ b ∷ []) so ∙ ap (λ (x : Binding). map (λ (r : Reloc). undefined) (take i relocs) ++ x ∷ []) is
    ∙ sym (map_more (λ (r : Reloc). undefined) relocs i null low)

pub loop-reloc-preserved : goal.loop-reloc-preserved
loop-reloc-preserved c =
    grown c.args.relocs.now c.loop-reloc.bindings c.push.new.self c.undefined.result c.loop-reloc.reloc-index
    (omega (arith, c.loop-reloc-test.true)) c.loop-reloc.invariant c.in_ok-push.ensures.ok c.undefined.ensures
FILE

cat > "$work/crates/bench/proofs/run/Answers.antt" <<'FILE'
use Rattle.std.proofs.Common.{◌≡◌, ◌∙◌, ap, sym, subst, ℕ, Bool, true, ◌==◌, List, [], ◌∷◌, length, map, refl, arith}
use Rattle.std.proofs.lemmas.Bool.{eqb-true}
use Rattle.ld_base.specs.declared.object.Reloc.{Reloc}
use Rattle.relocator.specs.Bindings.{AreBindings}
use Rattle.bench.specs.Weak.{undefined}
use Rattle.bench.proofs.Bound.{are_bindings}
use Rattle.bench.proofs.run.Goals as goal

nothing : (rs : List Reloc) (b : Bool) → b ≡ true → b ≡ (length rs == 0) → rs ≡ []
nothing [] b full is = refl
nothing (r ∷ rs) b full is =
    let none : length (r ∷ rs) ≡ 0 = eqb-true (length (r ∷ rs)) 0 (sym is ∙ full) in
    absurd (omega (arith, none))

pub rounds-requires-clause-bindings : goal.rounds-requires-clause-bindings
rounds-requires-clause-bindings c =
    subst (AreBindings c.args.object.now) (sym (c.in_ok-bindings.ensures ∙ ap (map (λ (r : Reloc). undefined)) c.as_slice.ensures))
    (are_bindings c.args.object.now (nothing c.args.object.now.plt_relocs c.is_empty.result c.if-not-is_empty.false c.is_empty.ensures))
FILE

cat > "$work/crates/bench/proofs/main/Answers.antt" <<'FILE'
use Rattle.bench.proofs.main.Goals as goal

pub run-requires : goal.run-requires
run-requires c = c.one_image.ensures.spelled _ _ _ c.in-Ok.ensures.answers
FILE

python3 - "$top/bench" "$work/crates/bench/object" <<'OBJECT'
import sys
sys.path.insert(0, sys.argv[1])
import objects
with open(sys.argv[2], "wb") as file:
    file.write(objects.build(1, [8 * k for k in range(250000)]))
OBJECT

# The processor time of a program.
seconds() {
    python3 -c 'import os, subprocess, sys
subprocess.run(sys.argv[1:], check=True, stdout=subprocess.DEVNULL)
times = os.times()
print(times.children_user + times.children_system)' "$@"
}

# The program that makes so many images.
built() {
    sed -i "s/^const ROUNDS: u64 = .*/const ROUNDS: u64 = $1;/" src/main.rt
    rt run > "$work/log" 2>&1 || { tail -20 "$work/log"; exit 1; }
    cp out/bench "$work/images-$1"
}

cd "$work/crates/bench"
built 1
built "$rounds"
rustc --edition 2024 -C opt-level=3 -C codegen-units=1 -C target-cpu=x86-64-v2 -o "$work/plain" "$top/bench/images.rs"
for _ in 1 2 3; do
    one=$(seconds "$work/images-1")
    all=$(seconds "$work/images-$rounds")
    plain_one=$(seconds "$work/plain" 1)
    plain_all=$(seconds "$work/plain" "$rounds")
    echo "$one $all $plain_one $plain_all" | awk -v n="$rounds" '{
        ours = ($2 - $1) / (n - 1) * 1000; plain = ($4 - $3) / (n - 1) * 1000
        printf "an image: %.1f ms, plain Rust %.1f ms, ratio %.2f\n", ours, plain, ours / plain
    }'
done
