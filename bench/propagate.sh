#!/bin/sh
# How fast literals are propagated: nogoods of three literals at random, as in 3-SAT with 4.26 of them a variable. Variables
# are decided at random, and levels are undone at random where a nogood is violated, until so many literals came to hold.
# usage: bench/propagate.sh [LITERALS], with rt and python3 at hand. It takes minutes: the crates are proved in a copy of the
# repository, since a program that only propagates is no part of the product.
set -eu
literals=${1:-10000000}
here=$(cd "$(dirname "$0")/.." && pwd)
room=$(mktemp -d)
trap 'rm -rf "$room"' EXIT

mkdir "$room/crates"
for name in asp_model asp_table asp_vars asp_trail asp_store; do
    cp -r "$here/crates/$name" "$room/crates"
done
cp "$here/HANDLES" "$room"
cat > "$room/crates.txt" <<'TXT'
asp_model:
asp_table:
asp_vars: asp_model asp_table smallvec
asp_trail: asp_model asp_vars
asp_store: asp_vars asp_trail
propagates: asp_vars asp_trail asp_store
TXT
one=$room/crates/propagates
mkdir -p "$one/src" "$one/proofs/back" "$one/proofs/decide" "$one/proofs/fill" "$one/proofs/turns"
cat > "$one/src/main.rt" <<'RT'
//! Decides and undoes at random over a random program of nogoods with three literals, and says how many literals came to hold.
#![tactic(auto)]
ghost use Rattle.std.specs.Prelude.{◌≡◌, ◌<◌, ◌≤◌, ◌^◌, ◌-◌, ◌∷◌, [], IfSome, IfOk, OnOk, None, length};
ghost use Rattle.asp_vars.specs.Literals.{value_of};
ghost use Rattle.asp_trail.specs.Entries.{assignment};
ghost use Rattle.asp_trail.specs.Trails.{IsVar};
ghost use Rattle.asp_store.specs.Storing.{Fits};
ghost use Rattle.std.specs.List.{All};

use asp_store::laws::{changed_store_fits, changed_trail_fits, new_store_fits};
use asp_store::propagation::Propagated;
use asp_store::store::Store;
use asp_trail::trail::Trail;
use asp_vars::lit::{Lit, Var};
use asp_vars::nogood::{Base, Lits, Nogood};
use std::alloc::{AllocError, Global};
use std::env::{self, Env};
use std::io;

/// Numbers that look random.
#[derive(Drop)]
struct Random {
    state: u64,
}

impl Random {
    fn below(&mut self, n: u32) -> u32
        requires { 0 < n }
        ensures { result < n }
    {
        self.state = self
            .state
            .wrapping_mul(6364136223846793005)
            .wrapping_add(1442695040888963407);
        ((self.state / 4294967296) % (n as u64)) as u32
    }
}

fn lit_at_random(random: &mut Random, vars: u32) -> Lit
    requires some { 0 < vars }
    requires few { vars < 2 ^ 31 - 1 }
    ensures { IsVar vars result.var }
{
    let var = 1 + random.below(vars);
    Lit::new(var, random.below(2) == 0)
}

fn nogood_at_random(alloc: Global, random: &mut Random, vars: u32) -> Result<Nogood, AllocError>
    requires some { 0 < vars }
    requires few { vars < 2 ^ 31 - 1 }
    ensures { IfOk result (λ n. All (λ k. IsVar vars k.var) n.lits) }
{
    let first = lit_at_random(random, vars);
    let second = lit_at_random(random, vars);
    let third = lit_at_random(random, vars);
    let lits = Lits::from_slice(alloc, [first, second, third].as_slice())?;
    Ok(Nogood {
        lits,
        base: Base::Pure,
    })
}

fn add_at_random(
    alloc: Global,
    store: &mut Store,
    trail: &Trail,
    random: &mut Random,
    vars: u32,
) -> Result<(), AllocError>
    requires some { 0 < vars }
    requires few { vars < 2 ^ 31 - 1 }
    requires vars { trail.now.vars ≡ vars }
    requires same { store.old.vars ≡ vars }
    requires fits { Fits store.old trail.now }
    ensures same { OnOk result (store.new.vars ≡ vars) }
    ensures fits { OnOk result (Fits store.new trail.now) }
{
    changed_store_fits();
    let _len = trail.len();
    let nogood = nogood_at_random(alloc, random, vars)?;
    store.add(nogood, true)?;
    Ok(())
}

fn fill(
    alloc: Global,
    store: &mut Store,
    trail: &Trail,
    random: &mut Random,
    vars: u32,
    count: usize,
) -> Result<(), AllocError>
    requires some { 0 < vars }
    requires few { vars < 2 ^ 31 - 1 }
    requires vars { trail.now.vars ≡ vars }
    requires same { store.old.vars ≡ vars }
    requires fits { Fits store.old trail.now }
    ensures fits { OnOk result (Fits store.new trail.now) }
{
    for _ in 0..count {
        add_at_random(alloc, store, trail, random, vars)?;
    }
    Ok(())
}

// A variable without a value, if one is soon found.
fn open_var(trail: &Trail, random: &mut Random, vars: u32) -> Option<Var>
    requires some { 0 < vars }
    requires few { vars < 2 ^ 31 - 1 }
    requires vars { trail.now.vars ≡ vars }
    ensures var { IfSome result (λ v. IsVar trail.now.vars v) }
    ensures open { IfSome result (λ v. value_of (assignment trail.now.vars trail.now.entries) v ≡ None) }
    ensures room { IfSome result (λ v. length trail.now.entries < trail.now.vars) }
{
    for _ in 0..64 {
        let var = 1 + random.below(vars);
        if trail.value(var) == None {
            return Some(var);
        }
    }
    None
}

// Undoes some of the levels.
fn back(store: &Store, trail: &mut Trail, random: &mut Random)
    requires fits { Fits store.now trail.old }
    ensures fits { Fits store.now trail.new }
    ensures vars { trail.new.vars ≡ trail.old.vars }
    ensures room { trail.new.room ≡ trail.old.room }
{
    changed_trail_fits();
    let _len = trail.len();
    let level = trail.level();
    if level > 0 && level < 4294967296 {
        let kept = random.below(level as u32);
        trail.undo_to(kept as usize);
    }
}

fn decide(store: &Store, trail: &mut Trail, random: &mut Random, var: Var)
    requires fits { Fits store.now trail.old }
    requires few { var < 2 ^ 31 }
    requires var { IsVar trail.old.vars var }
    requires open { value_of (assignment trail.old.vars trail.old.entries) var ≡ None }
    requires room { length trail.old.entries < trail.old.room }
    ensures fits { Fits store.now trail.new }
    ensures vars { trail.new.vars ≡ trail.old.vars }
    ensures room { trail.new.room ≡ trail.old.room }
{
    changed_trail_fits();
    let _len = trail.len();
    trail.decide(Lit::new(var, random.below(2) == 0));
}

// Decides a literal, and undoes where a nogood is violated. Gives how many literals came to hold.
fn turn(store: &mut Store, trail: &mut Trail, random: &mut Random, vars: u32) -> u64
    requires some { 0 < vars }
    requires few { vars < 2 ^ 31 - 1 }
    requires vars { trail.old.vars ≡ vars }
    requires room { vars ≤ trail.old.room }
    requires fits { Fits store.old trail.old }
    ensures vars { trail.new.vars ≡ trail.old.vars }
    ensures room { trail.new.room ≡ trail.old.room }
    ensures fits { Fits store.new trail.new }
{
    let before = trail.len();
    match open_var(trail, random, vars) {
        None => {
            back(store, trail, random);
            0
        }
        Some(var) => {
            decide(store, trail, random, var);
            match store.propagate(trail) {
                Propagated::Quiet => (trail.len() as u64).saturating_sub(before as u64),
                Propagated::Violated(_) => {
                    let after = trail.len();
                    back(store, trail, random);
                    (after as u64).saturating_sub(before as u64)
                }
            }
        }
    }
}

// Turns until so many literals came to hold. Gives how many did.
fn turns(store: &mut Store, trail: &mut Trail, random: &mut Random, vars: u32, wanted: u64) -> u64
    requires some { 0 < vars }
    requires few { vars < 2 ^ 31 - 1 }
    requires vars { trail.old.vars ≡ vars }
    requires room { vars ≤ trail.old.room }
    requires fits { Fits store.old trail.old }
{
    let mut done: u64 = 0;
    for _ in 0..u64::MAX {
        if done >= wanted {
            return done;
        }
        done = done.saturating_add(turn(store, trail, random, vars));
    }
    done
}

fn run(alloc: Global, vars: u32, wanted: u64) -> Result<u64, AllocError>
    requires some { 0 < vars }
    requires few { vars < 2 ^ 30 }
{
    let mut random = Random { state: 1 };
    let mut store = Store::new(alloc, vars)?;
    let mut trail = Trail::new(alloc, vars)?;
    trail.reserve(vars as usize)?;
    new_store_fits();
    fill(
        alloc,
        &mut store,
        &trail,
        &mut random,
        vars,
        (vars as usize) * 426 / 100,
    )?;
    Ok(turns(&mut store, &mut trail, &mut random, vars, wanted))
}

// The numbers of the command line.
fn numbers<R: Env + AllocGlobal>(rt: &R) -> io::Result<Vec<u64>> {
    let mut numbers = Vec::new(rt.alloc());
    for word in env::args(rt)? {
        if let Ok(number) = word.as_str().parse::<u64>() {
            numbers.push(number)?;
        }
    }
    Ok(numbers)
}

fn main(rt: HostRuntime) -> io::Result<()> {
    let numbers = numbers(&rt)?;
    if numbers.len() < 2 {
        return Ok(());
    }
    let (vars, wanted) = (numbers[0], numbers[1]);
    if vars == 0 || vars >= 1073741824 {
        return Ok(());
    }
    let done = run(rt.alloc(), vars as u32, wanted)?;
    println!(rt; "{done}")?;
    Ok(())
}
RT
cat > "$one/proofs/fill/Invariants.antt" <<'ANTT'
use Rattle.std.proofs.Common.{◌≡◌}
use Rattle.asp_store.specs.Storing.{Fits}
use Rattle.propagates.proofs.fill.Given as goal

abbrev pub invariant-loop : goal.invariant-loop
invariant-loop l = (l.store.vars ≡ l.vars) × Fits l.store l.trail
ANTT
cat > "$one/proofs/turns/Invariants.antt" <<'ANTT'
use Rattle.std.proofs.Common.{◌≡◌, ◌≤◌}
use Rattle.asp_store.specs.Storing.{Fits}
use Rattle.propagates.proofs.turns.Given as goal

abbrev pub invariant-loop : goal.invariant-loop
invariant-loop l = (l.trail.vars ≡ l.vars) × (l.vars ≤ l.trail.room) × Fits l.store l.trail
ANTT
cat > "$one/proofs/decide/Answers.antt" <<'ANTT'
use Rattle.std.proofs.Common.{◌≤◌, length, sym, subst, refl, arith}
use Rattle.asp_trail.specs.Trails.{Trailed}
use Rattle.asp_store.specs.Storing.{Fits}
use Rattle.propagates.proofs.decide.Goals as goal

pub returns-clause-fits : goal.returns-clause-fits
returns-clause-fits c =
    let P : Trailed → Type 0 = λ (t : Trailed). Fits c.args.store.now t in
    let t = c.args.trail.now in
    let begun : t.seen ≤ length t.entries = omega (arith, c.len-len.ensures.seen, c.len-len.ensures.len) in
    subst P (sym c.decide.ensures) (c.changed_trail_fits.ensures.open c.args.store.now t _ begun refl c.requires.fits)
ANTT
cat > "$one/proofs/back/Answers.antt" <<'ANTT'
use Rattle.std.proofs.Common.{◌≡◌, ℕ, List, length, min, sym, ap, subst, ◌∙◌}
use Rattle.asp_trail.specs.declared.trail.Entry.{Entry}
use Rattle.asp_trail.specs.Trails.{Trailed}
use Rattle.asp_trail.specs.Entries.{cut}
use Rattle.asp_store.specs.Storing.{Fits}
use Rattle.propagates.proofs.back.Goals as goal

pub returns-then-level-lt4294967296-clause-fits : goal.returns-then-level-lt4294967296-clause-fits
returns-then-level-lt4294967296-clause-fits c =
    let t = c.args.trail.now in
    let u = c.undo_to.new.self in
    let k = c.below-kept.result in
    let make = λ (es : List Entry) (n : ℕ). let r : Trailed = record t { entries = es; seen = n } in r in
    let is : u ≡ make (cut k t.entries) (min t.seen (length (cut k t.entries))) =
    c.undo_to.ensures.same ∙ (ap (λ (n : ℕ). make u.entries n) c.undo_to.ensures.seen ∙ ap (λ (es : List Entry). make es (min t.seen (length es))) c.undo_to.ensures.entries) in
    subst (λ (s : Trailed). Fits c.args.store.now s) (sym is) (c.changed_trail_fits.ensures.cut c.args.store.now t k c.len-len.ensures.ordered.rising c.requires.fits)
ANTT
(cd "$room" && git init -q . && cd "$one" && rt run -- 1 0 > "$room/log" 2>&1) || { tail "$room/log"; exit 1; }

python3 - "$one/out/propagates" "$literals" <<'PY'
import resource, subprocess, sys
program, wanted = sys.argv[1], int(sys.argv[2])

def run(variables, literals):
    before = resource.getrusage(resource.RUSAGE_CHILDREN).ru_utime
    done = int(subprocess.run([program, str(variables), str(literals)], stdout=subprocess.PIPE, check=True).stdout)
    return done, resource.getrusage(resource.RUSAGE_CHILDREN).ru_utime - before

for variables in 250, 100_000:
    _, made = run(variables, 0)
    done, time = min((run(variables, wanted) for _ in range(3)), key=lambda r: r[1])
    print(f"{variables} variables: {done} literals in {time - made:.2f} s of the processor, {done / (time - made) / 1e6:.1f} million a second")
PY
