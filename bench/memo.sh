#!/bin/sh
# What kept expansions cost: a program over expansion_memo, built by rt in a copy of the crates below it. Its machine's calls ask one
# number that moves, emit two items, put one value and count a call. It is run on 100,000 calls that are all different, in one state of
# the world and each in its own; on 100,000 equal ones in one state, of which the first alone runs; and on 10,000, 20,000 and 40,000
# equal ones in as many states, which come to different outcomes.
set -eu
top=$(cd "$(dirname "$0")/.." && pwd)
work=$(mktemp -d)
trap 'rm -rf "$work"' EXIT
program=$work/crates/memo_bench
mkdir -p "$program/src" "$program/specs"
for name in hl_base kept_values asking_core trace_arena kept_outcomes expansion_memo; do
    cp -r "$top/crates/$name" "$work/crates/"
    grep "^$name:" "$top/crates.txt" >> "$work/crates.txt"
done
cp "$top/HANDLES" "$work/"
echo 'memo_bench: hl_base kept_values asking_core trace_arena expansion_memo' >> "$work/crates.txt"
echo 'pub mod Teller' > "$program/specs/Lib.antt"
cat > "$program/specs/Teller.antt" <<'SPECS'
-- The machine of the measurement: a call asks the counter, emits two items, each behind a unit of fuel, puts the value, counts a
-- call and leaves.
use Rattle.std.specs.Prelude.{◌≡◌, ◌<◌, ℕ, zero, suc, Bool, true, false, refl}
use Rattle.std.proofs.Common.{lit<, subst}
use Rattle.std.proofs.lemmas.Bool.{true≢false}
use Rattle.kept_values.specs.Trees.{Tree, Leaf, Fork}
use Rattle.asking_core.specs.Machines.{MachineModel, Move, Ask, Put, Count, Bump, Emit, Enter, Leave, Modest, Falls, EmitsOnceACount, is_count, is_last}
use Rattle.asking_core.specs.Counters.{counters_move, cell_is_writable}

abbrev pub leaf_number : Tree → ℕ
leaf_number (Leaf n) = n
leaf_number (Fork a b) = 0

pub data Stage : Type 0 where
  Asking : Stage
  First : Stage
  Emitting : Stage
  Second : Stage
  EmittingMore : Stage
  Putting : Stage
  Bumping : Stage
  Leaving : Stage

abbrev pub stage_of : ℕ → Stage
stage_of zero = Asking
stage_of (suc zero) = First
stage_of (suc (suc zero)) = Emitting
stage_of (suc (suc (suc zero))) = Second
stage_of (suc (suc (suc (suc zero)))) = EmittingMore
stage_of (suc (suc (suc (suc (suc zero))))) = Putting
stage_of (suc (suc (suc (suc (suc (suc zero)))))) = Bumping
stage_of (suc (suc (suc (suc (suc (suc (suc n))))))) = Leaving

abbrev pub stage_move : Stage → Move Tree ℕ
stage_move Asking = Ask (Leaf 0)
stage_move First = Count
stage_move Emitting = Emit 0
stage_move Second = Count
stage_move EmittingMore = Emit 0
stage_move Putting = Put (Leaf 2) (Leaf 7)
stage_move Bumping = Bump
stage_move Leaving = Leave

abbrev pub stage_next : Stage → Stage
stage_next Asking = First
stage_next First = Emitting
stage_next Emitting = Second
stage_next Second = EmittingMore
stage_next EmittingMore = Putting
stage_next Putting = Bumping
stage_next Bumping = Leaving
stage_next Leaving = Leaving

abbrev pub teller : MachineModel
teller = record {
  Call = Tree;
  Item = ℕ;
  Frames = ℕ;
  Place = Stage;
  start = λ call. Asking;
  move_at = λ p g. stage_move p;
  after = λ p g. stage_next p;
  frames_at = λ p. 0;
}

abbrev pub stage_number : Stage → ℕ
stage_number Asking = 7
stage_number First = 6
stage_number Emitting = 5
stage_number Second = 4
stage_number EmittingMore = 3
stage_number Putting = 2
stage_number Bumping = 1
stage_number Leaving = 0

abbrev pub stage_marked : Stage → Bool
stage_marked Asking = false
stage_marked First = false
stage_marked Emitting = true
stage_marked Second = false
stage_marked EmittingMore = true
stage_marked Putting = false
stage_marked Bumping = false
stage_marked Leaving = false

abbrev pub stage_quiet : Stage → Bool
stage_quiet Asking = true
stage_quiet First = true
stage_quiet Emitting = true
stage_quiet Second = true
stage_quiet EmittingMore = true
stage_quiet Putting = true
stage_quiet Bumping = true
stage_quiet Leaving = false

falls_at : (p : Stage) → is_count (stage_move p) ≡ false → is_last (stage_move p) ≡ false → stage_number (stage_next p) < stage_number p
falls_at Asking c l = lit< tt
falls_at First c l = lit< tt
falls_at Emitting c l = lit< tt
falls_at Second c l = lit< tt
falls_at EmittingMore c l = lit< tt
falls_at Putting c l = lit< tt
falls_at Bumping c l = lit< tt
falls_at Leaving c l = absurd (true≢false l)

pub teller_falls : Falls teller stage_number
teller_falls = λ p g c l. falls_at p c l

abbrev EmitsAt : Stage → Move Tree ℕ → Type 0
EmitsAt p (Emit item) = (stage_marked p ≡ true) × (stage_marked (stage_next p) ≡ false)
EmitsAt p m = Unit {0}

emits_at : (p : Stage) → EmitsAt p (stage_move p)
emits_at Asking = tt
emits_at First = tt
emits_at Emitting = (refl, refl)
emits_at Second = tt
emits_at EmittingMore = (refl, refl)
emits_at Putting = tt
emits_at Bumping = tt
emits_at Leaving = tt

others_at : (p : Stage) → is_count (stage_move p) ≡ false → stage_marked p ≡ false → stage_marked (stage_next p) ≡ false
others_at Asking c m = refl
others_at First c m = absurd (true≢false c)
others_at Emitting c m = refl
others_at Second c m = absurd (true≢false c)
others_at EmittingMore c m = refl
others_at Putting c m = refl
others_at Bumping c m = refl
others_at Leaving c m = refl

pub teller_emits_once : EmitsOnceACount teller stage_marked
teller_emits_once = record {
  starts = λ c. refl;
  emits = λ p g item is. subst (EmitsAt p) is (emits_at p);
  others = λ p g c m. others_at p c m;
}

abbrev PutsAt : Move Tree ℕ → Type 0
PutsAt (Put key value) = cell_is_writable key ≡ true
PutsAt m = Unit {0}

puts_at : (p : Stage) → PutsAt (stage_move p)
puts_at Asking = tt
puts_at First = tt
puts_at Emitting = tt
puts_at Second = tt
puts_at EmittingMore = tt
puts_at Putting = refl
puts_at Bumping = tt
puts_at Leaving = tt

abbrev AsksAt : Stage → Move Tree ℕ → Type 0
AsksAt p (Ask key) = counters_move key ≡ true → stage_quiet p ≡ true
AsksAt p m = Unit {0}

asks_at : (p : Stage) → AsksAt p (stage_move p)
asks_at Asking = λ m. refl
asks_at First = tt
asks_at Emitting = tt
asks_at Second = tt
asks_at EmittingMore = tt
asks_at Putting = tt
asks_at Bumping = tt
asks_at Leaving = tt

abbrev BumpsAt : Stage → Move Tree ℕ → Type 0
BumpsAt p Bump = stage_quiet (stage_next p) ≡ false
BumpsAt p (Enter c) = stage_quiet (stage_next p) ≡ false
BumpsAt p m = Unit {0}

bumps_at : (p : Stage) → BumpsAt p (stage_move p)
bumps_at Asking = tt
bumps_at First = tt
bumps_at Emitting = tt
bumps_at Second = tt
bumps_at EmittingMore = tt
bumps_at Putting = tt
bumps_at Bumping = refl
bumps_at Leaving = tt

stays_at : (p : Stage) → stage_quiet p ≡ false → stage_quiet (stage_next p) ≡ false
stays_at Asking q = absurd (true≢false q)
stays_at First q = absurd (true≢false q)
stays_at Emitting q = absurd (true≢false q)
stays_at Second q = absurd (true≢false q)
stays_at EmittingMore q = absurd (true≢false q)
stays_at Putting q = absurd (true≢false q)
stays_at Bumping q = refl
stays_at Leaving q = refl

pub teller_is_modest : Modest teller counters_move cell_is_writable stage_quiet
teller_is_modest = record {
  puts = λ p g key value is. subst PutsAt is (puts_at p);
  asks = λ p g key is. subst (AsksAt p) is (asks_at p);
  bumped = λ p g is. subst (BumpsAt p) is (bumps_at p);
  entered = λ p g c is. subst (BumpsAt p) is (bumps_at p);
  stays = λ p g q. stays_at p q;
}
SPECS
cat > "$program/src/main.rt" <<'PROGRAM'
//! Times calls that are run over a memo.
#![tactic(auto)]

ghost use Rattle.std.specs.Prelude.{◌≡◌, ◌↔◌, ℕ, ◌+◌, ◌%◌, IfOk, OnOk, OnErr, IsTrue};
ghost use Rattle.kept_values.specs.Trees.{Tree, Leaf};
ghost use Rattle.asking_core.specs.Counters.{Counted, round, counters, counters_move, cell_is_writable, counters_back};
ghost use Rattle.asking_core.specs.Actions.{move_of, ticks_of};
ghost use Rattle.expansion_memo.specs.Kept.{AllStand, AllStand-prop};
ghost use Rattle.memo_bench.specs.Teller.{leaf_number, teller, stage_of, stage_move, stage_next, stage_number, stage_marked, stage_quiet, teller_falls, teller_emits_once, teller_is_modest};

use asking_core::{Action, AskMachine, Given, World, counters_that_go_round_fit};
use expansion_memo::Memo;
use hl_base::{Ledger, OutOfMemory, Steps};
use kept_values::Kept;
use std::alloc::Global;
use std::io;
use std::marker::Brand;
use std::sync::ledger::Blank;
use std::time::Instant;
use trace_arena::TraceArena;

/// A number that is a key, a value, an item or a call.
#[derive(Drop)]
struct Tag {
    number: u32,
}

impl Kept for Tag {
    ghost code = { λ t. Leaf t.number };

    ghost number_of = { leaf_number };

    fn same(&self, other: &Self) -> bool {
        self.number == other.number
    }

    fn number(&self) -> u64 {
        u64::from(self.number)
    }

    fn copy(&self, _alloc: Global) -> Result<Self, OutOfMemory> {
        Ok(Tag {
            number: self.number,
        })
    }
}

/// Counters that go round, and one value.
#[derive(Drop)]
struct Counting {
    calls: u32,
    depth: u32,
    cell: u32,
}

/// A counter as a number that goes round.
fn gone_round(number: u32) -> u32
    ensures { result ≡ number % 4294967296 }
{
    number
}

impl World for Counting {
    type Key = Tag;

    type Value = Tag;

    ghost model = { counters };

    ghost state = { λ w. record { calls = round w.calls; depth = round w.depth; cell = Leaf w.cell } };

    fn ask(&mut self, _alloc: Global, key: &Self::Key) -> Result<Self::Value, OutOfMemory> {
        let number = match key.number {
            0 => gone_round(self.calls),
            1 => gone_round(self.depth),
            2 => self.cell,
            _ => 0,
        };
        Ok(Tag { number })
    }

    fn put(
        &mut self,
        _alloc: Global,
        _key: Self::Key,
        value: Self::Value,
    ) -> Result<(), OutOfMemory> {
        self.cell = value.number;
        Ok(())
    }

    fn bump(&mut self, calls: u32) {
        self.calls = self.calls.wrapping_add(calls);
    }

    fn enter(&mut self) {
        self.depth = self.depth.wrapping_add(1);
    }

    fn leave(&mut self) {
        self.depth = self.depth.wrapping_add(u32::MAX);
    }

    fn at(&mut self, _statement: u32) {}
}

/// How far a call of the machine has come.
#[derive(Drop)]
struct Progress {
    stage: u32,
}

#[derive(Drop)]
struct Teller;

impl AskMachine for Teller {
    type Key = Tag;

    type Value = Tag;

    type Call = Tag;

    type Item = Tag;

    type Frames = Tag;

    type Local = Progress;

    ghost model = { teller };

    ghost place = { λ l. stage_of l.stage };

    ghost call_of = { λ t. t };

    ghost item_of = { λ i. i.number };

    ghost frames_of = { λ f. f.number };

    ghost number = { stage_number };

    ghost marked = { stage_marked };

    ghost moving = { counters_move };

    ghost quiet = { stage_quiet };

    ghost writable = { cell_is_writable };

    ghost rebased = { counters_back };

    fn begin(&self, _alloc: Global, _call: &Self::Call) -> Result<Self::Local, OutOfMemory> {
        Ok(Progress { stage: 0 })
    }

    fn step<L: Ledger>(
        &self,
        _alloc: Global,
        local: &mut Self::Local,
        _given: Given<Self::Value>,
        steps: &mut Steps<L>,
    ) -> Result<Action<Self::Key, Self::Value, Self::Call, Self::Item>, OutOfMemory>
        ensures action { IfOk result (λ a. move_of ⟦<Tag as Kept>⟧.code ⟦<Tag as Kept>⟧.code ⟦<Tag as Kept>⟧.code (λ t. t) ⟦<Teller as AskMachine>⟧.item_of a ≡ stage_move (stage_of local.old.stage)) }
        ensures place { IfOk result (λ _. stage_of local.new.stage ≡ stage_next (stage_of local.old.stage)) }
        ensures ticks { IfOk result (λ a. steps.new ≡ steps.old + ticks_of a) }
        ensures no_tick { OnErr result (steps.new ≡ steps.old) }
    {
        match local.stage {
            0 => {
                local.stage = 1;
                Ok(Action::Ask(Tag { number: 0 }))
            }
            1 => {
                local.stage = 2;
                steps.tick();
                Ok(Action::Count)
            }
            2 => {
                local.stage = 3;
                Ok(Action::Emit(Tag { number: 0 }))
            }
            3 => {
                local.stage = 4;
                steps.tick();
                Ok(Action::Count)
            }
            4 => {
                local.stage = 5;
                Ok(Action::Emit(Tag { number: 0 }))
            }
            5 => {
                local.stage = 6;
                Ok(Action::Put(Tag { number: 2 }, Tag { number: 7 }))
            }
            6 => {
                local.stage = 7;
                Ok(Action::Bump)
            }
            _ => Ok(Action::Leave),
        }
    }

    fn frames(&self, _alloc: Global, _local: &Self::Local) -> Result<Self::Frames, OutOfMemory> {
        Ok(Tag { number: 0 })
    }

    fn rebase(
        &self,
        _alloc: Global,
        key: &Self::Key,
        value: &Self::Value,
        calls: u32,
    ) -> Result<Self::Value, OutOfMemory> {
        let number = match key.number {
            0 => value.number.wrapping_sub(calls),
            1 => value.number.wrapping_sub(1),
            _ => value.number,
        };
        Ok(Tag { number })
    }

    ghost falls = { teller_falls };

    ghost emits_once_a_count = { teller_emits_once };

    ghost modest = { teller_is_modest };
}

/// A memo and an arena over which it stands.
#[derive(Drop)]
struct Expansions {
    memo: Memo<Teller>,
    arena: TraceArena<Tag>,
    ghost stand: { AllStand ⟦<Teller as AskMachine>⟧.model ⟦<Teller as AskMachine>⟧.rebased ⟦<Teller as AskMachine>⟧.call_of ⟦<Teller as AskMachine>⟧.item_of arena.nodes memo }
        by { AllStand-prop ⟦<Teller as AskMachine>⟧.model ⟦<Teller as AskMachine>⟧.rebased ⟦<Teller as AskMachine>⟧.call_of ⟦<Teller as AskMachine>⟧.item_of arena.nodes memo },
}

/// What is said where memory is wanting.
fn failed() -> io::Error {
    io::Error::from(io::ErrorKind::OutOfMemory)
}

impl Expansions {
    /// Nothing is kept.
    fn new(alloc: Global) -> Expansions {
        Expansions {
            memo: Memo::new(alloc),
            arena: TraceArena::new(alloc),
        }
    }

    /// Expands the call of a number.
    fn expand<L: Ledger>(
        self,
        alloc: Global,
        number: u32,
        world: &mut Counting,
        steps: &mut Steps<L>,
    ) -> Result<Expansions, OutOfMemory> {
        counters_that_go_round_fit();
        let call = Tag { number };
        let Expansions {
            mut memo,
            mut arena,
        } = self;
        let _outcome = memo.expand(&Teller, alloc, &call, world, 100, 0, &mut arena, steps)?;
        Ok(Expansions { memo, arena })
    }
}

/// Expands so many calls: different ones or equal ones, each in the state that the one before left, or all in one state.
fn expand_all<L: Ledger>(
    alloc: Global,
    count: u32,
    differ: bool,
    moves: bool,
    steps: &mut Steps<L>,
) -> Result<u64, OutOfMemory> {
    let mut kept = Expansions::new(alloc);
    let mut world = Counting {
        calls: 0,
        depth: 0,
        cell: 0,
    };
    for number in 0..count {
        if !moves {
            world.calls = 0;
        }
        let call = if differ { number } else { 0 };
        kept = kept.expand(alloc, call, &mut world, steps)?;
    }
    Ok(kept.arena.made())
}

/// Times so many calls, three times.
fn time_calls<L: Ledger>(
    rt: &HostRuntime,
    name: &str,
    count: u32,
    differ: bool,
    moves: bool,
    steps: &mut Steps<L>,
) -> io::Result<()> {
    for _ in 0..3 {
        let start = Instant::now(rt)?;
        let made = expand_all(rt.alloc(), count, differ, moves, steps).map_err(|_| failed())?;
        let time = start.elapsed(rt)?.as_nanos();
        println!(rt; "{name} {count} {made} {time}")?;
    }
    Ok(())
}

/// Times all.
fn time_all<L: Ledger>(rt: &HostRuntime, blank: Blank) -> io::Result<()>
    requires name { blank.name ≡ L.name }
    requires parts { blank.parts ≡ L.parts }
    requires one { blank.parts ≡ 1 }
{
    let mut steps = Steps::<L>::open(blank);
    time_calls(rt, "different", 100_000, true, false, &mut steps)?;
    time_calls(rt, "moved", 100_000, true, true, &mut steps)?;
    time_calls(rt, "equal", 100_000, false, false, &mut steps)?;
    time_calls(rt, "outcomes", 10_000, false, true, &mut steps)?;
    time_calls(rt, "outcomes", 20_000, false, true, &mut steps)?;
    time_calls(rt, "outcomes", 40_000, false, true, &mut steps)
}

fn main(rt: HostRuntime) -> io::Result<()> {
    time_all::<Brand>(&rt, Blank::new(1))
}
PROGRAM
# What a counter that goes round comes to: FUNCTION, and what changes.
counted() {
    mkdir -p "$program/proofs/CountingWorld/$1"
    cat > "$program/proofs/CountingWorld/$1/Answers.antt" <<ANSWERS
use Rattle.std.proofs.Common.{ap}
use Rattle.kept_values.specs.Trees.{Leaf}
use Rattle.asking_core.specs.Counters.{round}
use Rattle.asking_core.proofs.CounterLaws.{counted_with, round_more}
use Rattle.memo_bench.proofs.CountingWorld.$1.Goals as goal

pub returns : goal.returns
returns c = ap (λ r. counted_with $2 (Leaf c.args.self.now.cell)) (round_more $3)
ANSWERS
}
counted bump 'r (round c.args.self.now.depth)' 'c.args.self.now.calls c.args.calls'
counted enter '(round c.args.self.now.calls) r' 'c.args.self.now.depth 1'
counted leave '(round c.args.self.now.calls) r' 'c.args.self.now.depth 4294967295'
mkdir -p "$program/proofs/main"
cat > "$program/proofs/main/Invariants.antt" <<'GHOSTS'
use Rattle.memo_bench.proofs.main.Given as goal

abbrev pub ghosts-time_all : goal.ghosts-time_all
ghosts-time_all a = record { name = a.blank.name; parts = a.blank.parts }
GHOSTS
cd "$program"
rt "${RT_RUNS:-run}" > "$work/times" 2> "$work/log" || { tail -n 40 "$work/log" >&2; cat "$work/times" >&2; exit 1; }
python3 - "$work/times" <<'RESULT'
import sys
best, made = {}, {}
for words in map(str.split, open(sys.argv[1])):
    if len(words) == 4 and words[1].isdigit():
        key = (words[0], int(words[1]))
        made[key] = int(words[2])
        best[key] = min(best.get(key, 1 << 80), int(words[3]))
for (name, count), records in made.items():
    wanted = 2 if name == "equal" else 2 * count
    if records != wanted:
        sys.exit(f"{name}: {records} records of {count} calls, not {wanted}")
goals = (("different", "different calls in one state", 0.15), ("moved", "different calls in as many states", 0.15),
         ("equal", "equal calls, reused", 0.05))
for name, what, goal in goals:
    print(f"{what}: 100,000 in {best[name, 100000] / 1e9:.3f} s (at most {goal})")
few, twice, more = (best["outcomes", count] for count in (10000, 20000, 40000))
print(f"equal calls with different outcomes: 10,000 in {few / 1e6:.1f} ms, twice as many {twice / few:.2f} times as long, "
      f"four times as many {more / few:.2f} times (less than 2.4 and 5)")
RESULT
