"""A small made-up project that keeps every rule of tools/promises.py: its files by their paths, and its lists."""

FILES = {
    "crates/meter/src/lib.rt": """\
// Meters. Every shape of contract stands here once.
#![tactic(auto)]

ghost use Rattle.std.specs.Prelude.{◌≡◌, ◌+◌, ◌≤◌, [], ◌∷◌, length};
ghost use Rattle.meter.specs.Reading.{
    reading_of, most, size_in, store_after, part_of, start_of, Pair, pair_of, loaded_from, added_to, cleared, both_of
};
ghost use Rattle.meter.specs.Rooms.{room_of, SameRoom, filled_from, size_of_room};
mod deeper;

pub struct Meter {
    pub total: usize,
}

pub struct Both {
    pub size: usize,
    pub read: u8,
}

// What stands at a place of the store.
pub fn reading(store: &[u8], at: usize) -> u8
    ensures { result ≡ reading_of store.now at }
{
    if at < store.len() {
        return store[at];
    }
    0
}

impl Meter {
    // a total with a number added
    pub fn add(self, x: usize) -> Meter
        ensures { result ≡ added_to self x }
    {
        Meter { total: sum(self.total, x) }
    }
}

pub fn write(store: &mut [u8], x: u8) -> usize
    ensures size { result ≡ size_in (length store.old) x }
    ensures content { store.new ≡ store_after store.old x }
    ensures whole { most ≤ length store.old → result ≡ size_in most x }
{
    put(store, x)
}

// Two stores at once; the first is read as it was.
pub fn load(low: &mut [u8], high: &mut [u8], card: &[u8])
    ensures {
        let p = pair_of low.old high.old in
        pair_of low.new high.new
        ≡ loaded_from p card.now
    }
{
    copy(card, low, high);
}

pub fn part<'k>(store: &'k [u8], at: usize) -> &'k [u8]
    ensures content { result.now ≡ part_of store.now at }
    ensures place { result.ref_ptr ≡ start_of store.entry.ref_ptr at }
{
    &store[at..]
}

#[unsafe(no_mangle)]
pub extern "C" fn meter_most(store: &[u8], size: &mut u64) -> u8
    ensures { (result ≡ reading_of store.now most) × (size.new ≡ size_in (length store.now) 0) }
{
    0
}

#[unsafe(no_mangle)]
pub extern "C" fn meter_clear(store: &mut [u8])
    ensures { store.new ≡ cleared }
{
    wipe(store);
}

pub fn erase(data: &mut [u8])
    ensures { «data».new ≡ cleared }
{
    wipe(data);
}

// The size and the reading, by their fields.
pub fn both(store: &[u8], at: usize) -> Both
    ensures { result.size ∷ result.read ∷ [] ≡ both_of store.now at }
{
    Both { size: store.len(), read: reading(store, at) }
}

// Two stores that are lent together.
pub struct Room<'r> {
    pub front: &'r mut [u8],
    pub back: &'r mut [u8],
}

pub fn reload(room: &mut Room, bytes: &[u8])
    ensures same { SameRoom room.old room.new }
    ensures stores { room_of room.new 1 ≡ filled_from (room_of room.old 0) bytes.now }
{
    load(room.front, room.back, bytes);
}

pub fn held(room: &Room<'_>) -> usize
    ensures { result ≡ size_of_room (room_of room.now 0) }
{
    room.front.len()
}

fn half(x: u8) -> u8
    requires { x ≤ 100 }
    ensures { result + result ≤ x }
{
    x / 2
}
""",
    "crates/meter/src/deeper/scale.rt": """\
// The scale of a meter.
ghost use Rattle.std.specs.Prelude.{◌≡◌};
ghost use Rattle.meter.specs.Reading.{scale_of};

pub fn scale(x: u8) -> u8
    ensures { result ≡ scale_of x }
{
    x
}
""",
    "crates/meter/src/deeper/turns.rt": """\
// Turns, which call one another and are proved together; and what others hand on.
ghost use Rattle.std.specs.Prelude.{◌≡◌, ◌≤◌};
ghost use Rattle.meter.specs.Reading.{scale_of, pair_of};
ghost use Rattle.meter.specs.Rooms.{GivesTurn, turns_left};

pub use crate::deeper::{scale::scale, turns::{LIMIT, turn}};

pub const LIMIT: u8 = 9;

pub struct Wheel;

// No other crate names it, so its fact asks nothing of one.
struct Spun {
    turns: u8,
    ghost few: { turns ≤ 9 },
}

impl<'k, T: Copy> steps::Steps<u8, T> for &'k Wheel {
    fn step(self, x: u8) -> u8
        ensures { result ≡ scale_of (x + self) }
    {
        x
    }
}

impl<'k> Iterator for Wheel<'k> {
    type Item = u8;

    ghost next_gives = { GivesTurn };

    ghost remaining = { turns_left };

    fn next(&mut self) -> Option<u8> {
        None
    }
}

impl Turns for Wheel {
    fn back(self, x: u8) -> u8
        ensures { result ≡ scale_of (x + self) }
    {
        x
    }
}

#[cycle(turns)]
pub fn turn<F>(f: impl Fn(u8, u8) -> u8, x: u8) -> u8
where
    F: Copy,
    ensures { (result ≡ (pair_of f (scale_of x)).low) × ¬ (x + 1 ≡ 0) }
{
    x
}

#[cycle(turns)]
fn more(x: u8) -> u8
    ghost top: { ℕ }
    requires low { x ≤ top }
    requires high { top ≤ 100 }
    ensures { result ≤ top }
{
    x
}
""",
    "crates/meter/src/deeper/arrays.rt": """\
// Arrays, also in the heads of types and of what holds functions.
ghost use Rattle.std.specs.Prelude.{◌≡◌, ◌≤◌};
ghost use Rattle.meter.specs.Arrays.{pace_of, four_of, laid_by, turned_by, held_of};
ghost use Rattle.meter.specs.Rooms.{GivesTurn, turns_left};

pub struct Pace {
    pub steps: [u8; 4],
}

pub struct Laid<T: Into<[u8; 2]>>
where
    [T; 3]: Copy,
{
    pub parts: [T; 1 << 2],
    pub size: u8,
}

pub struct Marked([u8; 4], u8);

pub type Timed = ([u8; 4], u8);

// No other crate names it, so its fact asks nothing of one.
struct Kept<T: Into<[u8; 2]>> {
    size: T,
    ghost few: { size < 9 },
    last: u8,
}

impl From<[u8; 4]> for Pace {
    fn from(x: [u8; 4]) -> Pace
        ensures { result ≡ pace_of x }
    {
        Pace { steps: x }
    }
}

impl From<Pace> for [u8; 4] {
    fn from(p: Pace) -> [u8; 4]
        ensures { result ≡ four_of p }
    {
        p.steps
    }
}

impl<'k, T: Into<[u8; 2]>, const N: usize> steps::Lays<(&'k [u8], [[T; N]; 2])> for &mut [u8; 4]
where
    [T; N]: Copy,
{
    fn lay(self, x: (&'k [u8], [[T; N]; 2]))
        ensures { self.new ≡ laid_by self.old x }
    {
        put(self, x);
    }
}

pub trait Lays<T: Into<[u8; 2]>>: Into<[u8; 2]> {
    fn double(x: T) -> [u8; 2]
        ensures { result ≡ four_of x }
    {
        x.into()
    }
}

impl<F: Fn(u8) -> u8, U: Copy> Iterator for Laid<[[F; 2]; 4]> {
    type Item = [u8; 4];

    ghost next_gives = { GivesTurn };

    ghost remaining = { turns_left };

    fn next(&mut self) -> Option<[u8; 4]> {
        None
    }
}

pub fn turned<T: Into<[u8; 1 << 2]>, U>(x: [T; 1 << 2], by: U) -> [u8; 4]
    ensures { result ≡ turned_by x by }
{
    x
}

fn each(f: impl Copy + for<'a> Fn(&'a [u8; 4]) -> u8) -> u8 {
    fn least(x: u8) -> u8 {
        x
    }
    least(f(&[0; 4]))
}

fn held(x: u8) -> Held<{ 2 + 2 }>
    requires { x ≤ 9 }
    ensures { result ≡ held_of x }
{
    Held(x)
}
""",
    "crates/reader/src/lib.rt": """\
// What is read no contract can say: one function, which is listed.
ghost use Rattle.std.specs.Prelude.{◌≡◌, ◌≤◌, length};
ghost use Rattle.reader.specs.Bounds.{Within};

pub fn fetch(fd: i32, room: &mut [u8]) -> usize
    ensures within { Within (length room.old) result }
    ensures long { length room.new ≡ length room.old }
{
    least(libc::read(fd, room), room.len())
}
""",
    "crates/reader/src/next.rt": """\
// The same, of whatever can be read.
ghost use Rattle.std.specs.Prelude.{◌≡◌, ◌≤◌, length};
ghost use Rattle.reader.specs.Bounds.{Within};

pub fn next<F: io::Read + Copy>(file: &mut F, room: &mut [u8]) -> usize
    ensures within { Within (length room.old) result }
    ensures long { length room.new ≡ length room.old }
{
    least(number(file.read(room)), room.len())
}
""",
    "crates/reader/specs/Lib.antt": "pub mod Bounds\n",
    "crates/reader/specs/Bounds.antt": """\
-- What an answer lies within.
use Rattle.std.specs.Prelude.{ℕ, ◌≤◌}

abbrev pub Within : ℕ → ℕ → Type 0
Within most n = n ≤ most
""",
    "crates/octets/src/lib.rt": """\
// What serves the others may ask something of them.
ghost use Rattle.std.specs.Prelude.{◌≡◌, ◌≤◌};
ghost use Rattle.octets.specs.Cut.{cut_of};

pub fn cut(x: u8) -> u8
    requires { x ≤ 100 }
    ensures { let y = cut_of x in result ≡ y }
{
    x
}

pub(crate) fn small(x: u8) -> u8
    requires { x ≤ 100 }
    ensures { result ≤ x }
{
    x
}
""",
    "crates/octets/specs/Lib.antt": "pub mod Cut\n",
    "crates/octets/specs/Cut.antt": """\
-- A number as it is.
use Rattle.std.specs.Prelude.{ℕ}

unfoldable pub cut_of : ℕ → ℕ
cut_of x = x
""",
    "crates/meter/specs/Lib.antt": "pub mod Reading\npub mod Arrays\npub mod Rooms\npub mod Laws\npub mod Examples\n",
    "crates/meter/specs/Reading.antt": """\
-- What a meter reads.
use Rattle.std.specs.Prelude.{ℕ, zero, suc, ◌+◌, Bool, cond, List, [], ◌∷◌, ◌++◌, length, get_or, drop, leb}
use Rattle.meter.specs.declared.Meter.{Meter}

abbrev pub most : ℕ
most = 64

unfoldable pub reading_of : List ℕ → ℕ → ℕ
reading_of store at = get_or store at 0

unfoldable pub size_in : ℕ → ℕ → ℕ
size_in zero x = 0
size_in (suc n) x = suc n

unfoldable pub store_after : List ℕ → ℕ → List ℕ
store_after [] x = []
store_after (y ∷ ys) x = x ∷ ys

unfoldable pub cleared : List ℕ
cleared = []

unfoldable pub both_of : List ℕ → ℕ → List ℕ
both_of store at = length store ∷ reading_of store at ∷ []

unfoldable pub part_of : List ℕ → ℕ → List ℕ
part_of store at = drop at store

unfoldable pub start_of : ℕ → ℕ → ℕ
start_of start at = start + at

pub record Pair : Type 0 where
  pub low : List ℕ
  pub high : List ℕ

abbrev pub pair_of : List ℕ → List ℕ → Pair
pair_of low high = record { low = low; high = high }

unfoldable pub loaded_from : Pair → List ℕ → Pair
loaded_from p card = record { low = p.low; high = card }

unfoldable pub added_to : Meter → ℕ → Meter
added_to m x = record { total = m.total + x }

unfoldable pub scale_of : ℕ → ℕ
scale_of x = cond (leb x most) x most

-- a number less one, in two ways
unfoldable pub before : ℕ → ℕ
before n = elim n [ zero ↦ zero | suc m ↦ same m ]
  where
    same : ℕ → ℕ
    same k = let (a, b) = (λ (c, d). c) (k, k) in a

-- a store of bytes that are in use
abbrev pub Used : List ℕ → Type 0
Used [] = Unit {0}
Used (x ∷ xs) = Used xs
""",
    "crates/meter/specs/Arrays.antt": """\
-- Arrays are lists.
use Rattle.std.specs.Prelude.{◌≡◌, ◌≢◌, ℕ, Bool, true, false, ◌&&◌, List, ◌++◌, drop, take, Option, Some, None, OnSome, IsSome}

unfoldable pub pace_of : List ℕ → List ℕ
pace_of x = x

unfoldable pub four_of : List ℕ → List ℕ
four_of p = p

unfoldable pub laid_by : List ℕ → List (List ℕ) → List ℕ
laid_by old x = old

unfoldable pub turned_by : List ℕ → ℕ → List ℕ
turned_by x by = drop by x ++ take by x

unfoldable pub held_of : ℕ → ℕ
held_of x = x

-- what a number that may be missing is told by
abbrev pub Told : Option ℕ → Option ℕ → Bool → Type 0
Told o p b = OnSome o (IsSome p × (true && b ≡ false → p ≢ None) × (Some 4 ≢ o))
""",
    "crates/meter/specs/Rooms.antt": """\
-- Two stores that are lent together.
use Rattle.std.specs.Prelude.{◌≡◌, ℕ, ◌+◌, ◌-◌, List, length, Option, Some}
use Rattle.meter.specs.declared.Room.{Room}

pub record Stores : Type 0 where
  pub front : List ℕ
  pub back : List ℕ
  pub used : ℕ

abbrev pub room_of : Room → ℕ → Stores
room_of r used = record { front = r.front.now; back = r.back.now; used = used }

abbrev pub SameRoom : Room → Room → Type 0
SameRoom r s = (s.front.ghost_name ≡ r.front.ghost_name) × (s.back.ghost_name ≡ r.back.ghost_name)

unfoldable pub filled_from : Stores → List ℕ → Stores
filled_from s card = record { front = s.front; back = card; used = 1 }

-- what an iterator gives
abbrev pub GivesTurn : ℕ → Option ℕ → ℕ → Type 0
GivesTurn s o t = o ≡ Some (s + t)

abbrev pub turns_left : ℕ → ℕ
turns_left s = 9 - s

unfoldable pub size_of_room : Stores → ℕ
size_of_room s = length s.front
""",
    "crates/meter/specs/Laws.antt": """\
-- What holds of readings.
use Rattle.std.specs.Prelude.{◌≡◌, ◌↔◌, ℕ, ◌≤◌, ◌<◌, List, length}
use Rattle.meter.specs.Reading.{most, reading_of, size_in, scale_of, store_after as stored}

pub record ReadingSays : Type 0 where
  -- past the end it is 0
  pub past : (s : List ℕ) (i : ℕ) → length s ≤ i → reading_of s i ≡ 0
  pub scaled : (x : ℕ) → scale_of x ≤ most
  pub longer : (s : List ℕ) (x : ℕ) → (h : length s ≤ 0 → ⊥) → ¬ (length (stored s x) < length s)

abbrev pub SizeSays : Type 0
SizeSays = (n x : ℕ) → (size_in n x ≡ 0) ↔ (n ≡ 0)

-- what two stores have in common
pub record Alike (s t : List ℕ) : Type 0 where
  pub sizes : length s ≡ length t
""",
    "crates/meter/specs/Examples.antt": """\
-- A reading, worked out.
use Rattle.std.specs.Prelude.{◌≡◌, [], ◌∷◌}
use Rattle.meter.specs.Reading.{reading_of}

pub record Example1 : Type 0 where
  pub second : reading_of (7 ∷ 8 ∷ []) 1 ≡ 8
""",
    "crates/meter/proofs/Lib.antt": "pub mod Says\npub mod Vectors\n",
    "crates/meter/proofs/Says.antt": """\
-- What readings are known to do.
use Rattle.std.proofs.Common.{◌≡◌, ℕ, refl}
use Rattle.meter.specs.Reading.{reading_of}
use Rattle.meter.specs.Laws.{ReadingSays, SizeSays}

module _ (n : ℕ) where
  itself : n ≡ n
  itself = refl

pub reading_says : ReadingSays
unfolding reading_of
reading_says = record {
    past = λ s i h. refl;
    scaled = λ x. search rules;
    longer = λ s x h. omega arith;
}

pub size_says : SizeSays
size_says n x = ((λ h. refl), (λ h. refl))
""",
    "crates/meter/proofs/Vectors.antt": """\
-- specs/Examples.antt, computed.
use Rattle.std.proofs.Common.{[], ◌∷◌, refl}
use Rattle.meter.specs.Reading.{reading_of}
use Rattle.meter.specs.Examples.{Example1}

-- serves the next
second-read : reading_of (7 ∷ 8 ∷ []) 1 ≡ 8
unfolding reading_of
second-read = refl

pub example_1 : Example1
example_1 = record { second = second-read }
""",
    "crates/meter/proofs/half/Proof.antt": "-- `meter::half` meets its contract.\nreturns c = omega arith\n",
    "crates/meter/proofs/Meter/add/Answers.antt": """\
-- `Meter::add` meets its contract.
use Rattle.meter.proofs.Meter.add.Goals as goal

pub returns : goal.returns
returns c = search rules
""",
    "crates/meter/proofs/deeper/scale/+scale/Invariants.antt": """\
-- Each call is of a smaller number.
use Rattle.meter.proofs.deeper.scale.+scale.Given as goal

abbrev pub decreases-scale : goal.decreases-scale
decreases-scale l = l.x
""",
    "crates/meter/proofs/deeper/scale/+scale/Answers.antt": "-- `scale` meets its contract.\nreturns c = search rules\n",
    "crates/meter/proofs/deeper/turns/+turns/Answers.antt": "-- The turns meet their contracts.\nreturns c = search rules\n",
    "crates/meter/proofs/deeper/turns/WheelTurns/back/Answers.antt": "-- `Wheel` turns back as it must.\nreturns c = search rules\n",
    "crates/meter/proofs/deeper/turns/RefWheelStepsU8/step/Answers.antt": "-- A step is as it must be.\nreturns c = search rules\n",
    "crates/meter/proofs/deeper/arrays/PaceFromArrayU84/from/Answers.antt": "-- A pace is of its array.\nreturns c = search rules\n",
    "crates/meter/proofs/deeper/arrays/ArrayU84FromPace/from/Answers.antt": "-- An array is of its pace.\nreturns c = search rules\n",
    "crates/meter/proofs/deeper/arrays/RefMutArrayU84LaysTuple2RefSliceU8ArrayArray2/lay/Answers.antt": "-- Laid as it must be.\nreturns c = search rules\n",
    "crates/meter/proofs/deeper/arrays/Lays/double/Answers.antt": "-- Twice, as it must be.\nreturns c = search rules\n",
    "crates/meter/proofs/deeper/arrays/LaidArrayArray24Iterator/next/Answers.antt": "-- It gives what it must.\nreturns c = search rules\n",
    "crates/meter/must-fail/most_of_65.edit": """\
# one more than fits
file: specs/Reading.antt
old: most = 64
new: most = 65
""",
    "crates/meter/must-fail/scaled_twice.edit": """\
# a limit that is moved twice, in two files
file: specs/Reading.antt
old: scale_of x = cond (leb x most) x most
new: scale_of x = cond (leb x 63) x most
old: cond (leb x 63) x most
new: cond (leb x 63) x 63
file: src/deeper/scale.rt
old:     x
new:     x - 1
""",
    "crates/show/src/main.rt": """\
// Shows a reading.
ghost use Rattle.std.specs.Prelude.{◌≡◌, ◌≤◌};

fn shown(x: u8) -> u8
    requires { x ≤ 9 }
    ensures { result ≡ x }
{
    x
}

fn main() {
    let line = b"pub fn // \\" {";
    shown(1);
}
""",
}

THEOREMS = [
    ("meter", "Says", "reading_says", "ReadingSays"),
    ("meter", "Says", "size_says", "SizeSays"),
    ("meter", "Vectors", "example_1", "Example1"),
]

LISTS = {"theorems": THEOREMS, "data": [("meter", "Pair"), ("meter", "Stores")], "reading": [("reader", "fetch"), ("reader", "next")], "giving": [("meter", "GivesTurn")]}
