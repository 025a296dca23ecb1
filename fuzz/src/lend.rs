//! One call: its arguments, lent between guards, and what came of it.
//!
//! The logic in which the calls are proved has one NaN, so no proof tells a NaN that stayed from another that took its place. These runs
//! do: room for floats is lent with a NaN of its own in each slot, of other bits than an operation gives, filled and compared as bytes.
use crate::alarm::{self, Case, Now, MOST_ARGUMENTS};
use crate::guard::{page, Pool, Region};
use crate::numbers::Numbers;

/// An argument of a call.
#[derive(Clone, Debug)]
pub enum Arg {
    /// A number by value: a count, a rate, or the bits of a float.
    Whole(u64),
    Real(f64),
    /// Beats of a bar, a number by value too.
    Meter(usize),
    /// Lent memory of so many slots: what the first of them hold before the call, while the others are room, and whether it may be
    /// written.
    Lent {
        values: Vec<u8>,
        slots: usize,
        kind: Kind,
        written: bool,
    },
}

impl Arg {
    /// Whether it holds values that a call is lent to change.
    pub fn is_changed(&self) -> bool {
        matches!(self, Arg::Lent { values, written: true, .. } if !values.is_empty())
    }
}

/// What a slot is: bytes, and whether they are a float.
#[derive(Clone, Copy, Debug)]
pub struct Kind {
    pub bytes: usize,
    pub float: bool,
}

/// Values that can be lent.
pub trait Slot: Copy {
    const KIND: Kind;
    fn put(self, bytes: &mut Vec<u8>);
}
macro_rules! slot {
    ($($t:ty, $float:literal;)*) => {$(
        impl Slot for $t {
            const KIND: Kind = Kind { bytes: std::mem::size_of::<$t>(), float: $float };
            fn put(self, bytes: &mut Vec<u8>) {
                bytes.extend(self.to_ne_bytes());
            }
        }
    )*};
}
slot!(f64, true; f32, true; u32, false; usize, false; u8, false;);

fn lent<T: Slot>(values: &[T], slots: usize, written: bool) -> Arg {
    let mut bytes = Vec::with_capacity(values.len() * T::KIND.bytes);
    values.iter().for_each(|v| v.put(&mut bytes));
    Arg::Lent { values: bytes, slots, kind: T::KIND, written }
}

/// Values lent to be read.
pub fn input<T: Slot>(values: &[T]) -> Arg {
    lent(values, values.len(), false)
}
/// So many slots lent to be changed: as many of the values as fit, and room.
pub fn changed<T: Slot>(values: &[T], slots: usize) -> Arg {
    lent(&values[..slots.min(values.len())], slots, true)
}
/// Room for so many values.
pub fn output<T: Slot>(slots: usize) -> Arg {
    changed::<T>(&[], slots)
}
/// A lent number.
pub fn cell<T: Slot>() -> Arg {
    output::<T>(1)
}
pub fn whole(number: usize) -> Arg {
    Arg::Whole(number as u64)
}

/// The same arguments, but what a call is lent to change is room: a refusal leaves that alone too, whatever it holds.
pub fn emptied(args: &[Arg]) -> Vec<Arg> {
    let room = |arg: &Arg| match arg {
        Arg::Lent { slots, kind, written: true, .. } => {
            Arg::Lent { values: Vec::new(), slots: *slots, kind: *kind, written: true }
        }
        other => other.clone(),
    };
    args.iter().map(room).collect()
}

/// What room holds before a call.
#[derive(Clone, Copy)]
pub enum Fill {
    /// In each slot of floats a NaN, in each other slot a number that is no answer.
    Nans,
    /// Each byte another: of floats mostly finite ones, and none that a call accepts.
    Bytes,
}

// In each slot another: of floats a NaN of either sign, quiet or signalling, at times the one that has every bit or the least of all.
// The last bit is set, which it is in no NaN that an operation gives (7ff8.. and fff8.., 7fc0.. and ffc0.., zeros behind): one of those
// in its place is seen.
fn unwritten(kind: Kind, r: &mut Numbers) -> u64 {
    let any = r.next();
    let bits = match any >> 60 {
        0 => u64::MAX,
        1 => 1,
        _ => any | 1,
    };
    match (kind.float, kind.bytes) {
        (true, 8) => bits | 0x7ff0 << 48,
        (true, _) => bits | 0x7f80 << 16,
        (false, 8) => bits | 1 << 63,
        (false, _) => bits | 1 << 31,
    }
}

/// Whether these bytes are a NaN that no operation gives.
pub fn own_nan(kind: Kind, slot: &[u8]) -> bool {
    let (sign, infinite, given) = match kind.bytes {
        8 => (1 << 63, 0x7ff0 << 48, 0x7ff8 << 48),
        _ => (1 << 31, 0x7f80 << 16, 0x7fc0 << 16),
    };
    let size = bits(slot) & !sign;
    kind.float && size > infinite && size != given
}

// the bits of a slot
fn bits(slot: &[u8]) -> u64 {
    match slot.len() {
        4 => u32::from_ne_bytes(slot.try_into().unwrap()).into(),
        _ => u64::from_ne_bytes(slot.try_into().unwrap()),
    }
}

/// What each argument holds before the call; nothing for a number.
pub fn contents(args: &[Arg], fill: Fill, r: &mut Numbers) -> Vec<Vec<u8>> {
    let held = |arg: &Arg| {
        let Arg::Lent { values, slots, kind, .. } = arg else { return Vec::new() };
        let all = slots * kind.bytes;
        let mut held = Vec::with_capacity(all);
        held.extend_from_slice(values);
        match fill {
            Fill::Bytes => {
                held.extend((values.len()..all).map(|i| if i % 4 == 3 { 0x7f } else { 0xc0 | (i % 61) as u8 }))
            }
            Fill::Nans => {
                while held.len() < all {
                    let bits = unwritten(*kind, r);
                    match kind.bytes {
                        1 => held.push(bits as u8),
                        4 => held.extend((bits as u32).to_ne_bytes()),
                        _ => held.extend(bits.to_ne_bytes()),
                    }
                }
            }
        }
        held
    };
    args.iter().map(held).collect()
}

/// An argument as it is handed over.
#[derive(Clone, Copy)]
pub enum Word {
    Whole(u64),
    Real(f64),
    Lent { at: *mut u8, slots: usize },
}

impl Word {
    pub fn at<T>(self) -> *mut T {
        match self {
            Word::Lent { at, .. } => at.cast(),
            _ => unreachable!("a number is not lent"),
        }
    }
    pub fn slots(self) -> usize {
        match self {
            Word::Lent { slots, .. } => slots,
            _ => unreachable!("a number has no slots"),
        }
    }
    pub fn size(self) -> usize {
        self.long() as usize
    }
    pub fn small(self) -> u32 {
        self.long() as u32
    }
    pub fn long(self) -> u64 {
        match self {
            Word::Whole(n) => n,
            _ => unreachable!("no whole number"),
        }
    }
    pub fn real(self) -> f64 {
        match self {
            Word::Real(x) => x,
            _ => unreachable!("no float"),
        }
    }
}

/// What came of a call: its number, and what lent memory holds, one entry an argument (none for a number and for an input).
pub struct After {
    pub number: u32,
    pub held: Vec<Vec<u8>>,
}

impl After {
    pub fn whole(&self, argument: usize) -> usize {
        let bytes = &self.held[argument];
        match bytes.len() {
            4 => u32::from_ne_bytes(bytes[..4].try_into().unwrap()) as usize,
            _ => usize::from_ne_bytes(bytes[..8].try_into().unwrap()),
        }
    }
    pub fn frames(&self, argument: usize, count: usize) -> Vec<u32> {
        self.held[argument].chunks(4).take(count).map(|b| u32::from_ne_bytes(b.try_into().unwrap())).collect()
    }
    pub fn zeros(&self, argument: usize) -> bool {
        self.held[argument].iter().all(|&b| b == 0)
    }
}

/// Where the guard stands that a slice touches.
#[derive(Clone, Copy, PartialEq)]
pub enum Guard {
    Behind,
    Before,
}

impl Guard {
    fn word(self) -> &'static str {
        match self {
            Guard::Behind => "behind",
            Guard::Before => "before",
        }
    }
}

// what surrounds a slice that may be written, as far as it is looked at
const AROUND: u8 = 0xa5;

// the bytes beside a slice, up to a page of them
fn beside(start: usize, bytes: usize, all: usize) -> [std::ops::Range<usize>; 2] {
    [start.saturating_sub(page())..start, start + bytes..(start + bytes + page()).min(all)]
}

/// Calls, with every slice, holding what `lent` says, against a guard; an Err says what it did to memory beside a slice.
pub fn call(
    name: &'static str,
    function: fn(&[Word]) -> u32,
    case: Case,
    args: &[Arg],
    lent: &[Vec<u8>],
    guard: Guard,
    pool: &mut Pool,
) -> Result<After, String> {
    let mut regions: Vec<Option<(Region, usize)>> = Vec::with_capacity(args.len());
    let mut words = Vec::with_capacity(args.len());
    let mut slices = [(0, 0); MOST_ARGUMENTS];
    for (k, (arg, bytes)) in args.iter().zip(lent).enumerate() {
        let (word, region) = match arg {
            Arg::Whole(n) => (Word::Whole(*n), None),
            Arg::Meter(n) => (Word::Whole(*n as u64), None),
            Arg::Real(x) => (Word::Real(*x), None),
            Arg::Lent { slots, written, .. } => {
                let mut region = pool.region(k, bytes.len(), *written);
                let start = if guard == Guard::Behind { region.bytes() - bytes.len() } else { 0 };
                let all = region.bytes();
                let contents = region.contents();
                contents[start..start + bytes.len()].copy_from_slice(bytes);
                if *written {
                    beside(start, bytes.len(), all).into_iter().for_each(|r| contents[r].fill(AROUND));
                }
                let at = region.lent().wrapping_add(start);
                slices[k] = (at as usize, bytes.len());
                (Word::Lent { at, slots: *slots }, Some((region, start)))
            }
        };
        words.push(word);
        regions.push(region);
    }
    alarm::about_to(Now { call: name, case, guard: guard.word(), slices });
    let number = function(&words);
    let mut held = Vec::with_capacity(args.len());
    let mut harm = None;
    for (k, ((arg, bytes), region)) in args.iter().zip(lent).zip(regions).enumerate() {
        let mut holds = Vec::new();
        if let (Arg::Lent { written, .. }, Some((mut region, start))) = (arg, region) {
            if *written {
                let all = region.bytes();
                let contents = region.contents();
                holds.extend_from_slice(&contents[start..start + bytes.len()]);
                if beside(start, bytes.len(), all).into_iter().any(|r| contents[r].iter().any(|&b| b != AROUND)) {
                    harm = Some(format!("argument {k}: memory beside it was written"));
                }
            }
            pool.give_back(k, region);
        }
        held.push(holds);
    }
    harm.map_or(Ok(After { number, held }), Err)
}
