//! Lent memory: every slice stands between guard slots, every slot of room holds something of its own until it is written.
//!
//! The logic in which the calls are proved has one NaN, so no proof tells a NaN that stayed from another that took its place. The judge
//! does: room for floats is lent with NaNs of both signs, quiet and signalling ones, none of them one that an operation gives; and slots
//! are kept and compared as bits, since a NaN that is moved as a float may come out as another.
use std::marker::PhantomData;
use std::sync::atomic::{AtomicBool, AtomicU64, Ordering::Relaxed};

/// How many fills there are, one after the other: in each a slot holds another NaN.
pub const FILLS: u64 = 8;

// which fill it is, and whether what a call is lent to change is room as well
static FILL: AtomicU64 = AtomicU64::new(0);
static EMPTIED: AtomicBool = AtomicBool::new(false);

/// From now on room holds the fill of this number.
pub fn fill(number: u64) {
    FILL.store(number % FILLS, Relaxed);
}

/// What `f` does with room in the place of each value that a call is lent to change: for a refusal, which leaves those alone too.
pub fn emptied<T>(f: impl FnOnce() -> T) -> T {
    EMPTIED.store(true, Relaxed);
    let out = f();
    EMPTIED.store(false, Relaxed);
    out
}

/// Floats of one width, by their bits.
#[derive(Clone, Copy)]
pub struct Floats {
    sign: u64,
    infinity: u64,
    // the NaN that an operation gives, but for its sign
    given: u64,
}

const DOUBLES: Floats = Floats { sign: 1 << 63, infinity: 0x7ff0 << 48, given: 0x7ff8 << 48 };
const SINGLES: Floats = Floats { sign: 1 << 31, infinity: 0x7f80 << 16, given: 0x7fc0 << 16 };

impl Floats {
    fn nan(self, bits: u64) -> bool {
        bits & !self.sign > self.infinity
    }
    /// Whether it is a NaN, and none that an operation gives.
    pub fn own_nan(self, bits: u64) -> bool {
        self.nan(bits) && bits & !self.sign != self.given
    }
    // Four kinds take turns from slot to slot and from fill to fill. The payload behind them is the slot's own, from the least on or from
    // the most down, and never 0, as an operation has it.
    fn poison(self, salt: u64) -> u64 {
        let (fill, most) = (FILL.load(Relaxed), (self.given ^ self.infinity) - 1);
        let payload = if fill < 4 { 1 + salt % most } else { most - salt % most };
        let kinds = [self.given, self.given | self.sign, self.infinity, self.infinity | self.sign];
        kinds[((fill + salt) % 4) as usize] | payload
    }
}

pub trait Slot: Copy {
    /// Its bits, as wide as it is.
    type Bits: Copy + Into<u64>;
    const FLOATS: Option<Floats>;
    fn narrow(self) -> Self::Bits;
    /// What a slot of room holds; `salt` is its place.
    fn poison(salt: u64) -> Self::Bits;
    fn bits(self) -> u64 {
        self.narrow().into()
    }
}
impl Slot for f64 {
    type Bits = u64;
    const FLOATS: Option<Floats> = Some(DOUBLES);
    fn narrow(self) -> u64 {
        self.to_bits()
    }
    fn poison(salt: u64) -> u64 {
        DOUBLES.poison(salt)
    }
}
impl Slot for f32 {
    type Bits = u32;
    const FLOATS: Option<Floats> = Some(SINGLES);
    fn narrow(self) -> u32 {
        self.to_bits()
    }
    fn poison(salt: u64) -> u32 {
        SINGLES.poison(salt) as u32
    }
}
impl Slot for u32 {
    type Bits = u32;
    const FLOATS: Option<Floats> = None;
    fn narrow(self) -> u32 {
        self
    }
    fn poison(salt: u64) -> u32 {
        0xdead_0000 ^ salt as u32
    }
}
impl Slot for u8 {
    type Bits = u8;
    const FLOATS: Option<Floats> = None;
    fn narrow(self) -> u8 {
        self
    }
    fn poison(salt: u64) -> u8 {
        0xc5 ^ salt as u8
    }
}
impl Slot for usize {
    type Bits = u64;
    const FLOATS: Option<Floats> = None;
    fn narrow(self) -> u64 {
        self as u64
    }
    fn poison(salt: u64) -> u64 {
        0xdead_beef_0000_0000 ^ salt
    }
}

const GUARD: usize = 3;

pub struct Lent<T: Slot> {
    slots: Vec<T::Bits>,
    kind: PhantomData<T>,
}

// guards, so many slots between them
fn between<T: Slot>(slots: usize, holds: impl Fn(usize) -> T::Bits) -> Lent<T> {
    let inner = GUARD..GUARD + slots;
    let slot = |i: usize| if inner.contains(&i) { holds(i - GUARD) } else { T::poison(i as u64) };
    Lent { slots: (0..slots + 2 * GUARD).map(slot).collect(), kind: PhantomData }
}

// what slot i of room holds
fn unwritten<T: Slot>(i: usize) -> T::Bits {
    T::poison((GUARD + i) as u64)
}

// What slot i holds of a slice that is lent to be changed: a NaN of a case, be it a value that number 4 refuses or one past the formula,
// stands for the slot's own.
fn changed_slot<T: Slot>(i: usize, x: T) -> T::Bits {
    let nan = T::FLOATS.is_some_and(|floats| floats.nan(x.bits()));
    if nan || EMPTIED.load(Relaxed) { unwritten::<T>(i) } else { x.narrow() }
}

impl<T: Slot> Lent<T> {
    /// An output of so many slots.
    pub fn room(slots: usize) -> Self {
        between(slots, unwritten::<T>)
    }
    /// An input.
    pub fn of(values: &[T]) -> Self {
        between(values.len(), |i| values[i].narrow())
    }
    /// Values to be changed.
    pub fn changed(values: &[T]) -> Self {
        between(values.len(), |i| changed_slot(i, values[i]))
    }
    pub fn len(&self) -> usize {
        self.slots.len() - 2 * GUARD
    }
    pub fn ptr(&self) -> *const T {
        self.slots[GUARD..].as_ptr().cast()
    }
    pub fn ptr_mut(&mut self) -> *mut T {
        self.slots[GUARD..].as_mut_ptr().cast()
    }
    /// As an array, which has no length of its own.
    pub fn array<const N: usize>(&mut self) -> *mut [T; N] {
        assert_eq!(self.len(), N);
        self.ptr_mut().cast()
    }
    /// The slots as bits, and whether the guards stand.
    pub fn end(self, harm: &mut bool) -> Vec<u64> {
        let n = self.slots.len();
        for i in (0..GUARD).chain(n - GUARD..n) {
            *harm |= self.slots[i].into() != T::poison(i as u64).into();
        }
        self.slots[GUARD..n - GUARD].iter().map(|&bits| bits.into()).collect()
    }
    /// An input comes back as it went, and its guards stand.
    pub fn same(self, values: &[T], harm: &mut bool) {
        let kept = self.end(harm).into_iter().eq(values.iter().map(|x| x.bits()));
        *harm |= !kept;
    }
}

/// The slots of an output as they are before the call.
pub fn poisoned<T: Slot>(slots: usize) -> Vec<u64> {
    (0..slots).map(|i| unwritten::<T>(i).into()).collect()
}

/// The slots of a slice that is lent to be changed, before the call or after it, as the case has them.
pub fn held<T: Slot>(values: &[T]) -> Vec<u64> {
    values.iter().enumerate().map(|(i, &x)| changed_slot(i, x).into()).collect()
}

// the places of a lent number and of its guards
const CELL: [u64; 3] = [0x76, 0x77, 0x78];

/// A lent number before the call.
pub fn cell<T: Slot>() -> u64 {
    T::poison(CELL[1]).into()
}

/// A lent number, with a guard before it and one behind.
#[derive(Clone, Copy)]
pub struct Number<T: Slot> {
    slots: [T::Bits; 3],
}

impl<T: Slot> Number<T> {
    pub fn lent() -> Self {
        Number { slots: CELL.map(T::poison) }
    }
    pub fn ptr_mut(&mut self) -> *mut T {
        self.slots[1..].as_mut_ptr().cast()
    }
    /// The number as bits, and whether the guards stand.
    pub fn end(self, harm: &mut bool) -> u64 {
        let [before, number, after] = self.slots.map(Into::into);
        *harm |= before != T::poison(CELL[0]).into() || after != T::poison(CELL[2]).into();
        number
    }
}

pub fn bits_of<T: Slot>(xs: &[T]) -> Vec<u64> {
    xs.iter().map(|x| x.bits()).collect()
}
