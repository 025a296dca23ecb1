//! Numbers to feed: from a seed, so that every case can be made again.

/// A generator (splitmix64).
pub struct Numbers(u64);

impl Numbers {
    pub fn of(seed: u64, call: &str, number: u64) -> Numbers {
        let mut r = Numbers(seed);
        for word in call.bytes().map(u64::from).chain([number]) {
            r.0 = r.next() ^ word.wrapping_mul(0x9e37_79b9_7f4a_7c15);
        }
        r
    }
    pub fn next(&mut self) -> u64 {
        self.0 = self.0.wrapping_add(0x9e37_79b9_7f4a_7c15);
        let z = (self.0 ^ (self.0 >> 30)).wrapping_mul(0xbf58_476d_1ce4_e5b9);
        let z = (z ^ (z >> 27)).wrapping_mul(0x94d0_49bb_1331_11eb);
        z ^ (z >> 31)
    }
    /// From lo to hi, both included.
    pub fn between(&mut self, lo: usize, hi: usize) -> usize {
        lo + (self.next() % (hi - lo + 1) as u64) as usize
    }
    pub fn once_in(&mut self, n: u64) -> bool {
        self.next().is_multiple_of(n)
    }
    pub fn one_of<T: Copy>(&mut self, all: &[T]) -> T {
        all[self.between(0, all.len() - 1)]
    }
    /// From 0 up to 1.
    pub fn share(&mut self) -> f64 {
        (self.next() >> 11) as f64 / (1_u64 << 53) as f64
    }
}

/// Values of which a call accepts one kind, and the size it accepts.
pub trait Value: Copy {
    const MOST: Self;
    fn of(x: f64) -> Self;
    fn from_bits_of(bits: u64) -> Self;
    fn fine(self, most: Self) -> bool;
    fn bad() -> [Self; 9];
}
impl Value for f64 {
    const MOST: f64 = prohunsev::limits::MOST_VALUE;
    fn of(x: f64) -> f64 {
        x
    }
    fn from_bits_of(bits: u64) -> f64 {
        f64::from_bits(bits)
    }
    fn fine(self, most: f64) -> bool {
        self.abs() <= most
    }
    fn bad() -> [f64; 9] {
        let above = Self::MOST.to_bits() + 1;
        let quiet = f64::from_bits(0xfff8_dead_beef_0001);
        let signalling = f64::from_bits(0x7ff0_0000_0000_0001);
        [
            f64::NAN,
            -f64::NAN,
            signalling,
            quiet,
            f64::INFINITY,
            -f64::INFINITY,
            f64::from_bits(above),
            -f64::MAX,
            f64::MAX,
        ]
    }
}
impl Value for f32 {
    const MOST: f32 = prohunsev::limits::MOST_MAGNITUDE;
    fn of(x: f64) -> f32 {
        x as f32
    }
    fn from_bits_of(bits: u64) -> f32 {
        f32::from_bits(bits as u32)
    }
    fn fine(self, most: f32) -> bool {
        self.abs() <= most
    }
    fn bad() -> [f32; 9] {
        let above = Self::MOST.to_bits() + 1;
        let (quiet, signalling) = (f32::from_bits(0xffc0_dead), f32::from_bits(0x7f80_0001));
        [
            f32::NAN,
            -f32::NAN,
            signalling,
            quiet,
            f32::INFINITY,
            -f32::INFINITY,
            f32::from_bits(above),
            -f32::MAX,
            f32::MAX,
        ]
    }
}

/// Values of one style, all of which a call accepts, with size at most `most` of the type's own.
fn styled<T: Value>(r: &mut Numbers, n: usize, most: T) -> Vec<T> {
    let style = r.between(0, 9);
    let period = r.between(1, 1 + n.min(200));
    let level = r.share() * 4.0 - 2.0;
    (0..n)
        .map(|t| {
            let x = match style {
                0 => T::of(level),
                1 => T::of(if t % period == 0 { 1.0 } else { 0.0 }),
                2 => T::of(r.share()),
                3 => T::of(r.between(0, 3) as f64 - 1.0),
                4 => T::of(r.one_of(&[0.0, -0.0, 1.0])),
                5 => T::of(if t % period == 0 { 1.0 } else { 0.0 } + 0.05 * r.share()),
                6 => T::from_bits_of(r.next() % 16), // subnormal
                7 => r.one_of(&[most, T::of(-1.0), T::of(0.0), T::of(1.0)]),
                8 => T::of((r.share() - 0.5) * 2_f64.powi(r.between(0, 200) as i32 - 100)),
                _ => T::from_bits_of(r.next()),
            };
            if x.fine(most) {
                x
            } else {
                T::of(0.5)
            }
        })
        .collect()
}

/// Values, one in ten times damaged: a slot or several hold what no call accepts.
pub fn values<T: Value>(r: &mut Numbers, n: usize) -> Vec<T> {
    values_up_to(r, n, T::MOST)
}

pub fn values_up_to<T: Value>(r: &mut Numbers, n: usize, most: T) -> Vec<T> {
    let mut xs = styled(r, n, most);
    if n > 0 && r.once_in(10) {
        for _ in 0..r.one_of(&[1, 1, 3]) {
            let at = r.one_of(&[0, n - 1, r.0 as usize % n]);
            xs[at] = r.one_of(&T::bad());
        }
    }
    xs
}

/// How long a slice is: around each boundary, and now and then so long that it fills its pages.
pub fn length(r: &mut Numbers) -> usize {
    match r.between(0, 99) {
        0..=24 => r.between(0, 4),
        25..=49 => r.between(5, 24),
        50..=79 => r.between(25, 90),
        80..=95 => r.between(91, 400),
        96..=98 => r.one_of(&[511, 512, 513, 1023, 1024, 1025]),
        _ => r.between(400, 2000),
    }
}

/// A count that is told: mostly the right one, else one beside it, none, a huge one, or one that wraps to the right one when it is
/// multiplied by 2, 16 or 17.
pub fn count(r: &mut Numbers, right: usize) -> usize {
    if !r.once_in(8) {
        return right;
    }
    match r.between(0, 9) {
        0 => right.wrapping_add(1),
        1 => right.saturating_sub(1),
        2 => 0,
        3 => r.between(0, 2 * right + 2),
        4 => usize::MAX - r.between(0, 20),
        5 => right.wrapping_add(1 << 63),
        6 => right.wrapping_add(1 << 60),
        7 => right.wrapping_mul(0xf0f0_f0f0_f0f0_f0f1), // times 17 it is `right`
        8 => right.wrapping_add(1 << 32),
        _ => r.next() as usize,
    }
}

/// Room: mostly exactly what is needed or some more, else too little.
pub fn room(r: &mut Numbers, need: usize) -> usize {
    match r.between(0, 19) {
        0 => need.saturating_sub(1),
        1 => r.between(0, need),
        2..=9 => need + r.between(1, 9),
        _ => need,
    }
}

pub fn rate(r: &mut Numbers) -> u32 {
    match r.between(0, 19) {
        0 => r.one_of(&[0, 192_001, u32::MAX, 1 << 31]),
        1 => r.one_of(&[1, 2, 192_000, 191_999]),
        2..=5 => r.between(1, 2_000) as u32,
        6..=9 => r.between(1, 192_000) as u32,
        _ => r.one_of(&[48_000, 44_100, 8_000, 22_050]),
    }
}

/// A bound of the tempo: every float is one.
pub fn bpm(r: &mut Numbers) -> f64 {
    match r.between(0, 29) {
        0 | 7 | 8 => r.one_of(&f64::bad()),
        9 => f64::from_bits(r.next()),
        1 => r.one_of(&[0.0, -0.0, -5.0, f64::MAX, f64::MIN, f64::MIN_POSITIVE, 5e-324, 1.0, 2.0]),
        2..=6 => r.share() * 1000.0,
        _ => 30.0 + r.share() * 270.0,
    }
}

/// Beats of a bar: the usual four, any from 1 to 16, or one that is none, among them some that are 4 in fewer bits.
pub fn meter(r: &mut Numbers) -> usize {
    match r.between(0, 19) {
        0 => r.one_of(&[0, 17, 18, 255, 260, (1 << 16) + 4, (1 << 32) + 4, (1 << 63) + 4, usize::MAX]),
        1 => r.one_of(&[0, 17]),
        2..=4 => r.one_of(&[1, 2, 3, 15, 16]),
        5..=12 => r.between(1, 16),
        _ => 4,
    }
}
