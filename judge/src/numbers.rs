//! Numbers for the inputs: a fixed sequence for each seed (splitmix64), and the shapes that curves have in music and at the edges.
use crate::table::{MOST_MAGNITUDE, MOST_VALUE};

#[derive(Clone)]
pub struct Numbers(pub u64);

impl Numbers {
    pub fn next(&mut self) -> u64 {
        self.0 = self.0.wrapping_add(0x9e37_79b9_7f4a_7c15);
        let mut z = self.0;
        z = (z ^ (z >> 30)).wrapping_mul(0xbf58_476d_1ce4_e5b9);
        z = (z ^ (z >> 27)).wrapping_mul(0x94d0_49bb_1331_11eb);
        z ^ (z >> 31)
    }
    /// From lo to hi.
    pub fn whole(&mut self, lo: u64, hi: u64) -> u64 {
        lo + ((self.next() as u128 * (hi - lo + 1) as u128) >> 64) as u64
    }
    pub fn size(&mut self, lo: usize, hi: usize) -> usize {
        self.whole(lo as u64, hi as u64) as usize
    }
    /// Once in n.
    pub fn once_in(&mut self, n: u64) -> bool {
        self.whole(1, n) == 1
    }
    pub fn of<T: Copy>(&mut self, list: &[T]) -> T {
        list[self.size(0, list.len() - 1)]
    }
    /// From 0 up to 1.
    pub fn part(&mut self) -> f64 {
        (self.next() >> 11) as f64 / (1u64 << 53) as f64
    }
    pub fn real(&mut self, lo: f64, hi: f64) -> f64 {
        lo + (hi - lo) * self.part()
    }
    /// A size up to 2^150, small and large alike.
    pub fn any_size(&mut self, top: i32) -> f64 {
        let x = (1.0 + self.part()) * 2f64.powi(self.whole(0, 300) as i32 - 300 + top);
        if self.once_in(2) { -x } else { x }
    }
}

/// How many shapes `curve` knows.
const SHAPES: u64 = 19;

/// A curve of n slots in one of the shapes.
pub fn curve(r: &mut Numbers, n: usize) -> Vec<f64> {
    let shape = r.whole(0, SHAPES - 1);
    let scale = r.of(&[1.0, 1.0, 560.0, 0.001, 1e-8, 1e30]);
    let period = r.size(2, 60.min(n.max(3))) as f64;
    match shape {
        0 => vec![0.0; n],
        1 => vec![r.of(&[2.5, 0.1, -0.0, 1e-9]); n],
        // few values: ties everywhere
        2 => (0..n).map(|_| r.whole(0, 2) as f64).collect(),
        3 => (0..n).map(|_| r.of(&[0.0, -0.0, 1.0, 0.0])).collect(),
        4 => (0..n).map(|_| r.part() * scale).collect(),
        // hits that decay, with jitter, and some left out
        5 => hits(r, n, period, 0.0, 0.08, scale),
        // the tempo drifts
        6 => {
            let drift = r.real(-0.02, 0.02);
            hits(r, n, period, drift, 0.0, scale)
        }
        // exact period: many equal sums
        7 => (0..n).map(|t| if t % period as usize == 1 { 4.0 } else { 0.0 }).collect(),
        // plateaus
        8 => {
            let mut level = 0.0;
            (0..n)
                .map(|_| {
                    if r.once_in(5) {
                        level = r.whole(0, 5) as f64 * scale;
                    }
                    level
                })
                .collect()
        }
        // a small ripple on a high floor
        9 => {
            let (floor, ripple) = (r.of(&[1e6, 1e12, 1e3]), r.of(&[1.0, 1e-3, 1e-9]));
            (0..n).map(|t| floor + ripple * ((t * 7 % period as usize) as f64 + r.part())).collect()
        }
        // every size up to 2^150
        10 => (0..n).map(|_| r.any_size(149)).collect(),
        // near the top
        11 => (0..n).map(|_| r.of(&[MOST_VALUE, -MOST_VALUE, MOST_VALUE / 2.0, 0.0, 1.0])).collect(),
        // tiny: squares underflow
        12 => (0..n).map(|_| r.any_size(-400)).collect(),
        13 => (0..n).map(|_| r.real(-1.0, 1.0) * scale).collect(),
        14 => (0..n).map(|t| t as f64 * scale).collect(),
        // silence, then a burst
        15 => {
            let from = r.size(0, n);
            (0..n).map(|t| if t < from { 0.0 } else { (t % 3) as f64 * scale }).collect()
        }
        // peaks of both zeros, which only the total order tells apart
        18 => (0..n).map(|_| r.of(&[-1.0, -1.0, 0.0, -0.0])).collect(),
        // two periods at once, an accent on every fourth
        16 => {
            let p = period as usize;
            (0..n)
                .map(|t| {
                    if t % (4 * p) == 0 {
                        9.0
                    } else if t % p == 0 {
                        5.0
                    } else {
                        r.part() * 0.3
                    }
                })
                .collect()
        }
        // near the least energy, 2^-52
        _ => {
            let faint = 2f64.powi(-(r.whole(24, 30) as i32));
            (0..n).map(|t| if t % period as usize == 0 { faint } else { 0.0 }).collect()
        }
    }
}

fn hits(r: &mut Numbers, n: usize, period: f64, drift: f64, jitter: f64, scale: f64) -> Vec<f64> {
    let mut out = vec![0.0; n];
    let (mut at, mut step) = (r.part() * period, period);
    while at < n as f64 {
        let wobble = r.real(-jitter, jitter) * period;
        let (start, level) = ((at + wobble).max(0.0) as usize, r.real(0.5, 1.0) * scale);
        if !r.once_in(8) {
            for k in 0..6 {
                if start + k < n {
                    out[start + k] += level * 0.4f64.powi(k as i32);
                }
            }
        }
        step = (step * (1.0 + drift)).clamp(1.5, 400.0);
        at += step;
    }
    if r.once_in(2) {
        for x in &mut out {
            *x += r.part() * 0.01 * scale;
        }
    }
    out
}

/// Magnitudes, rows of so many bins.
pub fn magnitudes(r: &mut Numbers, rows: usize, bins: usize) -> Vec<f32> {
    let n = rows * bins;
    match r.whole(0, 8) {
        0 => vec![0.0; n],
        1 => (0..n).map(|_| r.of(&[0.0, -0.0])).collect(),
        2 => (0..n).map(|_| r.whole(0, 2) as f32).collect(),
        3 => (0..n).map(|_| r.part() as f32).collect(),
        4 => (0..n).map(|_| (r.any_size(125)) as f32).collect(),
        5 => (0..n).map(|_| r.of(&[MOST_MAGNITUDE, -MOST_MAGNITUDE, 1.0, 0.0])).collect(),
        6 => (0..n).map(|_| f32::from_bits(r.whole(0, 0x0080_0010) as u32)).collect(),
        // a sustained tone with small changes
        7 => (0..n).map(|i| 40.0 + (i % bins) as f32 + r.part() as f32 * 1e-3).collect(),
        _ => {
            let period = r.size(3, 40) as f64;
            let beats = hits(r, rows, period, 0.0, 0.05, 30.0);
            (0..n).map(|i| (beats[i / bins] * (1.0 + (i % bins) as f64 * 0.1) + r.part() * 0.05) as f32).collect()
        }
    }
}

/// Feature rows of sixteen: blocks that differ, silence, rows that repeat, values of every size.
pub fn features(r: &mut Numbers, rows: usize) -> Vec<f64> {
    let kind = r.whole(0, 7);
    let mut base = [0.0; 16];
    let mut out = Vec::with_capacity(rows * 16);
    for i in 0..rows {
        if i == 0 || r.once_in(12) {
            for x in &mut base {
                *x = if r.once_in(3) { 0.0 } else { r.part() };
            }
        }
        for (k, &level) in base.iter().enumerate() {
            out.push(match kind {
                0 => 0.0,
                1 => r.of(&[0.0, -0.0, 1.0, -1.0]),
                2 => level,
                3 => level + r.part() * 0.05,
                4 => r.any_size(149),
                5 => r.any_size(-380),
                6 if i % 5 == 0 => 0.0,
                // a dot product of -0 alone: each product is -0
                7 if i % 2 == 0 => {
                    if k == 0 {
                        1.0
                    } else {
                        -0.0
                    }
                }
                7 => {
                    if k == 0 {
                        -0.0
                    } else {
                        1.0
                    }
                }
                _ => r.part() - 0.3,
            });
        }
    }
    out
}

/// Values that number 4 refuses, and the last ones that it doesn't.
pub fn damage(r: &mut Numbers, xs: &mut [f64]) {
    if !xs.is_empty() {
        let i = r.of(&[0, xs.len() - 1, xs.len() / 2]);
        let above = f64::from_bits(MOST_VALUE.to_bits() + 1);
        xs[i] = r.of(&[f64::NAN, f64::INFINITY, f64::NEG_INFINITY, above, -above, MOST_VALUE, -MOST_VALUE]);
    }
}

pub fn damage_singles(r: &mut Numbers, xs: &mut [f32]) {
    if !xs.is_empty() {
        let i = r.of(&[0, xs.len() - 1, xs.len() / 2]);
        let above = f32::from_bits(MOST_MAGNITUDE.to_bits() + 1);
        xs[i] = r.of(&[f32::NAN, f32::INFINITY, f32::NEG_INFINITY, above, -above, MOST_MAGNITUDE, -MOST_MAGNITUDE]);
    }
}

/// A room: mostly enough or a little more, at times just short or none.
pub fn room(r: &mut Numbers, need: usize) -> usize {
    match r.whole(0, 40) {
        0 => need.saturating_sub(1),
        1 => need.saturating_sub(r.size(1, 4)),
        2 => 0,
        3..=20 => need,
        _ => need + r.size(1, 5),
    }
}

/// A sample rate, outside its bounds at times.
pub fn rate(r: &mut Numbers) -> u64 {
    match r.whole(0, 60) {
        0 => 0,
        1 => 192_001,
        2 => u32::MAX.into(),
        3 => 192_000,
        4 => 1,
        5..=15 => 48_000,
        16..=25 => 44_100,
        26..=45 => r.whole(1, 4_000),
        46..=50 => r.of(&[8_000, 11_025, 16_000, 22_050, 32_000, 96_000, 176_400]),
        _ => r.whole(1, 192_000),
    }
}

/// Two bounds of the tempo.
pub fn bpm(r: &mut Numbers) -> (f64, f64) {
    match r.whole(0, 15) {
        0..=4 => (30.0, 300.0),
        5 => (r.real(300.0, 20.0), r.real(20.0, 300.0)),
        6 => (0.0, 0.0),
        7 => (r.any_size(149), r.any_size(149)),
        8 | 13..=15 => open_bpm(r),
        9 => (r.of(&[f64::MAX, -f64::MAX, -0.0, 1.0, 1e-310]), r.of(&[f64::MAX, -f64::MAX, 2.0, 1.0, 0.0])),
        10 => {
            let low = r.real(1.0, 400.0);
            (low, low + r.real(0.0, 3.0))
        }
        _ => (r.real(20.0, 120.0), r.real(100.0, 400.0)),
    }
}

/// Meters around their bounds, and some far above: among them those that are 4 in fewer bits.
pub const METERS_TRIED: std::ops::RangeInclusive<u64> = 0..=18;
pub const HUGE_METERS: [u64; 6] = [20, 260, (1 << 16) + 4, (1 << 32) + 4, (1 << 63) + 4, u64::MAX];

/// Beats of a bar, outside their bounds at times.
pub fn meter(r: &mut Numbers) -> u64 {
    match r.whole(0, 15) {
        0 => r.of(&[0, 17, 18]),
        1 => r.of(&HUGE_METERS),
        2 => r.next(),
        3..=5 => r.of(&[1, 2, 3, 15, 16]),
        _ => r.whole(1, 16),
    }
}

/// The kinds of bounds of the tempo, as `bound_kind` numbers them.
pub const BOUND_KINDS: [&str; 4] = ["finite", "NaN", "+inf", "-inf"];

pub fn bound_kind(bound: f64) -> usize {
    match bound {
        _ if bound.is_finite() => 0,
        _ if bound.is_nan() => 1,
        f64::INFINITY => 2,
        _ => 3,
    }
}

/// NaNs that only their bits tell apart: that of an operation with either sign, others, and a signalling one.
pub const NANS: [f64; 4] =
    [f64::NAN, f64::from_bits(0xfff8 << 48), f64::from_bits(0x7ffc_dead_beef_0001), f64::from_bits(0xfff0_0000_0000_0001)];

// a NaN of any bits
fn any_nan(r: &mut Numbers) -> f64 {
    f64::from_bits(r.next() | f64::INFINITY.to_bits() | 1 << r.whole(0, 51))
}

/// Two bounds of the tempo, of which one at least is not finite.
pub fn open_bpm(r: &mut Numbers) -> (f64, f64) {
    let open = |r: &mut Numbers| if r.once_in(2) { any_nan(r) } else { r.of(&[f64::INFINITY, f64::NEG_INFINITY]) };
    let (low, high) = (open(r), open(r));
    let plain = r.real(1.0, 400.0);
    let finite = r.of(&[plain, 30.0, 300.0, 0.0, -plain, f64::MAX]);
    match r.whole(0, 2) {
        0 => (low, finite),
        1 => (finite, high),
        _ => (low, high),
    }
}
