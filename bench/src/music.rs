//! Synthetic music, the same for each size: decaying hits with jitter over a noise floor; and feature rows in sections.

/// Samples a second; a row is 256 samples after the one before it.
pub const RATE: u32 = 48_000;
/// Rows in twenty seconds.
pub const TWENTY_SECONDS: usize = 20 * RATE as usize / 256;

/// splitmix64
pub struct Numbers(pub u64);

impl Numbers {
    fn next(&mut self) -> u64 {
        self.0 = self.0.wrapping_add(0x9e37_79b9_7f4a_7c15);
        let mut z = self.0;
        z = (z ^ (z >> 30)).wrapping_mul(0xbf58_476d_1ce4_e5b9);
        z = (z ^ (z >> 27)).wrapping_mul(0x94d0_49bb_1331_11eb);
        z ^ (z >> 31)
    }
    /// from 0 up to 1
    pub fn part(&mut self) -> f64 {
        (self.next() >> 11) as f64 / (1u64 << 53) as f64
    }
}

/// Rows of magnitudes, one after the other: eighths at 118 beats a minute, every second one softer, up to two rows late, each dying
/// away by a sixth a row, the same shape over the bins; and noise.
pub fn magnitudes(rows: usize, bins: usize, seed: u64) -> Vec<f32> {
    let mut r = Numbers(seed);
    let eighth = f64::from(RATE) / 256.0 * 30.0 / 118.0;
    let mut hits = vec![0.0; rows + 3];
    for k in 0.. {
        let at = (f64::from(k) * eighth + 2.0 * r.part()) as usize;
        if at >= rows {
            break;
        }
        hits[at] += if k % 2 == 0 { 20.0 } else { 8.0 } * (0.8 + 0.4 * r.part());
    }
    let shape: Vec<f32> = (0..bins).map(|b| 1.0 / (1.0 + b as f32 / 40.0)).collect();
    let (mut slab, mut level) = (Vec::with_capacity(rows * bins), 0.0);
    for hit in &hits[..rows] {
        level = level * (5.0 / 6.0) + hit;
        for s in &shape {
            slab.push(level as f32 * s + 0.02 * (r.next() >> 40) as f32 / (1u32 << 24) as f32);
        }
    }
    slab
}

/// Rows of sixteen features: sections of forty to eighty rows, each with a colour of its own, and noise.
pub fn features(rows: usize, seed: u64) -> Vec<f64> {
    let mut r = Numbers(seed);
    let (mut out, mut colour, mut left) = (Vec::with_capacity(16 * rows), [0.0; 16], 0);
    for _ in 0..rows {
        if left == 0 {
            left = 40 + (40.0 * r.part()) as usize;
            colour = std::array::from_fn(|_| r.part());
        }
        left -= 1;
        out.extend(colour.map(|c| c + 0.2 * r.part()));
    }
    out
}
