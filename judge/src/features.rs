//! Feature rows, by the Rust's own lines behind its transform, whose rows are given; and sections of them.
use crate::Call;
use crate::cases::Field::{self, *};
use crate::expected::{Expected, novelty_of, similarity_of};
use crate::ffi::ph_feature_rows;
use crate::inputs::Fields;
use crate::lent::{Lent, bits_of};
use crate::numbers::{Numbers, damage_singles, rate, room};
use crate::port::{self, Outcome};
use crate::table::{BAND, LENGTH, MOST_FEATURE_ROWS, MOST_MAGNITUDE, MOST_ROWS, RATE, WIDTH};
use oracle::structure::{self, StructureOpts};

/// Bins of a row of the feature transform.
const BINS: usize = 2_049;

pub const CALL: Call = Call {
    name: "feature_rows",
    fields: "magnitudes rows samples rate length count features",
    refuses: &[1, 2, 3, 4],
    expected,
    port,
    all,
    random,
    count: 20_000,
};

// ---- the number, by document 02, No. 7: "Refusals: 1 to 4 in their order; a count other than samples over length, rounded up, is 1, a negative
// magnitude or non-finite sample is 4."

fn number(f: &[Field]) -> u32 {
    let (magnitudes, rows, samples) = (f[0].singles(), f[1].whole(), f[2].singles());
    let (rate, length, count, room) = (f[3].whole(), f[4].whole(), f[5].whole(), f[6].whole());
    let outside = !RATE.contains(&rate) || rows > MOST_ROWS as u64 || !LENGTH.contains(&length) || count > MOST_FEATURE_ROWS as u64;
    // -0 is not below 0
    let magnitude = |x: &f32| 0.0 <= *x && *x <= MOST_MAGNITUDE;
    if outside || count != (samples.len() as u64).div_ceil(length) {
        1
    } else if magnitudes.len() as u64 != rows * BINS as u64 {
        2
    } else if room < count * WIDTH as u64 {
        3
    } else if !magnitudes.iter().all(magnitude) || !samples.iter().all(|x| x.is_finite()) {
        4
    } else {
        0
    }
}

/// The feature rows that the Rust gives, one after the other. It is never asked for none: its transform's rows would have nowhere to go.
fn rows_of(magnitudes: &[f32], samples: &[f32], rate: u32, length: usize, count: usize) -> Vec<f64> {
    if count == 0 {
        return vec![];
    }
    let given = structure::open::stft(magnitudes.chunks(BINS).map(<[f32]>::to_vec).collect(), rate);
    structure::open::feature_vectors(&given, samples, length, count).concat()
}

fn expected(f: &[Field]) -> Expected {
    let number = number(f);
    let rows = if number == 0 { rows_of(f[0].singles(), f[2].singles(), f[3].small(), f[4].size(), f[5].size()) } else { vec![] };
    Expected { number, answers: vec![], slots: vec![crate::expected::listed(f[6].size(), &rows)] }
}

fn port(f: &[Field]) -> Outcome {
    let (magnitudes, samples) = (Lent::of(f[0].singles()), Lent::of(f[2].singles()));
    let mut features = Lent::<f64>::room(f[6].size());
    let number = unsafe {
        ph_feature_rows(
            magnitudes.ptr(),
            magnitudes.len(),
            f[1].size(),
            samples.ptr(),
            samples.len(),
            f[3].small(),
            f[4].whole(),
            f[5].size(),
            features.ptr_mut(),
            features.len(),
        )
    };
    let mut harm = false;
    magnitudes.same(f[0].singles(), &mut harm);
    samples.same(f[2].singles(), &mut harm);
    Outcome { number, answers: vec![], slots: vec![features.end(&mut harm)], harm }
}

// ---- inputs

// Those at which a bin stands exactly at 55, 250, 4,000 or 5,000 Hz are among them: of 20,480 samples a second a bin is 5 Hz, of 56,320 it is 13.75.
const RATES: [u64; 12] = [1, 2_048, 4_096, 8_000, 11_025, 20_480, 40_960, 44_100, 48_000, 56_320, 96_000, 192_000];

fn size(n: usize) -> Field {
    Whole(n as u64)
}

// the bins around each bound of the pitches and of the bands
fn edges(rate: u64) -> Vec<usize> {
    let about = [55, 250, 4_000, 5_000].map(|hz| (hz * 4_096 / rate.max(1)) as usize);
    about.iter().flat_map(|&k| k.saturating_sub(1)..=k + 2).filter(|&k| k < BINS).chain([0, 1, BINS - 1]).collect()
}

// samples that fill so many rows of a length, the last with so many
fn samples(r: &mut Numbers, n: usize) -> Vec<f32> {
    let kind = r.whole(0, 5);
    let level = r.part();
    let one = |r: &mut Numbers| match kind {
        0 => 0.0,
        1 => r.of(&[0.0, -0.0, 1.0, -1.0]),
        2 => r.any_size(127) as f32,
        3 => f32::from_bits(r.whole(0, 0x0080_0010) as u32),
        4 => (level * (r.part() - 0.5)) as f32,
        _ => (r.part() * 2.0 - 1.0) as f32,
    };
    (0..n).map(|_| one(r)).collect()
}

fn strengths(r: &mut Numbers, rows: usize, rate: u64) -> Vec<f32> {
    let n = rows * BINS;
    let mut out = vec![0.0; n];
    let kind = r.whole(0, 9);
    match kind {
        0 => {}
        1 => out.fill_with(|| r.of(&[0.0, -0.0])),
        // one bin alone in each row, at an edge or anywhere
        2 | 3 => {
            let near = edges(rate);
            for row in out.chunks_mut(BINS) {
                let k = if kind == 2 { r.of(&near) } else { r.size(0, BINS - 1) };
                row[k] = r.of(&[1.0, 0.3, MOST_MAGNITUDE, f32::from_bits(1), 40.0]);
            }
        }
        4 => out.fill_with(|| r.whole(0, 2) as f32),
        5 => out.fill_with(|| r.any_size(125).abs() as f32),
        6 => out.fill_with(|| r.of(&[MOST_MAGNITUDE, 1.0, 0.0, -0.0])),
        7 => out.fill_with(|| f32::from_bits(r.whole(0, 0x0080_0010) as u32)),
        // silent rows between others
        8 => {
            for row in out.chunks_mut(BINS).step_by(2) {
                row.fill_with(|| r.part() as f32);
            }
        }
        _ => out.fill_with(|| (r.part() * r.part() * 30.0) as f32),
    }
    out
}

// A rate, a length, and how many samples: few rows whole or in part, or none.
fn grid(r: &mut Numbers) -> (u64, u64, usize) {
    let rate = if r.once_in(4) { rate(r) } else { r.of(&RATES) };
    let any = r.whole(1, 4_000);
    // multiples of 1,024: a row of the transform has its centre where a feature row begins
    let length = match r.whole(0, 11) {
        0 => 1,
        1 => 1_023,
        2 => rate.max(1),
        3 => 1 << 31,
        4 => 1_024 * r.whole(1, 4),
        5 => r.of(&[512, 1_025, 2_047, 2_049, 3_072]),
        6 => rate.max(1) / r.whole(1, 40).min(rate.max(1)),
        _ => any,
    };
    let most = 12_000;
    let n = match r.whole(0, 9) {
        0 => 0,
        1 => r.size(1, 5),
        2 => length.min(most) as usize,
        3..=5 => (r.whole(1, 9) * length.min(most)).min(most) as usize,
        _ => r.size(1, (9 * length).min(most) as usize),
    };
    (rate, length, if length < 8 { n.min(60) } else { n })
}

fn random(r: &mut Numbers) -> Fields {
    let (mut rate, mut length, n) = grid(r);
    let rows = match r.whole(0, 11) {
        0 => 0,
        1..=9 => r.size(1, 5),
        10 => r.size(6, 12),
        _ => r.size(6, 24),
    };
    let (mut slab, mut heard) = (strengths(r, rows, rate), samples(r, n));
    if r.once_in(14) {
        damage_singles(r, &mut slab);
    }
    // below 0 by the least that there is, and not at all
    if r.once_in(20) && !slab.is_empty() {
        let k = r.of(&[0, slab.len() - 1, slab.len() / 2]);
        slab[k] = r.of(&[-0.0, -f32::from_bits(1), -1.0]);
    }
    if r.once_in(14) && n > 0 {
        let k = r.of(&[0, n - 1, n / 2]);
        heard[k] = r.of(&[f32::NAN, f32::INFINITY, f32::NEG_INFINITY, f32::MAX, -f32::MAX, -0.0]);
    }
    let mut rows_said = rows;
    match r.whole(0, 60) {
        0 => drop(slab.pop()),
        1 => slab.push(1.0),
        2 => rows_said = r.of(&[rows + 1, MOST_ROWS, MOST_ROWS + 1, usize::MAX, usize::MAX / BINS + 1]),
        3 => rows_said = rows.saturating_sub(1),
        _ => {}
    }
    let mut count = (n as u64).div_ceil(length);
    match r.whole(0, 60) {
        0 => count += 1,
        1 => count = count.saturating_sub(1),
        2 => count = r.of(&[0, 50_000, 50_001, u64::MAX, 1 << 32]),
        3 => length = r.of(&[0, (1 << 31) + 1, u64::MAX, 1 << 32, length + 1]),
        4 => rate = r.of(&[0, 192_001, u32::MAX.into()]),
        _ => {}
    }
    let features = room(r, n.div_ceil(length.max(1) as usize).min(MOST_FEATURE_ROWS + 1) * WIDTH);
    vec![Singles(slab), size(rows_said), Singles(heard), Whole(rate), Whole(length), Whole(count), size(features)]
}

fn all(each: &mut dyn FnMut(Fields)) {
    let lent = |slab: Vec<f32>, heard: Vec<f32>, rate: u64, length: u64| {
        let count = (heard.len() as u64).div_ceil(length);
        let rows = size(slab.len() / BINS);
        vec![Singles(slab), rows, Singles(heard), Whole(rate), Whole(length), Whole(count), Whole(count * WIDTH as u64 + 3)]
    };
    let alone = |bins: &[usize]| {
        let mut slab = vec![0.0; bins.len() * BINS];
        bins.iter().enumerate().for_each(|(t, k)| slab[t * BINS + k] = 0.5);
        slab
    };
    for rate in RATES {
        // each bin alone, in a feature row of its own, but for the first two, which stay silent, and the last ones, which share one
        let every: Vec<usize> = (0..BINS).collect();
        each(lent(alone(&every), vec![0.25; BINS * 1_024], rate, 1_024));
        let near = edges(rate);
        // with the rows of all lengths that matter, whole and short by one sample
        for (length, n) in [1, 1_023, rate, 1 << 31].into_iter().flat_map(|length| [1, 9, 16].map(|count| (length, count * length))) {
            let n = n.min(20_000) as usize;
            for short in [0, 1, n / 2] {
                each(lent(alone(&near), (0..n - short).map(|i| (i % 7) as f32 / 8.0).collect(), rate, length));
            }
            each(lent(vec![0.0; 2 * BINS], vec![0.0; n], rate, length));
            each(lent(vec![], vec![0.5; n], rate, length));
        }
        // no samples, and so nothing is written, whatever the rows are; what is refused of them is refused all the same
        each(lent(alone(&near), vec![], rate, rate));
        each(lent(vec![-1.0; BINS], vec![], rate, rate));
        each(lent(vec![-0.0; BINS], vec![-0.0; 5], rate, 2));
    }
    // rates at which a bin stands near a bound
    for rate in (1..=192_000).step_by(641) {
        each(lent(alone(&edges(rate)), vec![0.5; 1_024 * 24], rate, 1_024));
    }
    // sizes at the bounds, just inside and just outside
    for n in [MOST_FEATURE_ROWS, MOST_FEATURE_ROWS + 1] {
        each(lent(alone(&[7, 50, 900]), (0..n).map(|i| (i % 5) as f32).collect(), 192_000, 1));
        each(lent(alone(&[7, 50, 900]), (0..3 * n - 2).map(|i| (i % 5) as f32).collect(), 1, 3));
    }
    for (place, outside) in
        [(1, MOST_ROWS as u64), (1, 1 << 20 | 1), (3, 0), (3, 192_001), (4, 0), (4, (1 << 31) + 1), (5, 0), (5, 2), (6, 15)]
    {
        let mut fields = lent(alone(&[7]), vec![0.5; 10], 48_000, 48_000);
        fields[place] = Whole(outside);
        each(fields);
    }
}

// ---- sections from both transforms' rows on

/// The sections of some samples and of the rows of a transform: calls made, and what differs.
pub fn sections(r: &mut Numbers) -> (u64, Option<String>) {
    let (rate, length, most) = (r.of(&[2_048u32, 4_000, 8_000]), r.of(&[1_024usize, 2_048, 2_500]), r.size(0, 8));
    let (whole, short) = (r.size(0, 40), r.size(0, length - 1));
    let heard = samples(r, (whole * length).saturating_sub(short));
    let (count, rows) = (heard.len().div_ceil(length), heard.len() / 1_024);
    let mut slab = vec![0.0; rows * BINS];
    let mut tone = r.size(1, BINS - 1);
    for row in slab.chunks_mut(BINS) {
        if r.once_in(12) {
            tone = r.size(1, BINS - 1);
        }
        row[tone] = 10.0;
        for _ in 0..20 {
            row[r.size(0, BINS - 1)] += r.part() as f32;
        }
    }
    let lent = [Singles(slab), size(rows), Singles(heard), Whole(rate.into()), size(length), size(count), size(count * WIDTH)];
    let floats = |bits: &[u64]| Reals(bits.iter().map(|&b| f64::from_bits(b)).collect());
    let (made, samples) = (port(&lent), Whole(length as u64));
    let alike = port::similarity(&[floats(&made.slots[0]), size(count), size(count * BAND)]);
    let novel = port::novelty(&[floats(&alike.slots[0]), size(count), size(count)]);
    let cut = port::boundaries(&[floats(&novel.slots[0]), samples, Whole(rate.into()), size(most), size(count), size(count)]);

    let rows = rows_of(lent[0].singles(), lent[2].singles(), rate, length, count);
    let novelty = novelty_of(&similarity_of(&rows), count);
    let mut picked = vec![];
    let report = structure::open::sections(&novelty, length, rate, &StructureOpts::default().with_max_sections(most), &mut picked);
    let must = [report.section_count as u64, picked.len() as u64, report.confidence.to_bits()];
    let same = [&made, &alike, &novel, &cut].iter().all(|o| o.number == 0 && !o.harm)
        && made.slots[0] == bits_of(&rows)
        && cut.answers == must
        && cut.slots[0].iter().zip(&picked).all(|(&is, &must)| is == must as u64);
    (4, (!same).then(|| format!("sections, rate {rate}, length {length}, most {most}, of magnitudes and samples {lent:?}")))
}
