//! The judge: every call of the port against the Rust of docs/src, bit for bit, with lent, poisoned memory on the port's side. Files, which the
//! Rust has not, are held to document 02's words (formats.rs, labels.rs).
//!
//!   judge run SEED         every call on every input; the last line is 'N calls, 0 differences', or the exit is 1
//!   judge run SEED CALL..  these calls alone
//!   judge case 'LINE'      one case, in the form in which `run` prints a difference
//!   judge sample           the Rust's answers to the fixed inputs of crates/replay: its file stdout
mod cases;
mod differences;
mod expected;
mod features;
// one that is not called is not judged
#[deny(dead_code)]
#[path = "../../rust/src/ffi.rs"]
#[rustfmt::skip]
mod ffi;
mod formats;
mod inputs;
mod labels;
mod lent;
mod numbers;
mod patches;
mod port;
mod sample;
mod table;
mod tracks;

use cases::Field;
use expected::{Expected, Slots};
use inputs::Fields;
use numbers::{BOUND_KINDS, Numbers, bound_kind, meter};
use port::Outcome;
use table::METER;

pub struct Call {
    pub name: &'static str,
    pub fields: &'static str,
    // the numbers of refusal that it has
    refuses: &'static [u32],
    expected: fn(&[Field]) -> Expected,
    port: fn(&[Field]) -> Outcome,
    all: fn(&mut dyn FnMut(Fields)),
    random: fn(&mut Numbers) -> Fields,
    // how many random inputs
    count: usize,
}

macro_rules! call {
    ($name:ident, $fields:literal, $refuses:tt, $all:ident, $count:literal) => {
        Call {
            name: stringify!($name),
            fields: $fields,
            refuses: &$refuses,
            expected: expected::$name,
            port: port::$name,
            all: inputs::$all,
            random: inputs::$name,
            count: $count,
        }
    };
}

pub const CALLS: &[Call] = &[
    call!(median_of, "values work", [1, 3, 4], all_medians, 60_000),
    call!(mad_of, "values median work", [1, 3, 4], all_mads, 60_000),
    call!(spectral_flux, "magnitudes rows bins flux", [1, 2, 3, 4], all_fluxes, 60_000),
    call!(adaptive_threshold, "flux threshold work", [1, 3, 4], all_thresholds, 40_000),
    call!(pick_onsets, "flux threshold rate frames", [1, 2, 3, 4], all_onsets, 60_000),
    call!(suppress_close_peaks, "peaks curve gap frames", [1, 3, 4], all_peaks, 60_000),
    call!(frame_times, "frames rate ms", [1, 3], all_times, 40_000),
    call!(lag_range, "rate min_bpm max_bpm meter", [1], all_lag_ranges, 100_000),
    call!(estimate, "envelope onsets rate min_bpm max_bpm meter clarity_curve weight_curve work", [1, 3, 4], all_tempos, 30_000),
    call!(
        stability_of,
        "envelope rate min_bpm max_bpm meter whole_lag clarity_curve weight_curve work",
        [1, 3, 4],
        all_stabilities,
        30_000
    ),
    call!(beat_grid, "envelope period score back beats", [1, 3, 4], all_grids, 25_000),
    call!(downbeats, "envelope beats meter frames", [1, 3, 4], all_downbeats, 40_000),
    call!(bar_beat_at, "time downbeats beats", [], all_bars, 60_000),
    call!(room_of, "rows rate min_bpm max_bpm meter", [1], all_rooms, 40_000),
    call!(
        analyse_envelope,
        "envelope rate min_bpm max_bpm meter threshold onsets clarity_curve weight_curve window_clarity window_weight score back beats downbeats work",
        [1, 3, 4],
        all_envelopes,
        15_000
    ),
    call!(
        analyse_magnitudes,
        "magnitudes rows bins rate min_bpm max_bpm meter flux threshold onsets clarity_curve weight_curve window_clarity window_weight \
         score back beats downbeats work",
        [1, 2, 3, 4],
        all_slabs,
        15_000
    ),
    features::CALL,
    call!(similarity, "features rows similarity", [1, 2, 3, 4], all_similarities, 30_000),
    call!(novelty, "similarity rows novelty", [1, 2, 3, 4], all_novelties, 12_000),
    call!(boundaries, "novelty length rate max_sections rows work", [1, 3, 4], all_boundaries, 60_000),
    call!(boundary_times, "rows length rate ms", [1, 3], all_row_times, 40_000),
    call!(patch_magnitudes, "magnitudes rows bins start new_rows flux threshold work", [1, 2, 3, 4], all_patches_of_magnitudes, 30_000),
    call!(patch_features, "features rows start new_rows similarity novelty", [1, 2, 3, 4], all_patches_of_features, 6_000),
    call!(write_tempo_track, "beats rate file", [1, 3, 6, 7], all_tempo_tracks, 60_000),
    call!(read_tempo_track, "file gaps", [3, 8], all_tempo_files, 60_000),
    call!(labels_room, "frames rate", [1, 11], all_label_rooms, 60_000),
    call!(write_labels, "frames rate text", [1, 3, 11], all_labels_written, 60_000),
    call!(read_labels, "text rate frames", [1, 3, 9, 10, 11], all_labels_read, 60_000),
    call!(write_cues, "frames chunk", [1, 3, 11], all_cues_written, 60_000),
    call!(read_cues, "chunk frames", [3, 9, 10, 11], all_cues_read, 60_000),
    call!(labels_to_cues, "text rate chunk", [1, 3, 9, 10, 11], all_labels_to_cues, 60_000),
    call!(cues_to_labels, "chunk rate text", [1, 3, 9, 10, 11], all_cues_to_labels, 60_000),
];

/// The numbers that the calls give, in the order of the columns: 5 is the reporting program's.
const NUMBERS: [usize; 11] = [0, 1, 2, 3, 4, 6, 7, 8, 9, 10, 11];
/// One more than the greatest.
const SLOTS: usize = 12;

/// The first difference between what must be and what is, in words.
fn difference(must: &Expected, is: &Outcome) -> Option<String> {
    if is.harm {
        return Some("memory that was not lent, or only lent to be read, changed".into());
    }
    if must.number != is.number {
        return Some(format!("number {} in place of {}", is.number, must.number));
    }
    for (k, (a, b)) in must.answers.iter().zip(&is.answers).enumerate() {
        if a != b {
            return Some(format!("answer {k}: {b:#x} in place of {a:#x}"));
        }
    }
    for (k, (a, b)) in must.slots.iter().zip(&is.slots).enumerate() {
        if a.bits.len() != b.len() {
            return Some(format!("slice {k}: {} slots in place of {}", b.len(), a.bits.len()));
        }
        for i in a.open.min(b.len())..b.len() {
            if a.bits[i] != b[i] {
                return Some(format!("slice {k}, slot {i}: {:#x} in place of {:#x}", b[i], a.bits[i]));
            }
        }
    }
    if must.answers.len() != is.answers.len() || must.slots.len() != is.slots.len() {
        return Some("another number of answers".into());
    }
    None
}

/// One case on both sides.
struct Judged {
    must: Expected,
    is: Outcome,
    // the calls made, and whether NaNs showed that slots stay (`shown`)
    calls: u64,
    shown: bool,
    difference: Option<String>,
}

/// Whether NaNs show that slots stay: of a refusal in every slot of floats that the call may write, of an answer in one that it may not.
fn shown(must: &Expected) -> bool {
    let mut slots = must.slots.iter().flat_map(Slots::nans).peekable();
    if must.number == 0 { slots.any(|nan| nan) } else { slots.peek().is_some() && slots.all(|nan| nan) }
}

/// Runs one case on both sides. A refused patch is run again with NaNs for what it is lent to change: it stays this refusal, as numbers
/// 1 to 3 come before a look at values, and number 4 is theirs too.
fn judged(call: &Call, fields: &[Field]) -> Judged {
    let sides = || {
        let (must, is) = ((call.expected)(fields), (call.port)(fields));
        let difference = difference(&must, &is);
        Judged { shown: shown(&must), calls: 1, must, is, difference }
    };
    let mut one = sides();
    if one.must.number != 0 && call.name.starts_with("patch_") {
        let again = lent::emptied(sides);
        one.calls += 1;
        one.shown = again.shown;
        one.difference = one.difference.or(again.difference.map(|what| format!("with NaNs to change, {what}")));
    }
    one
}

#[derive(Default)]
struct Tally {
    numbers: [u64; SLOTS],
    // cases with each number of which NaNs showed that slots stay
    shown: [u64; SLOTS],
    // whether the call may write floats
    floats: bool,
    // answers that hold something: a tempo, a stability, a place in a bar, entries of a list, slots of a curve
    full: u64,
    // calls with a bound of the tempo that is not finite
    open: u64,
    // the full answers to each kind of lower bound with each of upper bound (`BOUND_KINDS`)
    bounds: [[u64; 4]; 4],
    // calls with another meter than 4, the full answers to each meter, and how often 0, 17 and any above were refused, of inputs that are
    // answered with 4
    other_meters: u64,
    meters: [u64; 17],
    refused_meters: [u64; 3],
    differences: u64,
}

fn full(must: &Expected) -> bool {
    // of a whole track its tempo, of sections their list, of a patch the end of its first range
    let told = must.answers.get(if must.answers.len() > 2 && must.slots.len() != 5 { 1 } else { 0 });
    must.number == 0 && told.map_or(must.slots.iter().any(|s| !s.bits.is_empty()), |&a| a != 0)
}

/// The kinds of the bounds of the tempo, of a call that takes them.
fn bound_kinds(call: &Call, fields: &[Field]) -> Option<(usize, usize)> {
    let low = call.fields.split(' ').position(|name| name == "min_bpm")?;
    Some((bound_kind(fields[low].real()), bound_kind(fields[low + 1].real())))
}

/// Where a call takes its meter, if it does.
fn meter_at(call: &Call) -> Option<usize> {
    call.fields.split(' ').position(|name| name == "meter")
}

impl Tally {
    /// Counts a case of a call that takes a meter.
    fn of_meter(&mut self, call: &Call, fields: &[Field], one: &Judged) {
        let Some(at) = meter_at(call) else { return };
        let meter = fields[at].whole();
        self.other_meters += if meter == 4 { 0 } else { one.calls };
        if METER.contains(&meter) {
            self.meters[meter as usize] += u64::from(full(&one.must));
        } else if one.must.number == 1 {
            let mut usual = fields.to_vec();
            usual[at] = Field::Whole(4);
            let kind = [0, 17].iter().position(|&m| m == meter).unwrap_or(2);
            self.refused_meters[kind] += u64::from((call.expected)(&usual).number == 0);
        }
    }

    fn calls(&self) -> u64 {
        self.numbers.iter().sum()
    }
}

/// Judges one case, counts it, and tells a difference with the smallest case that shows one.
fn judge(call: &Call, fields: &[Field], tally: &mut Tally) -> Outcome {
    lent::fill(tally.calls());
    let one = judged(call, fields);
    let number = one.must.number as usize;
    tally.numbers[number] += one.calls;
    tally.shown[number] += u64::from(one.shown);
    tally.floats |= one.must.slots.iter().any(|s| s.floats.is_some());
    tally.full += u64::from(full(&one.must));
    tally.of_meter(call, fields, &one);
    if let Some((low, high)) = bound_kinds(call, fields) {
        tally.open += if (low, high) == (0, 0) { 0 } else { one.calls };
        tally.bounds[low][high] += u64::from(full(&one.must));
    }
    if let Some(what) = one.difference {
        tally.differences += 1;
        if tally.differences <= 3 {
            let small = cases::smallest(fields.to_vec(), &|f| judged(call, f).difference.is_some());
            let names: Vec<&str> = call.fields.split(' ').collect();
            println!("{}: {what}", call.name);
            println!("  judge case '{}'", cases::text(call.name, &names, &small));
            println!("  {}", judged(call, &small).difference.unwrap_or_default());
        }
    }
    one.is
}

// what never came of a call, though some input gives it: a number, or one while NaNs showed that slots stay
fn never(call: &Call, tally: &Tally) -> Vec<String> {
    let lacks = |&number: &u32| {
        let of = number as usize;
        let what = if number == 0 { "answered".into() } else { format!("refused with {number}") };
        if tally.numbers[of] == 0 {
            Some(format!("never {what}"))
        } else if tally.floats && tally.shown[of] == 0 {
            let slots = if number == 0 { "a slot that it leaves alone" } else { "every slot of floats" };
            Some(format!("never {what} with a NaN in {slots}"))
        } else {
            None
        }
    };
    let mut all: Vec<String> = [0].iter().chain(call.refuses).filter_map(lacks).collect();
    // every call that takes bounds tells something of bounds of each kind
    if call.fields.contains("min_bpm") {
        if tally.open < LEAST_OPEN_EACH {
            all.push(format!("fewer than {LEAST_OPEN_EACH} times with a bound that is not finite"));
        }
        for (low, of_low) in tally.bounds.iter().enumerate() {
            let none = of_low.iter().zip(BOUND_KINDS).filter(|&(&count, _)| count == 0);
            all.extend(none.map(|(_, high)| format!("never told anything of bounds {} and {high}", BOUND_KINDS[low])));
        }
    }
    // and of each meter, and refuses those that are none
    if meter_at(call).is_some() {
        if tally.other_meters < LEAST_OTHER_EACH {
            all.push(format!("fewer than {LEAST_OTHER_EACH} times with another meter than 4"));
        }
        all.extend(METER.filter(|&meter| tally.meters[meter as usize] == 0).map(|meter| format!("never told anything of meter {meter}")));
        let kinds = ["meter 0", "meter 17", "a meter above 17"].into_iter().zip(tally.refused_meters);
        all.extend(kinds.filter(|kind| kind.1 == 0).map(|(kind, _)| format!("never refused {kind} alone")));
    }
    all
}

fn seed_of(seed: u64, salt: &str) -> Numbers {
    salt.bytes().fold(Numbers(seed), |mut r, b| {
        r.0 ^= u64::from(b);
        Numbers(r.next())
    })
}

fn one(call: &Call, seed: u64) -> Tally {
    let mut tally = Tally::default();
    (call.all)(&mut |fields| drop(judge(call, &fields, &mut tally)));
    inputs::open_bounds(call.name, &mut |fields| drop(judge(call, &fields, &mut tally)));
    inputs::at_the_bounds(call.name, &mut |fields| drop(judge(call, &fields, &mut tally)));
    let mut r = seed_of(seed, call.name);
    for _ in 0..call.count {
        let fields = (call.random)(&mut r);
        judge(call, &fields, &mut tally);
    }
    // all of these have the usual meter; now the others, and random inputs of their own
    if let Some(at) = meter_at(call) {
        inputs::other_meters(call.name, &mut |fields| drop(judge(call, &fields, &mut tally)));
        let mut r = seed_of(seed, &format!("{} in other bars", call.name));
        for _ in 0..if call.name == "downbeats" { call.count } else { call.count / 2 } {
            let mut fields = (call.random)(&mut r);
            fields[at] = Field::Whole(meter(&mut r));
            judge(call, &fields, &mut tally);
        }
    }
    tally
}

/// Whole tracks, sections and runs of patches, counted by the calls made.
fn together(seed: u64) -> Vec<(&'static str, Tally)> {
    let call = |name: &str| CALLS.iter().find(|c| c.name == name).unwrap();
    let (magnitudes, features) = (call("patch_magnitudes"), call("patch_features"));
    let mut out = Vec::new();
    for (name, runs) in [
        ("whole tracks", 3_000),
        ("tracks in other bars", 3_000),
        ("sections of rows", 3_000),
        ("sections of tracks", 500),
        ("runs on magnitudes", 3_000),
        ("runs on features", 600),
    ] {
        let (mut tally, mut r) = (Tally::default(), seed_of(seed, name));
        for _ in 0..runs {
            let wrong = match name {
                "whole tracks" | "tracks in other bars" | "sections of rows" | "sections of tracks" => {
                    let (calls, wrong) = match name {
                        "whole tracks" => tracks::track(&mut r, 4),
                        "sections of rows" => tracks::sections(&mut r),
                        "sections of tracks" => features::sections(&mut r),
                        _ => {
                            let meter = r.of(&[1, 2, 3, 3, 5, 6, 7, 8, 9, 10, 11, 12, 13, 14, 15, 16]);
                            let (calls, wrong) = tracks::track(&mut r, meter);
                            tally.other_meters += calls;
                            (calls, wrong)
                        }
                    };
                    tally.numbers[0] += calls;
                    tally.full += calls;
                    wrong
                }
                "runs on magnitudes" => patches::of_magnitudes(&mut r, &mut |f| judge(magnitudes, f, &mut tally)),
                _ => patches::of_features(&mut r, &mut |f| judge(features, f, &mut tally)),
            };
            if let Some(what) = wrong {
                tally.differences += 1;
                if tally.differences <= 3 {
                    println!("{name}: {what}");
                }
            }
        }
        out.push((name, tally));
    }
    out
}

// so many calls of a whole run have a bound that is not finite, and so many of each call that takes bounds
const LEAST_OPEN: u64 = 100_000;
const LEAST_OPEN_EACH: u64 = 5_000;
// and so many another meter than 4
const LEAST_OTHER: u64 = 100_000;
const LEAST_OTHER_EACH: u64 = 5_000;

fn run(seed: u64, only: &[&str]) -> bool {
    differences::tell();
    println!("seed {seed}, the library is version {} (ph_version)", port::version());
    let columns: String = NUMBERS[1..].iter().map(|number| format!("{:>8}", format!("no. {number}"))).collect();
    println!("{:24}{:>10}{:>10}{:>10}{columns}{:>13}", "call", "calls", "answered", "not empty", "differences");
    let (mut calls, mut open, mut other, mut differences, mut lacks) = (0, vec![], vec![], 0, vec![]);
    let mut line = |name: &str, t: Tally| {
        let columns: String = NUMBERS[1..].iter().map(|&number| format!("{:>8}", t.numbers[number])).collect();
        println!("{name:24}{:>10}{:>10}{:>10}{columns}{:>13}", t.calls(), t.numbers[0], t.full, t.differences);
        calls += t.calls();
        open.extend((t.open > 0).then(|| (name.to_string(), t.open)));
        other.extend((t.other_meters > 0).then(|| (name.to_string(), t.other_meters)));
        differences += t.differences;
    };
    for call in CALLS.iter().filter(|c| only.is_empty() || only.contains(&c.name)) {
        let tally = one(call, seed);
        lacks.extend(never(call, &tally).into_iter().map(|what| format!("{} {what}", call.name)));
        line(call.name, tally);
    }
    let runs = if only.is_empty() { together(seed) } else { vec![] };
    for (name, tally) in runs {
        line(name, tally);
    }
    for (list, what, least, such) in [
        (open, "a bound of the tempo that is not finite", LEAST_OPEN, "such a bound"),
        (other, "another meter than 4", LEAST_OTHER, "such a meter"),
    ] {
        let all: u64 = list.iter().map(|(_, of)| of).sum();
        let each: Vec<String> = list.iter().map(|(name, of)| format!("{name} {of}")).collect();
        println!("{all} of the calls have {what}: {}", each.join(", "));
        if only.is_empty() && all < least {
            lacks.push(format!("fewer than {least} calls with {such}"));
        }
    }
    lacks.iter().for_each(|what| println!("{what}"));
    println!("{calls} calls, {differences} differences");
    differences == 0 && lacks.is_empty()
}

fn main() {
    let words: Vec<String> = std::env::args().collect();
    let words: Vec<&str> = words.iter().map(|w| w.as_str()).collect();
    let fine = match words[1..] {
        ["run", seed, ref only @ ..] => run(seed.parse().expect("a seed is a whole number"), only),
        ["case", line] => {
            let name = line.split_whitespace().next().unwrap_or_default();
            let call = CALLS.iter().find(|c| c.name == name).expect("no call of this name");
            let fields = cases::parse(line, &(call.random)(&mut Numbers(1)));
            // with each fill, and the one that differs is told
            let fills = (0..lent::FILLS).map(|number| {
                lent::fill(number);
                judged(call, &fields)
            });
            let all: Vec<Judged> = fills.collect();
            let Judged { must, is, difference, .. } = all.iter().find(|j| j.difference.is_some()).unwrap_or(&all[0]);
            println!("must be: number {}, answers {:x?}", must.number, must.answers);
            println!("is:      number {}, answers {:x?}, slots {:x?}", is.number, is.answers, is.slots);
            println!("{}", difference.as_deref().unwrap_or("no difference"));
            difference.is_none()
        }
        ["sample"] => {
            sample::print();
            true
        }
        _ => {
            eprintln!("judge run SEED [CALL..] | case 'LINE' | sample");
            std::process::exit(2)
        }
    };
    std::process::exit(if fine { 0 } else { 1 })
}
