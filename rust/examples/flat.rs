//! Resident memory of a worker that tags track after track, in two ways: with vectors of the formulas' sizes, made once for the longest
//! track and lent to every call; and as the old worker did, with vectors pooled by track length, none of which is ever let go. Both make
//! the same calls on the same tracks. tools/flat runs both and draws.
//!
//!     flat lent TRACKS       readings taken on the way, told at the end: how much was tagged, then tracks so far and bytes resident
//!     flat pooled TRACKS     the same, the old way
//!     flat draw LENT POOLED OUT.svg      draws two lists of readings; fails if the first rises after its warm-up
use prohunsev::*;
use std::collections::HashMap;
use std::error::Error;
use std::fmt::Write;
use std::io::Read;
use std::process::exit;
use std::{env, fs};

const RATE: u32 = 48_000;
const OPTS: TempoOpts = TempoOpts::new();
// few bins: a transform's would make the slab larger, not the analysis
const BINS: usize = 2;
// short tracks: at two to six minutes the old worker would need 45 GB for ten thousand of them
const FRAMES: std::ops::RangeInclusive<usize> = 1_875..=7_500;
const LENGTHS: &str = "ten to forty seconds";
// a feature row each half second
const ROW_LENGTH: u64 = 24_000;
const FRAMES_A_ROW: usize = 94;
// as many readings as the year had Mondays
const READINGS: usize = 52;
// a rise of ours by more than so many pages after the first reading is a leak
const TOLERANCE: u64 = 2;
// the least leak: what malloc takes for one small allocation, once a track
const LEAK: u64 = 32;

/// So many tracks that the least leak comes to twice what is tolerated, and to far more than the freed memory that may take some of it up.
fn fewest() -> usize {
    (2 * TOLERANCE * page() / LEAK).max(1_000) as usize
}

/// Asks for pages of the plain size: a huge one, once there, takes up a leak without a rise.
fn plain_pages() {
    #[cfg(target_os = "linux")]
    {
        use std::ffi::{c_int, c_ulong};
        extern "C" {
            fn prctl(option: c_int, ...) -> c_int;
        }
        const PR_SET_THP_DISABLE: c_int = 41;
        let (yes, none): (c_ulong, c_ulong) = (1, 0);
        // SAFETY: the number of an option and its values, no memory; where the system doesn't know it, nothing happens
        unsafe { prctl(PR_SET_THP_DISABLE, yes, none, none, none) };
    }
}

/// A plain generator of numbers, so that both workers get the same tracks.
struct Numbers(u64);
impl Numbers {
    fn next(&mut self) -> u64 {
        self.0 = self.0.wrapping_mul(6_364_136_223_846_793_005).wrapping_add(1_442_695_040_888_963_407);
        self.0 >> 33
    }
    fn below(&mut self, past: usize) -> usize {
        self.next() as usize % past
    }
    fn length(&mut self) -> usize {
        FRAMES.start() + self.below(FRAMES.end() - FRAMES.start() + 1)
    }
}

/// Bytes of a page: the system tells each process, as the entry of kind 6 of a list of pairs.
fn page() -> u64 {
    let pairs = fs::read("/proc/self/auxv").unwrap_or_default();
    let word = |at: usize| pairs.get(at..at + 8).and_then(|b| b.try_into().ok()).map_or(0, u64::from_ne_bytes);
    (0..pairs.len()).step_by(16).find(|&at| word(at) == 6).map_or(4_096, |at| word(at + 8))
}

/// Bytes of this process that are resident, counted page by page (the sum in statm lags behind by some dozen pages a processor). Takes
/// no memory to do so.
fn resident() -> u64 {
    let mut text = [0; 4_096];
    let mut file = fs::File::open("/proc/self/smaps_rollup").expect("Linux tells a process its memory");
    let count = file.read(&mut text).expect("it can be read");
    let mut lines = text[..count].split(|&b| b == b'\n').filter_map(|line| std::str::from_utf8(line).ok());
    let kilobytes = lines.find_map(|line| line.strip_prefix("Rss:")?.strip_suffix("kB")?.trim().parse::<u64>().ok());
    kilobytes.expect("a line says what is resident") * 1_024
}

type Tagged = Result<usize, Box<dyn Error>>;

/// Tags tracks and takes a reading after each so many; the first is taken once the longest track has been tagged and a reading has been
/// tried. All are told at the end, so that telling them isn't counted.
fn readings(tracks: usize, mut tag: impl FnMut(usize, &mut Numbers) -> Tagged) -> Tagged {
    let mut r = Numbers(52);
    let mut taken = Vec::with_capacity(READINGS + 1);
    let mut tags = tag(*FRAMES.end(), &mut r)?;
    resident();
    taken.push((0, resident()));
    for done in 1..=tracks {
        tags += tag(r.length(), &mut r)?;
        if done * READINGS / tracks > taken.len() - 1 {
            taken.push((done, resident()));
        }
    }
    println!("{tags}");
    taken.iter().for_each(|(done, bytes)| println!("{done} {bytes}"));
    Ok(tags)
}

// magnitudes of a track: decaying hits at some tempo over a floor
fn fill(magnitudes: &mut [f32], r: &mut Numbers) {
    let beat = 60 + r.below(90);
    let mut ring = 0.0_f32;
    for (t, row) in magnitudes.chunks_mut(BINS).enumerate() {
        ring = if t % beat == 0 { 1.0 + r.below(1_000) as f32 / 1_000.0 } else { ring * 0.7 };
        let floor = (t.wrapping_mul(2_654_435_761) >> 7 & 255) as f32 / 4_096.0;
        row.fill(ring + floor);
    }
}

// features of a track: what sounds changes now and then
fn fill_features(features: &mut [f64], r: &mut Numbers) {
    let section = 10 + r.below(30);
    for (i, x) in features.iter_mut().enumerate() {
        *x = ((i / limits::FEATURE_WIDTH / section + i) % 5) as f64;
    }
}

/// Everything that the calls of one track are lent.
struct Vectors {
    magnitudes: Vec<f32>,
    new_rows: Vec<f32>,
    buffers: Buffers,
    flux: Vec<f64>,
    threshold: Vec<f64>,
    onsets: Vec<u32>,
    kept: Vec<u32>,
    clarity: Vec<f64>,
    weight: Vec<f64>,
    score: Vec<f64>,
    back: Vec<u32>,
    beats: Vec<u32>,
    bars: Vec<u32>,
    beat_times: Vec<f64>,
    bar_times: Vec<f64>,
    features: Vec<f64>,
    new_features: Vec<f64>,
    similarity: Vec<f64>,
    novelty: Vec<f64>,
    rows: Vec<u32>,
    row_times: Vec<f64>,
    // sorting: a median's asks for most
    work: Vec<f64>,
}

impl Vectors {
    /// For tracks of at most so many frames. Not of zeros, for which an allocator may leave pages unwritten until they are used.
    fn new(frames: usize) -> Result<Vectors, Refused> {
        let (rows, lags) = (frames / FRAMES_A_ROW, rooms::lags(RATE, OPTS)?);
        Ok(Vectors {
            magnitudes: vec![1.0; frames * BINS],
            new_rows: vec![1.0; frames / 4 * BINS],
            buffers: Buffers::for_tracks(frames, RATE, OPTS)?,
            flux: vec![1.0; rooms::flux(frames)],
            threshold: vec![1.0; rooms::threshold(frames)],
            onsets: vec![1; rooms::onsets(frames)],
            kept: vec![1; rooms::entries(frames)],
            clarity: vec![1.0; lags],
            weight: vec![1.0; lags],
            score: vec![1.0; rooms::beats(frames)],
            back: vec![1; rooms::beats(frames)],
            beats: vec![1; rooms::beats(frames)],
            bars: vec![1; rooms::entries(frames)],
            beat_times: vec![1.0; rooms::entries(frames)],
            bar_times: vec![1.0; rooms::entries(frames)],
            features: vec![1.0; rows * limits::FEATURE_WIDTH],
            new_features: vec![1.0; rows / 4 * limits::FEATURE_WIDTH],
            similarity: vec![1.0; rooms::similarity(rows)],
            novelty: vec![1.0; rooms::novelty(rows)],
            rows: vec![1; rooms::boundaries(rows)],
            row_times: vec![1.0; rooms::entries(rows)],
            work: vec![1.0; rooms::entries(frames)],
        })
    }

    /// Every call of the library, on one track; answers how much there is to tag.
    fn tag(&mut self, frames: usize, r: &mut Numbers) -> Tagged {
        if rooms::Track::of(frames, RATE, OPTS)?.bytes() > self.buffers.room().bytes() {
            return Err("a track asks for more room than its buffers have".into());
        }
        let magnitudes = &mut self.magnitudes[..frames * BINS];
        fill(magnitudes, r);
        let track = self.buffers.analyse_magnitudes(magnitudes, frames, BINS, RATE, OPTS)?;
        let tags = track.onsets.len() + track.beats.len() + track.downbeats.len();
        let rows = frames / FRAMES_A_ROW;
        let tags = tags + self.repair(frames, r)? + self.sections(rows, r)?;
        self.refusals(frames, rows)?;
        Ok(tags)
    }

    // rows replaced and the curves mended; then what follows from them, call by call
    fn repair(&mut self, frames: usize, r: &mut Numbers) -> Tagged {
        let (magnitudes, work) = (&mut self.magnitudes[..frames * BINS], &mut self.work);
        let (flux, threshold) = (&mut self.flux[..frames], &mut self.threshold[..frames]);
        spectral_flux(magnitudes, frames, BINS, flux)?;
        adaptive_threshold(flux, threshold, work)?;
        let count = 1 + r.below(frames / 4);
        let new_rows = &mut self.new_rows[..count * BINS];
        fill(new_rows, r);
        patch_magnitudes(magnitudes, frames, BINS, r.below(frames - count + 1), new_rows, flux, threshold, work)?;

        let onsets = pick_onsets(flux, threshold, RATE, &mut self.onsets)?;
        let kept = suppress_close_peaks(&self.onsets[..onsets], flux, 20, &mut self.kept)?;
        let middle = median_of(flux, work)?;
        mad_of(flux, middle, work)?;
        let lags = lag_range(RATE, OPTS)?.lags();
        let (clarity, weight) = (&mut self.clarity[..lags], &mut self.weight[..lags]);
        let lag = estimate(flux, onsets, RATE, OPTS, clarity, weight, work)?.lag().unwrap_or(0);
        stability_of(flux, RATE, OPTS, lag, clarity, weight, work)?;
        let beats = beat_grid(flux, lag, &mut self.score, &mut self.back, &mut self.beats)?;
        let beats = &self.beats[..beats];
        let bars = downbeats(flux, beats, OPTS, &mut self.bars)?;
        let bars = &self.bars[..bars];

        let (bar_times, beat_times) = (&mut self.bar_times[..bars.len()], &mut self.beat_times[..beats.len()]);
        frame_times(bars, RATE, bar_times)?;
        frame_times(beats, RATE, beat_times)?;
        let place = bar_beat_at(5_000.0, bar_times, beat_times).map_or(0, |at| at.bar + at.beat);
        let whole = self.buffers.analyse_envelope(flux, RATE, OPTS)?;
        if (whole.onsets, whole.beats, whole.downbeats) != (&self.onsets[..onsets], beats, bars) {
            return Err("the calls of an analysis tell other tags than the whole of it".into());
        }
        Ok(onsets + kept + beats.len() + bars.len() + place)
    }

    fn sections(&mut self, rows: usize, r: &mut Numbers) -> Tagged {
        let features = &mut self.features[..rows * limits::FEATURE_WIDTH];
        let (band, curve) = (&mut self.similarity[..rooms::similarity(rows)], &mut self.novelty[..rows]);
        fill_features(features, r);
        similarity(features, rows, band)?;
        novelty(band, rows, curve)?;
        let count = 1 + r.below(rows / 4);
        let new_features = &mut self.new_features[..count * limits::FEATURE_WIDTH];
        fill_features(new_features, r);
        patch_features(features, rows, r.below(rows - count + 1), new_features, band, curve)?;
        let found = boundaries(curve, ROW_LENGTH, RATE, 12, &mut self.rows, &mut self.work)?;
        boundary_times(&self.rows[..found.count], ROW_LENGTH, RATE, &mut self.row_times)?;
        Ok(found.sections)
    }

    // calls that are refused, with each number
    fn refusals(&mut self, frames: usize, rows: usize) -> Result<(), Box<dyn Error>> {
        let (magnitudes, work) = (&mut self.magnitudes[..frames * BINS], &mut self.work);
        let (flux, threshold) = (&mut self.flux[..frames], &mut self.threshold[..frames]);
        refused(1, lag_range(0, OPTS))?;
        refused(1, rooms::Track::of(limits::MOST_ROWS + 1, RATE, OPTS))?;
        refused(1, self.buffers.analyse_envelope(flux, 0, OPTS))?;
        refused(2, spectral_flux(magnitudes, frames + 1, BINS, &mut self.score))?;
        let (features, row) = (&mut self.features[..rows * limits::FEATURE_WIDTH], [0.0; limits::FEATURE_WIDTH]);
        refused(2, patch_features(features, rows, rows, &row, &mut self.similarity, &mut self.novelty))?;
        refused(3, beat_grid(flux, 94, &mut self.score[1..frames], &mut self.back, &mut self.beats))?;
        magnitudes[frames] = f32::NAN;
        refused(4, self.buffers.analyse_magnitudes(magnitudes, frames, BINS, RATE, OPTS))?;
        refused(4, patch_magnitudes(magnitudes, frames, BINS, 0, &[0.0; BINS], flux, threshold, work))
    }
}

fn refused<T>(number: u32, outcome: Result<T, Refused>) -> Result<(), Box<dyn Error>> {
    match outcome {
        Err(refusal) if refusal.number() == number => Ok(()),
        Err(refusal) => Err(format!("to be refused with {number}, but {refusal}").into()),
        Ok(_) => Err(format!("to be refused with {number}, but answered").into()),
    }
}

/// Vectors for the longest track, lent to every call.
fn lent(tracks: usize) -> Result<(), Box<dyn Error>> {
    let mut vectors = Vectors::new(*FRAMES.end())?;
    let tags = readings(tracks, |frames, r| vectors.tag(frames, r))?;
    eprintln!("{tags} tags in vectors made once");
    Ok(())
}

/// The old way: a track's vectors are looked up by its length, made where there are none, and put back for the next track of exactly
/// this length.
fn pooled(tracks: usize) -> Result<(), Box<dyn Error>> {
    let mut pool: HashMap<usize, Vec<Vectors>> = HashMap::new();
    let tags = readings(tracks, |frames, r| {
        let kept = pool.entry(frames).or_default();
        let mut vectors = kept.pop().map_or_else(|| Vectors::new(frames), Ok)?;
        let tags = vectors.tag(frames, r);
        kept.push(vectors);
        tags
    })?;
    eprintln!("{tags} tags in vectors of {} lengths", pool.len());
    Ok(())
}

// how much was tagged, and the readings
fn points(file: &str) -> (u64, Vec<(u64, u64)>) {
    let text = fs::read_to_string(file).unwrap_or_else(|e| stop(&format!("{file}: {e}")));
    let number =
        |w: Option<&str>| w.and_then(|w| w.parse().ok()).unwrap_or_else(|| stop(&format!("{file} holds no readings")));
    let mut lines = text.lines();
    let tags = number(lines.next());
    let points: Vec<(u64, u64)> = lines
        .map(|line| {
            let mut words = line.split(' ');
            (number(words.next()), number(words.next()))
        })
        .collect();
    if points.len() != READINGS + 1 {
        stop(&format!("{file} holds {} readings, not {READINGS} and the first", points.len()));
    }
    (tags, points)
}

fn stop(what: &str) -> ! {
    eprintln!("flat: {what}");
    exit(2)
}

// 1234567 as 1,234,567
fn grouped(number: u64) -> String {
    if number < 1_000 {
        return number.to_string();
    }
    format!("{},{:03}", grouped(number / 1_000), number % 1_000)
}

fn megabytes(bytes: u64) -> String {
    let tenths = (bytes + 50_000) / 100_000;
    format!("{}.{} MB", grouped(tenths / 10), tenths % 10)
}

/// The picture: tracks to the right, resident memory upwards.
fn picture(lent: &[(u64, u64)], pooled: &[(u64, u64)]) -> String {
    let (left, right, top, bottom) = (90.0, 870.0, 70.0, 430.0);
    let tracks = lent.last().map_or(1, |p| p.0).max(1) as f64;
    let most = lent.iter().chain(pooled).map(|p| p.1).max().unwrap_or(1) as f64 * 1.05;
    // a step of 1, 2 or 5 times a power of ten, about six of them
    let power = 10_f64.powf((most / 6.0).log10().floor());
    let step = [1.0, 2.0, 5.0, 10.0].into_iter().map(|k| k * power).find(|s| most / s <= 7.0).unwrap_or(power);
    let x = |t: f64| left + t / tracks * (right - left);
    let y = |b: f64| bottom - b / most * (bottom - top);
    let line = |points: &[(u64, u64)]| -> String {
        points.iter().map(|p| format!("{:.1},{:.1} ", x(p.0 as f64), y(p.1 as f64))).collect()
    };
    let mut svg = String::from(concat!(
        "<svg xmlns=\"http://www.w3.org/2000/svg\" viewBox=\"0 0 920 500\" font-family=\"sans-serif\" font-size=\"14\">\n",
        "<title>Resident memory of a tagging worker</title>\n<rect width=\"920\" height=\"500\" fill=\"#fff\"/>\n"
    ));
    let mut put = |text: String| writeln!(svg, "{text}").expect("a string takes all");
    put(format!(
        "<text x=\"{left}\" y=\"32\" font-size=\"18\">Resident memory of one worker, {} tracks of {LENGTHS}</text>",
        grouped(tracks as u64)
    ));
    put(format!("<text x=\"{left}\" y=\"54\" fill=\"#555\">The same calls on the same tracks; {READINGS} readings after the first, which is taken once the longest track is tagged</text>"));
    let mut level = 0.0;
    while level <= most {
        let at = y(level);
        put(format!("<line x1=\"{left}\" x2=\"{right}\" y1=\"{at:.1}\" y2=\"{at:.1}\" stroke=\"#ddd\"/>"));
        put(format!(
            "<text x=\"{}\" y=\"{:.1}\" text-anchor=\"end\">{} MB</text>",
            left - 8.0,
            at + 5.0,
            grouped((level / 1e6).round() as u64)
        ));
        level += step;
    }
    for k in 0..=5 {
        let t = tracks * f64::from(k) / 5.0;
        put(format!(
            "<text x=\"{:.1}\" y=\"{}\" text-anchor=\"middle\">{}</text>",
            x(t),
            bottom + 22.0,
            grouped(t as u64)
        ));
    }
    put(format!(
        "<text x=\"{}\" y=\"{}\" text-anchor=\"middle\">tracks tagged</text>",
        (left + right) / 2.0,
        bottom + 46.0
    ));
    put(format!("<polyline fill=\"none\" stroke=\"#c0392b\" stroke-width=\"2\" points=\"{}\"/>", line(pooled)));
    put(format!("<polyline fill=\"none\" stroke=\"#1f6f43\" stroke-width=\"3\" points=\"{}\"/>", line(lent)));
    let ends = |points: &[(u64, u64)]| (points[0].1, points[points.len() - 1].1);
    let ((o, p), (a, b)) = (ends(pooled), ends(lent));
    put(format!(
        "<text x=\"{}\" y=\"{}\" fill=\"#c0392b\">vectors pooled by track length: {} at first, {} at the end</text>",
        left + 20.0,
        top + 40.0,
        megabytes(o),
        megabytes(p)
    ));
    put(format!(
        "<text x=\"{right}\" y=\"{:.1}\" text-anchor=\"end\" fill=\"#1f6f43\">lent buffers of the formula's size: {} at first, {} at the end</text>",
        y(b as f64) - 12.0,
        megabytes(a),
        megabytes(b)
    ));
    svg.push_str("</svg>\n");
    svg
}

fn draw(lent: &str, pooled: &str, out: &str) -> bool {
    let ((tags, lent), (old_tags, pooled)) = (points(lent), points(pooled));
    if tags != old_tags {
        stop(&format!("the workers tagged differently: {tags} tags in lent buffers, {old_tags} in pooled ones"));
    }
    fs::write(out, picture(&lent, &pooled)).unwrap_or_else(|e| stop(&format!("{out}: {e}")));
    let (first, most) = (lent[0].1, lent.iter().map(|p| p.1).max().unwrap_or(0));
    let rise = most.saturating_sub(first);
    let tolerated = TOLERANCE * page();
    let bytes = pooled[pooled.len() - 1].1;
    println!("lent: {first} bytes resident at first, {most} at most, a rise of {rise}; {tolerated} are tolerated");
    println!("pooled: {} bytes resident at first, {bytes} at the end, with the same {tags} tags", pooled[0].1);
    let flat = rise <= tolerated;
    println!(
        "{} tracks, {} readings: {}",
        lent[lent.len() - 1].0,
        lent.len() - 1,
        if flat { "flat" } else { "NOT FLAT" }
    );
    flat
}

fn main() {
    let words: Vec<String> = env::args().skip(1).collect();
    let words: Vec<&str> = words.iter().map(String::as_str).collect();
    let number = |w: &str| match w.parse::<usize>() {
        Ok(n) if n >= fewest() => n,
        _ => stop(&format!(
            "{w} is no number of tracks from {} on: with fewer, a leak of {LEAK} bytes a track can't be told from none",
            fewest()
        )),
    };
    plain_pages();
    let done = match words[..] {
        ["lent", tracks] => lent(number(tracks)),
        ["pooled", tracks] => pooled(number(tracks)),
        ["draw", lent, pooled, out] => exit(if draw(lent, pooled, out) { 0 } else { 1 }),
        _ => stop("flat lent TRACKS | flat pooled TRACKS | flat draw LENT POOLED OUT.svg"),
    };
    if let Err(what) = done {
        stop(&format!("a track was not tagged: {what}"));
    }
}
