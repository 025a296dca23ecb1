//! Tags a track: onsets, tempo, beats and bars of twenty seconds of clicks at 126 beats a minute, the first of each bar the loudest.
//!
//!     cargo run --release --example tag
use prohunsev::{bar_beat_at, frame_times, limits, Buffers, Refused, TempoOpts};

const RATE: u32 = 48_000;
const BINS: usize = 64;
const BPM: f64 = 126.0;

// magnitude rows as a transform gives them: each click rings for some frames over a low floor
fn clicks(rows: usize) -> Vec<f32> {
    let beat = 60.0 / BPM * f64::from(RATE) / f64::from(limits::HOP);
    let mut magnitudes = vec![0.01; rows * BINS];
    for k in 0.. {
        let at = (20.0 + f64::from(k) * beat).round() as usize;
        if at >= rows {
            return magnitudes;
        }
        let loud = if k % 4 == 0 { 3.0 } else { 1.0 };
        for (ring, row) in magnitudes[at * BINS..].chunks_mut(BINS).take(12).enumerate() {
            row.iter_mut().for_each(|m| *m += loud * 0.6_f32.powi(ring as i32));
        }
    }
    magnitudes
}

// the times of listed frames, in seconds
fn seconds(frames: &[u32]) -> Result<Vec<f64>, Refused> {
    let mut times = vec![0.0; frames.len()];
    frame_times(frames, RATE, &mut times)?;
    times.iter_mut().for_each(|t| *t /= 1000.0);
    Ok(times)
}

fn show(what: &str, times: &[f64]) {
    let first: Vec<String> = times.iter().take(6).map(|t| format!("{t:.3}")).collect();
    println!("{:4} {what:10} at {} .. s", times.len(), first.join(" "));
}

fn main() -> Result<(), Refused> {
    let rows = 20 * RATE as usize / limits::HOP as usize;
    let magnitudes = clicks(rows);

    // once in a worker's life, for the longest track it takes
    let opts = TempoOpts::new();
    let mut buffers = Buffers::for_tracks(rows, RATE, opts)?;
    println!("{rows} rows need {} bytes", buffers.room().bytes());

    // once a track
    let track = buffers.analyse_magnitudes(&magnitudes, rows, BINS, RATE, opts)?;
    let (onsets, beats, bars) = (seconds(track.onsets)?, seconds(track.beats)?, seconds(track.downbeats)?);
    show("onsets", &onsets);
    show("beats", &beats);
    show("downbeats", &bars);
    match track.tempo {
        Some(tempo) => println!("tempo {:.1} bpm, clarity {:.2}", tempo.bpm, tempo.clarity),
        None => println!("no tempo"),
    }
    for candidate in track.candidates() {
        println!("  may be heard at a lag of {} frames, salience {:.2}", candidate.lag, candidate.salience);
    }
    if let Some(steady) = track.stability {
        println!("steady in {} of {} windows", steady.agreeing, steady.windows);
    }
    if let Some(at) = bar_beat_at(10.0, &bars, &beats) {
        println!("ten seconds in: bar {}, beat {}", at.bar, at.beat);
    }
    Ok(())
}
