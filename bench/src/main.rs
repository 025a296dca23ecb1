//! The speed of each stage beside the Rust of docs/src: the same inputs, one process, bits compared before anything is timed.
//!
//!   bench            every size, and how cost grows
//!   bench quick      tracks up to three minutes and feature rows up to an hour, from magnitudes up to three minutes, and no growth
//!   bench features   feature rows from magnitudes alone
mod clock;
mod features;
mod growth;
mod medians;
mod music;
mod stages;
mod thresholds;

use stages::{Line, counted};

// What original / ours should reach, from the study of forms; up to 3,600 feature rows and above where there are two.
fn aim(stage: &str, feature_rows: usize) -> Option<f64> {
    Some(match stage {
        "flux" => 1.25,
        "threshold" => 9.0,
        "lag curves" => 5.0,
        "stability" => 4.0,
        "beats" => 25.0,
        "similarity" => 1.3,
        "novelty" => 50.0,
        "boundaries" if feature_rows > 3_600 => 4.0,
        "boundaries" => 2.4,
        "whole track" => 6.0,
        _ => return None,
    })
}

fn tell(line: &Line, feature_rows: usize) {
    let ratio = line.rust / line.port;
    let verdict = match aim(line.stage, feature_rows) {
        Some(aim) => format!("{aim} | {}", if ratio >= aim { "reached" } else { "not reached" }),
        None => " | ".into(),
    };
    println!(
        "| {} | {} | {:.3} | {:.3} | {ratio:.2} | {verdict} |",
        line.stage,
        line.size,
        1e3 * line.rust,
        1e3 * line.port
    );
}

/// What a table was measured on, as tools/speed tells it: a line before the table.
pub fn place() {
    if let Ok(place) = std::env::var("SPEED_PLACE") {
        println!("{place}\n");
    }
}

// A patch stands beside the full runs that it saves: the port's own, and the Rust's, which has no patch.
fn tell_patch(line: &Line) {
    let full = line.full.unwrap_or(line.rust);
    let (rust, port, own) = (1e3 * line.rust, 1e3 * line.port, 1e3 * full);
    println!("| {} | {} | {port:.3} | {own:.3} | {:.1} % | {rust:.3} |", line.stage, line.size, 100.0 * port / own);
}

fn main() {
    let quick = match std::env::args().nth(1).as_deref() {
        None => false,
        Some("quick") => true,
        Some("features") => return features::tell(false),
        Some(_) => {
            eprintln!("bench [quick | features]");
            std::process::exit(2)
        }
    };
    // Rows, bins, rounds: what the aims were set on, three minutes, an hour, and the most rows. Of the magnitudes there are two copies, the
    // Rust's in rows of their own and ours; the last has half the bins so that they stay below 4 GB.
    let tracks = [(8_000, 513, 40), (33_750, 513, 25), (675_000, 513, 5), (1_048_576, 257, 5)];
    place();
    println!("| stage | size | original ms | ours ms | original / ours | aim | |");
    println!("|---|---|---|---|---|---|---|");
    let mut patches = Vec::new();
    let mut take = |line: Line, feature_rows: usize| {
        if line.full.is_some() {
            patches.push(line);
        } else {
            tell(&line, feature_rows);
        }
    };
    for (rows, bins, rounds) in &tracks[..if quick { 2 } else { 4 }] {
        stages::track(*rows, *bins, *rounds, &mut |line| take(line, 0));
    }
    // the most bins, lags and period; periods above 2,048 have no table
    if !quick {
        let flux: Vec<f64> = music::magnitudes(131_072, 1, 1).iter().map(|&x| f64::from(x)).collect();
        let mut most =
            |stage, size: String, [rust, port]: [f64; 2]| take(Line { stage, size, rust, port, full: None }, 0);
        most("flux", format!("{} x 4,096", counted(65_536)), stages::flux_of(65_536, 4_096, 3));
        most("lag curves, 45,000 lags", counted(131_072), stages::most_lags(&flux, 3));
        most("beats, period 3,000", counted(16_384), stages::beats(&flux[..16_384], 3_000, 3));
        most("beats, period 45,000", counted(65_536), stages::beats(&flux[..65_536], 45_000, 1));
    }
    // three minutes, an hour and the most, at a row a second
    for &rows in &[180, 3_600, 50_000][..if quick { 2 } else { 3 }] {
        stages::sections(rows, 40, &mut |line| take(line, rows));
    }
    println!();
    place();
    println!("| patch | of | ours ms | our full run ms | part | original's full run ms |");
    println!("|---|---|---|---|---|---|");
    patches.iter().for_each(tell_patch);
    println!();
    medians::tell(quick, 25);
    println!();
    thresholds::tell(quick);
    println!();
    features::tell(quick);
    if !quick {
        println!();
        growth::tell(7);
    }
}
