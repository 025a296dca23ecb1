//! Medians of lists of many shapes, beside the Rust and beside half a heapsort, by which they were found before: the bits of all three compared.
use crate::clock::{in_turns, ran};
use crate::music::{Numbers, magnitudes};
use crate::stages::counted;
use oracle::onsets;
use prohunsev as port;

// what original / ours must reach on flux-like values, from the request for medians without the full sort; of the sizes between nothing is asked
fn asked(entries: usize) -> f64 {
    match entries {
        21 => 1.5,
        3_600 | 50_000 => 4.0,
        _ => 0.0,
    }
}

/// The flux of synthetic music.
fn flux(rows: usize) -> Vec<f64> {
    let mut flux = vec![0.0; rows];
    port::spectral_flux(&magnitudes(rows, 8, 1), rows, 8, &mut flux).unwrap();
    flux
}

// The places that a round of the choice looks at, of so many entries (crates/median/src/choice.rt, `spread_of`).
fn places(entries: usize) -> impl Iterator<Item = usize> {
    let (step, rest) = (entries / 24, entries % 24);
    (0..24).map(move |i| i * step + i * rest / 24 + i * 37 % step)
}

/// Made against the choice: the places that the first round looks at hold the smallest entries, so that no guess narrows.
fn against(entries: usize, r: &mut Numbers) -> Vec<f64> {
    let mut list: Vec<f64> = (0..entries).map(|_| 100.0 + r.part()).collect();
    places(entries).for_each(|at| list[at] = r.part());
    list
}

/// Made against it too: each round keeps nearly seven eighths, the most with which it goes on. All places that a round looks at have one value, and an
/// eighth of what is left lies below it, in the next round above it.
fn against_each(entries: usize, r: &mut Numbers) -> Vec<f64> {
    let (mut list, mut left) = (vec![0.0; entries], (0..entries).collect::<Vec<usize>>());
    let (mut side, mut level) = (-1.0, 1e6);
    while left.len() > 200 {
        let mut gone = vec![false; entries];
        for at in places(left.len()) {
            (list[left[at]], gone[left[at]]) = (side * level, true);
        }
        left.retain(|&at| !gone[at]);
        for &at in left.iter().step_by(8) {
            (list[at], gone[at]) = (side * (level + r.part()), true);
        }
        left.retain(|&at| !gone[at]);
        (side, level) = (-side, level - 2.0);
    }
    left.iter().for_each(|&at| list[at] = r.part());
    list
}

/// The lists of a shape: several where they are short, so that no branch is learnt by heart.
fn lists(shape: &str, entries: usize) -> Vec<Vec<f64>> {
    let (count, mut r) = ((100_000 / entries).clamp(2, 4_000), Numbers(7));
    let flux = if shape == "flux" { flux(count * entries) } else { Vec::new() };
    let mut list = |k: usize| -> Vec<f64> {
        match shape {
            "flux" => flux[k * entries..(k + 1) * entries].to_vec(),
            "equal" => vec![1.5; entries],
            "zeros of both signs" => (0..entries).map(|_| if r.part() < 0.5 { 0.0 } else { -0.0 }).collect(),
            "two values" => (0..entries).map(|_| if r.part() < 0.5 { 1.0 } else { 2.0 }).collect(),
            "sorted" => (0..entries).map(|i| i as f64).collect(),
            "reversed" => (0..entries).map(|i| (entries - i) as f64).collect(),
            "organ pipe" => (0..entries).map(|i| i.min(entries - i) as f64).collect(),
            "against the guess" => against(entries, &mut r),
            _ => against_each(entries, &mut r),
        }
    };
    (0..count).map(&mut list).collect()
}

// Half a heapsort, in place: the Rust of `arrange` in crates/median/src/lib.rt.
fn precedes(x: f64, y: f64) -> bool {
    x < y || (!(y < x) && x.total_cmp(&y).is_lt())
}

fn sift_down(list: &mut [f64], mut parent: usize, end: usize) {
    while parent < end / 2 {
        let left = 2 * parent + 1;
        let child = if left + 1 < end && precedes(list[left], list[left + 1]) { left + 1 } else { left };
        if !precedes(list[parent], list[child]) {
            return;
        }
        list.swap(parent, child);
        parent = child;
    }
}

fn by_heap(values: &[f64], work: &mut [f64]) -> f64 {
    work.copy_from_slice(values);
    let (n, half) = (values.len(), values.len() / 2);
    (0..n / 2).rev().for_each(|start| sift_down(work, start, n));
    for end in (half..n).rev() {
        work.swap(0, end);
        sift_down(work, 0, end);
    }
    work[half]
}

/// The table of medians. A list made against the guess needs more entries than are looked at.
pub fn tell(quick: bool, rounds: usize) {
    let shapes = [
        "flux",
        "equal",
        "zeros of both signs",
        "two values",
        "sorted",
        "reversed",
        "organ pipe",
        "against the guess",
        "against each guess",
    ];
    crate::place();
    println!(
        "| median of | entries | original us | ours us | original / ours | asked | | half a heapsort us | heapsort / ours |"
    );
    println!("|---|---|---|---|---|---|---|---|---|");
    for &entries in &[21, 47, 95, 180, 3_600, 50_000][..if quick { 5 } else { 6 }] {
        for shape in shapes {
            if entries < 25 && shape.starts_with("against") {
                continue;
            }
            let (lists, mut work, mut room) = (lists(shape, entries), vec![0.0; entries], vec![0.0; entries]);
            for list in &lists {
                let rust = onsets::open::median_of(list).to_bits();
                let ours = port::median_of(list, &mut work).unwrap().to_bits();
                assert!(rust == ours && rust == by_heap(list, &mut work).to_bits(), "median of {shape}: bits differ");
            }
            let [rust, ours, heap] = in_turns(
                rounds,
                [
                    &mut || lists.iter().for_each(|list| ran(onsets::open::median_of(list))),
                    &mut || lists.iter().for_each(|list| ran(port::median_of(list, &mut work))),
                    &mut || lists.iter().for_each(|list| ran(by_heap(list, &mut room))),
                ],
            )
            .map(|seconds| 1e6 * seconds / lists.len() as f64);
            let verdict = match asked(entries) {
                least if shape != "flux" || least == 0.0 => " | ".into(),
                least if rust / ours >= least => format!("{least} | reached"),
                least => format!("{least} | not reached"),
            };
            println!(
                "| {shape} | {} | {rust:.3} | {ours:.3} | {:.2} | {verdict} | {heap:.3} | {:.2} |",
                counted(entries),
                rust / ours,
                heap / ours
            );
        }
    }
}
