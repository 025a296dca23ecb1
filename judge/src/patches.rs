//! Runs of patches, refused ones among them: after each patch the lent rows and curves are what the Rust gives the edited rows.
use crate::cases::Field;
use crate::expected::{flux_of, novelty_of, similarity_of};
use crate::inputs::{patch_of_features, patch_of_magnitudes};
use crate::lent::bits_of;
use crate::numbers::{Numbers, features, magnitudes};
use crate::port::Outcome;
use crate::table::{BAND, WIDTH};
use oracle::onsets::open::adaptive_threshold;

/// One run on magnitude rows. `judge` makes each call and holds it to what it must do by itself. Answers what is not as a fresh run.
pub fn of_magnitudes(r: &mut Numbers, judge: &mut dyn FnMut(&[Field]) -> Outcome) -> Option<String> {
    let (rows, bins) = (r.size(0, 60), r.size(1, 5));
    let mut slab = magnitudes(r, rows, bins);
    let mut flux = flux_of(&slab, rows, bins);
    let mut threshold = adaptive_threshold(&flux);
    for step in 0..r.whole(1, 20) {
        let fields = patch_of_magnitudes(r, &slab, rows, bins, &flux, &threshold);
        let after = judge(&fields);
        // a patch of lent slots that were damaged on purpose is a case of its own and no step of the run
        let lent = |k: usize, n: usize| bits_of(&fields[k].reals()[..n.min(fields[k].reals().len())]);
        let own = bits_of(fields[0].singles()) == bits_of(&slab) && lent(5, rows) == bits_of(&flux) && lent(6, rows) == bits_of(&threshold);
        if own && fields[1].size() == rows && fields[2].size() == bins {
            slab = after.slots[0].iter().map(|&b| f32::from_bits(b as u32)).collect();
            flux = after.slots[1][..rows].iter().map(|&b| f64::from_bits(b)).collect();
            threshold = after.slots[2][..rows].iter().map(|&b| f64::from_bits(b)).collect();
            let fresh = flux_of(&slab, rows, bins);
            if bits_of(&flux) != bits_of(&fresh) || bits_of(&threshold) != bits_of(&adaptive_threshold(&fresh)) {
                return Some(format!("after step {step} of a run on {rows} rows of {bins}, the curves are not those of the rows {slab:?}"));
            }
        }
    }
    None
}

/// One run on feature rows.
pub fn of_features(r: &mut Numbers, judge: &mut dyn FnMut(&[Field]) -> Outcome) -> Option<String> {
    let rows = r.size(0, 50);
    let mut lent = features(r, rows);
    let mut similarity = similarity_of(&lent);
    let mut novelty = novelty_of(&similarity, rows);
    for step in 0..r.whole(1, 12) {
        let fields = patch_of_features(r, &lent, rows, &similarity, &novelty);
        let after = judge(&fields);
        let was = |k: usize, n: usize| bits_of(&fields[k].reals()[..n.min(fields[k].reals().len())]);
        let own =
            was(0, rows * WIDTH + 1) == bits_of(&lent) && was(4, rows * BAND) == bits_of(&similarity) && was(5, rows) == bits_of(&novelty);
        if own && fields[1].size() == rows {
            let floats = |k: usize, n: usize| -> Vec<f64> { after.slots[k][..n].iter().map(|&b| f64::from_bits(b)).collect() };
            (lent, similarity, novelty) = (floats(0, rows * WIDTH), floats(1, rows * BAND), floats(2, rows));
            let fresh = similarity_of(&lent);
            if bits_of(&similarity) != bits_of(&fresh) || bits_of(&novelty) != bits_of(&novelty_of(&fresh, rows)) {
                return Some(format!("after step {step} of a run on {rows} feature rows, the curves are not those of the rows {lent:?}"));
            }
        }
    }
    None
}
