//! The port's side: its exported functions, each called with guarded, poisoned memory.
use crate::cases::Field;
use crate::ffi::*;
use crate::lent::{Lent, Number};

/// What a call did: its number, the lent numbers and the lent slots afterwards, and whether it touched memory that it was not lent.
pub struct Outcome {
    pub number: u32,
    pub answers: Vec<u64>,
    pub slots: Vec<Vec<u64>>,
    pub harm: bool,
}

/// The version of the library that is judged: major * 1,000,000 + minor * 1,000 + patch.
pub fn version() -> u32 {
    // it takes nothing, and returns a constant
    unsafe { ph_version() }
}

fn ended<const N: usize>(number: u32, answers: Vec<u64>, slots: [Vec<u64>; N], harm: bool) -> Outcome {
    Outcome { number, answers, slots: slots.into(), harm }
}

pub fn median_of(f: &[Field]) -> Outcome {
    let (values, mut work, mut median) = (Lent::of(f[0].reals()), Lent::room(f[1].size()), Number::<f64>::lent());
    let number = unsafe { ph_median_of(values.ptr(), values.len(), work.ptr_mut(), work.len(), median.ptr_mut()) };
    let mut harm = false;
    values.same(f[0].reals(), &mut harm);
    ended(number, vec![median.end(&mut harm)], [work.end(&mut harm)], harm)
}

pub fn mad_of(f: &[Field]) -> Outcome {
    let (values, mut work, mut mad) = (Lent::of(f[0].reals()), Lent::room(f[2].size()), Number::<f64>::lent());
    let number = unsafe { ph_mad_of(values.ptr(), values.len(), f[1].real(), work.ptr_mut(), work.len(), mad.ptr_mut()) };
    let mut harm = false;
    values.same(f[0].reals(), &mut harm);
    ended(number, vec![mad.end(&mut harm)], [work.end(&mut harm)], harm)
}

pub fn spectral_flux(f: &[Field]) -> Outcome {
    let (magnitudes, mut flux) = (Lent::of(f[0].singles()), Lent::<f64>::room(f[3].size()));
    let number = unsafe { ph_spectral_flux(magnitudes.ptr(), magnitudes.len(), f[1].size(), f[2].size(), flux.ptr_mut(), flux.len()) };
    let mut harm = false;
    magnitudes.same(f[0].singles(), &mut harm);
    ended(number, vec![], [flux.end(&mut harm)], harm)
}

pub fn adaptive_threshold(f: &[Field]) -> Outcome {
    let (flux, mut threshold, mut work) = (Lent::of(f[0].reals()), Lent::<f64>::room(f[1].size()), Lent::<f64>::room(f[2].size()));
    let number = unsafe { ph_adaptive_threshold(flux.ptr(), flux.len(), threshold.ptr_mut(), threshold.len(), work.ptr_mut(), work.len()) };
    let mut harm = false;
    flux.same(f[0].reals(), &mut harm);
    ended(number, vec![], [threshold.end(&mut harm), work.end(&mut harm)], harm)
}

pub fn pick_onsets(f: &[Field]) -> Outcome {
    let (flux, threshold) = (Lent::of(f[0].reals()), Lent::of(f[1].reals()));
    let (mut frames, mut count) = (Lent::<u32>::room(f[3].size()), Number::<usize>::lent());
    let number = unsafe {
        ph_pick_onsets(
            flux.ptr(),
            flux.len(),
            threshold.ptr(),
            threshold.len(),
            f[2].small(),
            frames.ptr_mut(),
            frames.len(),
            count.ptr_mut(),
        )
    };
    let mut harm = false;
    flux.same(f[0].reals(), &mut harm);
    threshold.same(f[1].reals(), &mut harm);
    ended(number, vec![count.end(&mut harm)], [frames.end(&mut harm)], harm)
}

pub fn suppress_close_peaks(f: &[Field]) -> Outcome {
    let (peaks, curve) = (Lent::of(f[0].frames()), Lent::of(f[1].reals()));
    let (mut frames, mut count) = (Lent::<u32>::room(f[3].size()), Number::<usize>::lent());
    let number = unsafe {
        ph_suppress_close_peaks(
            peaks.ptr(),
            peaks.len(),
            curve.ptr(),
            curve.len(),
            f[2].size(),
            frames.ptr_mut(),
            frames.len(),
            count.ptr_mut(),
        )
    };
    let mut harm = false;
    peaks.same(f[0].frames(), &mut harm);
    curve.same(f[1].reals(), &mut harm);
    ended(number, vec![count.end(&mut harm)], [frames.end(&mut harm)], harm)
}

pub fn frame_times(f: &[Field]) -> Outcome {
    let (frames, mut ms) = (Lent::of(f[0].frames()), Lent::<f64>::room(f[2].size()));
    let number = unsafe { ph_frame_times(frames.ptr(), frames.len(), f[1].small(), ms.ptr_mut(), ms.len()) };
    let mut harm = false;
    frames.same(f[0].frames(), &mut harm);
    ended(number, vec![], [ms.end(&mut harm)], harm)
}

pub fn lag_range(f: &[Field]) -> Outcome {
    let (mut min_lag, mut max_lag) = (Number::<usize>::lent(), Number::<usize>::lent());
    let number = unsafe { ph_lag_range(f[0].small(), f[1].real(), f[2].real(), f[3].size(), min_lag.ptr_mut(), max_lag.ptr_mut()) };
    let mut harm = false;
    ended(number, vec![min_lag.end(&mut harm), max_lag.end(&mut harm)], [], harm)
}

pub fn estimate(f: &[Field]) -> Outcome {
    let envelope = Lent::of(f[0].reals());
    let mut room = [6, 7, 8].map(|k| Lent::<f64>::room(f[k].size()));
    let (mut found, mut bpm, mut clarity, mut count) =
        (Number::<u32>::lent(), Number::<f64>::lent(), Number::<f64>::lent(), Number::<usize>::lent());
    let (mut lags, mut saliences) = (Lent::<usize>::room(3), Lent::<f64>::room(3));
    let [clarities, weights, work] = &mut room;
    let number = unsafe {
        ph_estimate(
            envelope.ptr(),
            envelope.len(),
            f[1].size(),
            f[2].small(),
            f[3].real(),
            f[4].real(),
            f[5].size(),
            clarities.ptr_mut(),
            clarities.len(),
            weights.ptr_mut(),
            weights.len(),
            work.ptr_mut(),
            work.len(),
            found.ptr_mut(),
            bpm.ptr_mut(),
            clarity.ptr_mut(),
            lags.array(),
            saliences.array(),
            count.ptr_mut(),
        )
    };
    let mut harm = false;
    envelope.same(f[0].reals(), &mut harm);
    let answers = vec![found.end(&mut harm), bpm.end(&mut harm), clarity.end(&mut harm), count.end(&mut harm)];
    let [clarities, weights, work] = room.map(|r| r.end(&mut harm));
    ended(number, answers, [clarities, weights, work, lags.end(&mut harm), saliences.end(&mut harm)], harm)
}

pub fn stability_of(f: &[Field]) -> Outcome {
    let envelope = Lent::of(f[0].reals());
    let mut room = [6, 7, 8].map(|k| Lent::<f64>::room(f[k].size()));
    let (mut found, mut fraction, mut agreeing, mut windows) =
        (Number::<u32>::lent(), Number::<f64>::lent(), Number::<usize>::lent(), Number::<usize>::lent());
    let [clarities, weights, work] = &mut room;
    let number = unsafe {
        ph_stability_of(
            envelope.ptr(),
            envelope.len(),
            f[1].small(),
            f[2].real(),
            f[3].real(),
            f[4].size(),
            f[5].size(),
            clarities.ptr_mut(),
            clarities.len(),
            weights.ptr_mut(),
            weights.len(),
            work.ptr_mut(),
            work.len(),
            found.ptr_mut(),
            fraction.ptr_mut(),
            agreeing.ptr_mut(),
            windows.ptr_mut(),
        )
    };
    let mut harm = false;
    envelope.same(f[0].reals(), &mut harm);
    let answers = vec![found.end(&mut harm), fraction.end(&mut harm), agreeing.end(&mut harm), windows.end(&mut harm)];
    ended(number, answers, room.map(|r| r.end(&mut harm)), harm)
}

pub fn room_of(f: &[Field]) -> Outcome {
    let (mut rows, mut lags, mut work) = (Number::<usize>::lent(), Number::<usize>::lent(), Number::<usize>::lent());
    let number = unsafe {
        ph_room_of(f[0].size(), f[1].small(), f[2].real(), f[3].real(), f[4].size(), rows.ptr_mut(), lags.ptr_mut(), work.ptr_mut())
    };
    let mut harm = false;
    let answers = vec![rows.end(&mut harm), lags.end(&mut harm), work.end(&mut harm)];
    ended(number, answers, [], harm)
}

/// What a whole track is lent, in the order of the call.
struct Track {
    threshold: Lent<f64>,
    onsets: Lent<u32>,
    curves: [Lent<f64>; 4],
    score: Lent<f64>,
    lists: [Lent<u32>; 3],
    work: Lent<f64>,
    counts: [Number<usize>; 6],
    kinds: [Number<u32>; 2],
    values: [Number<f64>; 3],
    lags: Lent<usize>,
    saliences: Lent<f64>,
}

impl Track {
    fn lent(f: &[Field]) -> Track {
        let size = |k: usize| f[k].size();
        Track {
            threshold: Lent::room(size(0)),
            onsets: Lent::room(size(1)),
            curves: [2, 3, 4, 5].map(|k| Lent::room(size(k))),
            score: Lent::room(size(6)),
            lists: [7, 8, 9].map(|k| Lent::room(size(k))),
            work: Lent::room(size(10)),
            counts: [Number::lent(); 6],
            kinds: [Number::lent(); 2],
            values: [Number::lent(); 3],
            lags: Lent::room(3),
            saliences: Lent::room(3),
        }
    }

    // onset count; a tempo, its bpm, clarity and candidates; a stability, its fraction and counts; beat and downbeat counts
    fn answers(&self, harm: &mut bool) -> Vec<u64> {
        let ([onsets, count, agreeing, windows, beats, downbeats], [found, steady], [bpm, clarity, fraction]) =
            (self.counts.map(|n| n.end(harm)), self.kinds.map(|n| n.end(harm)), self.values.map(|n| n.end(harm)));
        vec![onsets, found, bpm, clarity, count, steady, fraction, agreeing, windows, beats, downbeats]
    }

    fn ended(self, number: u32, mut slots: Vec<Vec<u64>>, mut harm: bool) -> Outcome {
        let answers = self.answers(&mut harm);
        slots.push(self.threshold.end(&mut harm));
        slots.push(self.onsets.end(&mut harm));
        slots.extend(self.curves.map(|c| c.end(&mut harm)));
        slots.push(self.score.end(&mut harm));
        slots.extend(self.lists.map(|l| l.end(&mut harm)));
        slots.push(self.work.end(&mut harm));
        slots.push(self.lags.end(&mut harm));
        slots.push(self.saliences.end(&mut harm));
        Outcome { number, answers, slots, harm }
    }
}

pub fn analyse_envelope(f: &[Field]) -> Outcome {
    let envelope = Lent::of(f[0].reals());
    let mut t = Track::lent(&f[5..]);
    let ([c, w, wc, ww], [back, beats, downbeats]) = (&mut t.curves, &mut t.lists);
    let ([heard, count, agreeing, windows, laid, bars], [found, steady], [bpm, clarity, fraction]) =
        (&mut t.counts, &mut t.kinds, &mut t.values);
    let number = unsafe {
        ph_analyse_envelope(
            envelope.ptr(),
            envelope.len(),
            f[1].small(),
            f[2].real(),
            f[3].real(),
            f[4].size(),
            t.threshold.ptr_mut(),
            t.threshold.len(),
            t.onsets.ptr_mut(),
            t.onsets.len(),
            c.ptr_mut(),
            c.len(),
            w.ptr_mut(),
            w.len(),
            wc.ptr_mut(),
            wc.len(),
            ww.ptr_mut(),
            ww.len(),
            t.score.ptr_mut(),
            t.score.len(),
            back.ptr_mut(),
            back.len(),
            beats.ptr_mut(),
            beats.len(),
            downbeats.ptr_mut(),
            downbeats.len(),
            t.work.ptr_mut(),
            t.work.len(),
            heard.ptr_mut(),
            found.ptr_mut(),
            bpm.ptr_mut(),
            clarity.ptr_mut(),
            t.lags.array(),
            t.saliences.array(),
            count.ptr_mut(),
            steady.ptr_mut(),
            fraction.ptr_mut(),
            agreeing.ptr_mut(),
            windows.ptr_mut(),
            laid.ptr_mut(),
            bars.ptr_mut(),
        )
    };
    let mut harm = false;
    envelope.same(f[0].reals(), &mut harm);
    t.ended(number, vec![], harm)
}

pub fn analyse_magnitudes(f: &[Field]) -> Outcome {
    let (magnitudes, mut flux) = (Lent::of(f[0].singles()), Lent::<f64>::room(f[7].size()));
    let mut t = Track::lent(&f[8..]);
    let ([c, w, wc, ww], [back, beats, downbeats]) = (&mut t.curves, &mut t.lists);
    let ([heard, count, agreeing, windows, laid, bars], [found, steady], [bpm, clarity, fraction]) =
        (&mut t.counts, &mut t.kinds, &mut t.values);
    let number = unsafe {
        ph_analyse_magnitudes(
            magnitudes.ptr(),
            magnitudes.len(),
            f[1].size(),
            f[2].size(),
            f[3].small(),
            f[4].real(),
            f[5].real(),
            f[6].size(),
            flux.ptr_mut(),
            flux.len(),
            t.threshold.ptr_mut(),
            t.threshold.len(),
            t.onsets.ptr_mut(),
            t.onsets.len(),
            c.ptr_mut(),
            c.len(),
            w.ptr_mut(),
            w.len(),
            wc.ptr_mut(),
            wc.len(),
            ww.ptr_mut(),
            ww.len(),
            t.score.ptr_mut(),
            t.score.len(),
            back.ptr_mut(),
            back.len(),
            beats.ptr_mut(),
            beats.len(),
            downbeats.ptr_mut(),
            downbeats.len(),
            t.work.ptr_mut(),
            t.work.len(),
            heard.ptr_mut(),
            found.ptr_mut(),
            bpm.ptr_mut(),
            clarity.ptr_mut(),
            t.lags.array(),
            t.saliences.array(),
            count.ptr_mut(),
            steady.ptr_mut(),
            fraction.ptr_mut(),
            agreeing.ptr_mut(),
            windows.ptr_mut(),
            laid.ptr_mut(),
            bars.ptr_mut(),
        )
    };
    let mut harm = false;
    magnitudes.same(f[0].singles(), &mut harm);
    let flux = flux.end(&mut harm);
    t.ended(number, vec![flux], harm)
}

pub fn beat_grid(f: &[Field]) -> Outcome {
    let (envelope, mut score) = (Lent::of(f[0].reals()), Lent::<f64>::room(f[2].size()));
    let (mut back, mut beats, mut count) = (Lent::<u32>::room(f[3].size()), Lent::<u32>::room(f[4].size()), Number::<usize>::lent());
    let number = unsafe {
        ph_beat_grid(
            envelope.ptr(),
            envelope.len(),
            f[1].size(),
            score.ptr_mut(),
            score.len(),
            back.ptr_mut(),
            back.len(),
            beats.ptr_mut(),
            beats.len(),
            count.ptr_mut(),
        )
    };
    let mut harm = false;
    envelope.same(f[0].reals(), &mut harm);
    ended(number, vec![count.end(&mut harm)], [score.end(&mut harm), back.end(&mut harm), beats.end(&mut harm)], harm)
}

pub fn downbeats(f: &[Field]) -> Outcome {
    let (envelope, beats) = (Lent::of(f[0].reals()), Lent::of(f[1].frames()));
    let (mut frames, mut count) = (Lent::<u32>::room(f[3].size()), Number::<usize>::lent());
    let number = unsafe {
        ph_downbeats(envelope.ptr(), envelope.len(), beats.ptr(), beats.len(), f[2].size(), frames.ptr_mut(), frames.len(), count.ptr_mut())
    };
    let mut harm = false;
    envelope.same(f[0].reals(), &mut harm);
    beats.same(f[1].frames(), &mut harm);
    ended(number, vec![count.end(&mut harm)], [frames.end(&mut harm)], harm)
}

pub fn bar_beat_at(f: &[Field]) -> Outcome {
    let (downbeats, beats) = (Lent::of(f[1].reals()), Lent::of(f[2].reals()));
    let (mut found, mut bar, mut beat) = (Number::<u32>::lent(), Number::<usize>::lent(), Number::<usize>::lent());
    let number = unsafe {
        ph_bar_beat_at(
            f[0].real(),
            downbeats.ptr(),
            downbeats.len(),
            beats.ptr(),
            beats.len(),
            found.ptr_mut(),
            bar.ptr_mut(),
            beat.ptr_mut(),
        )
    };
    let mut harm = false;
    downbeats.same(f[1].reals(), &mut harm);
    beats.same(f[2].reals(), &mut harm);
    ended(number, vec![found.end(&mut harm), bar.end(&mut harm), beat.end(&mut harm)], [], harm)
}

pub fn similarity(f: &[Field]) -> Outcome {
    let (features, mut similarity) = (Lent::of(f[0].reals()), Lent::<f64>::room(f[2].size()));
    let number = unsafe { ph_similarity(features.ptr(), features.len(), f[1].size(), similarity.ptr_mut(), similarity.len()) };
    let mut harm = false;
    features.same(f[0].reals(), &mut harm);
    ended(number, vec![], [similarity.end(&mut harm)], harm)
}

pub fn novelty(f: &[Field]) -> Outcome {
    let (similarity, mut novelty) = (Lent::of(f[0].reals()), Lent::<f64>::room(f[2].size()));
    let number = unsafe { ph_novelty(similarity.ptr(), similarity.len(), f[1].size(), novelty.ptr_mut(), novelty.len()) };
    let mut harm = false;
    similarity.same(f[0].reals(), &mut harm);
    ended(number, vec![], [novelty.end(&mut harm)], harm)
}

pub fn boundaries(f: &[Field]) -> Outcome {
    let novelty = Lent::of(f[0].reals());
    let (mut rows, mut work) = (Lent::<u32>::room(f[4].size()), Lent::<f64>::room(f[5].size()));
    let (mut sections, mut count, mut confidence) = (Number::<usize>::lent(), Number::<usize>::lent(), Number::<f64>::lent());
    let number = unsafe {
        ph_boundaries(
            novelty.ptr(),
            novelty.len(),
            f[1].whole(),
            f[2].small(),
            f[3].size(),
            rows.ptr_mut(),
            rows.len(),
            work.ptr_mut(),
            work.len(),
            sections.ptr_mut(),
            count.ptr_mut(),
            confidence.ptr_mut(),
        )
    };
    let mut harm = false;
    novelty.same(f[0].reals(), &mut harm);
    let answers = vec![sections.end(&mut harm), count.end(&mut harm), confidence.end(&mut harm)];
    ended(number, answers, [rows.end(&mut harm), work.end(&mut harm)], harm)
}

pub fn boundary_times(f: &[Field]) -> Outcome {
    let (rows, mut ms) = (Lent::of(f[0].frames()), Lent::<f64>::room(f[3].size()));
    let number = unsafe { ph_boundary_times(rows.ptr(), rows.len(), f[1].whole(), f[2].small(), ms.ptr_mut(), ms.len()) };
    let mut harm = false;
    rows.same(f[0].frames(), &mut harm);
    ended(number, vec![], [ms.end(&mut harm)], harm)
}

pub fn patch_magnitudes(f: &[Field]) -> Outcome {
    let (mut magnitudes, new_rows) = (Lent::changed(f[0].singles()), Lent::of(f[4].singles()));
    let (mut flux, mut threshold, mut work) = (Lent::changed(f[5].reals()), Lent::changed(f[6].reals()), Lent::<f64>::room(f[7].size()));
    let mut named = [Number::<usize>::lent(); 4];
    let [a, b, c, d] = &mut named;
    let number = unsafe {
        ph_patch_magnitudes(
            magnitudes.ptr_mut(),
            magnitudes.len(),
            f[1].size(),
            f[2].size(),
            f[3].size(),
            new_rows.ptr(),
            new_rows.len(),
            flux.ptr_mut(),
            flux.len(),
            threshold.ptr_mut(),
            threshold.len(),
            work.ptr_mut(),
            work.len(),
            a.ptr_mut(),
            b.ptr_mut(),
            c.ptr_mut(),
            d.ptr_mut(),
        )
    };
    let mut harm = false;
    new_rows.same(f[4].singles(), &mut harm);
    let slots = [magnitudes.end(&mut harm), flux.end(&mut harm), threshold.end(&mut harm), work.end(&mut harm)];
    ended(number, named.map(|n| n.end(&mut harm)).into(), slots, harm)
}

pub fn patch_features(f: &[Field]) -> Outcome {
    let (mut features, new_rows) = (Lent::changed(f[0].reals()), Lent::of(f[3].reals()));
    let (mut similarity, mut novelty) = (Lent::changed(f[4].reals()), Lent::changed(f[5].reals()));
    let mut named = [Number::<usize>::lent(); 4];
    let [a, b, c, d] = &mut named;
    let number = unsafe {
        ph_patch_features(
            features.ptr_mut(),
            features.len(),
            f[1].size(),
            f[2].size(),
            new_rows.ptr(),
            new_rows.len(),
            similarity.ptr_mut(),
            similarity.len(),
            novelty.ptr_mut(),
            novelty.len(),
            a.ptr_mut(),
            b.ptr_mut(),
            c.ptr_mut(),
            d.ptr_mut(),
        )
    };
    let mut harm = false;
    new_rows.same(f[3].reals(), &mut harm);
    let slots = [features.end(&mut harm), similarity.end(&mut harm), novelty.end(&mut harm)];
    ended(number, named.map(|n| n.end(&mut harm)).into(), slots, harm)
}

pub fn write_tempo_track(f: &[Field]) -> Outcome {
    let beats = Lent::of(f[0].frames());
    let (mut file, mut count) = (Lent::<u8>::room(f[2].size()), Number::<usize>::lent());
    let number = unsafe { ph_write_tempo_track(beats.ptr(), beats.len(), f[1].small(), file.ptr_mut(), file.len(), count.ptr_mut()) };
    let mut harm = false;
    beats.same(f[0].frames(), &mut harm);
    ended(number, vec![count.end(&mut harm)], [file.end(&mut harm)], harm)
}

pub fn read_tempo_track(f: &[Field]) -> Outcome {
    let file = Lent::of(f[0].bytes());
    let (mut gaps, mut count) = (Lent::<u32>::room(f[1].size()), Number::<usize>::lent());
    let number = unsafe { ph_read_tempo_track(file.ptr(), file.len(), gaps.ptr_mut(), gaps.len(), count.ptr_mut()) };
    let mut harm = false;
    file.same(f[0].bytes(), &mut harm);
    ended(number, vec![count.end(&mut harm)], [gaps.end(&mut harm)], harm)
}

pub fn labels_room(f: &[Field]) -> Outcome {
    let (frames, mut count) = (Lent::of(f[0].frames()), Number::<usize>::lent());
    let number = unsafe { ph_labels_room(frames.ptr(), frames.len(), f[1].small(), count.ptr_mut()) };
    let mut harm = false;
    frames.same(f[0].frames(), &mut harm);
    ended(number, vec![count.end(&mut harm)], [], harm)
}

pub fn write_labels(f: &[Field]) -> Outcome {
    let frames = Lent::of(f[0].frames());
    let (mut text, mut count) = (Lent::<u8>::room(f[2].size()), Number::<usize>::lent());
    let number = unsafe { ph_write_labels(frames.ptr(), frames.len(), f[1].small(), text.ptr_mut(), text.len(), count.ptr_mut()) };
    let mut harm = false;
    frames.same(f[0].frames(), &mut harm);
    ended(number, vec![count.end(&mut harm)], [text.end(&mut harm)], harm)
}

pub fn read_labels(f: &[Field]) -> Outcome {
    let text = Lent::of(f[0].bytes());
    let (mut frames, mut count) = (Lent::<u32>::room(f[2].size()), Number::<usize>::lent());
    let number = unsafe { ph_read_labels(text.ptr(), text.len(), f[1].small(), frames.ptr_mut(), frames.len(), count.ptr_mut()) };
    let mut harm = false;
    text.same(f[0].bytes(), &mut harm);
    ended(number, vec![count.end(&mut harm)], [frames.end(&mut harm)], harm)
}

pub fn write_cues(f: &[Field]) -> Outcome {
    let frames = Lent::of(f[0].frames());
    let (mut chunk, mut count) = (Lent::<u8>::room(f[1].size()), Number::<usize>::lent());
    let number = unsafe { ph_write_cues(frames.ptr(), frames.len(), chunk.ptr_mut(), chunk.len(), count.ptr_mut()) };
    let mut harm = false;
    frames.same(f[0].frames(), &mut harm);
    ended(number, vec![count.end(&mut harm)], [chunk.end(&mut harm)], harm)
}

pub fn read_cues(f: &[Field]) -> Outcome {
    let chunk = Lent::of(f[0].bytes());
    let (mut frames, mut count) = (Lent::<u32>::room(f[1].size()), Number::<usize>::lent());
    let number = unsafe { ph_read_cues(chunk.ptr(), chunk.len(), frames.ptr_mut(), frames.len(), count.ptr_mut()) };
    let mut harm = false;
    chunk.same(f[0].bytes(), &mut harm);
    ended(number, vec![count.end(&mut harm)], [frames.end(&mut harm)], harm)
}

pub fn labels_to_cues(f: &[Field]) -> Outcome {
    let text = Lent::of(f[0].bytes());
    let (mut chunk, mut count) = (Lent::<u8>::room(f[2].size()), Number::<usize>::lent());
    let number = unsafe { ph_labels_to_cues(text.ptr(), text.len(), f[1].small(), chunk.ptr_mut(), chunk.len(), count.ptr_mut()) };
    let mut harm = false;
    text.same(f[0].bytes(), &mut harm);
    ended(number, vec![count.end(&mut harm)], [chunk.end(&mut harm)], harm)
}

pub fn cues_to_labels(f: &[Field]) -> Outcome {
    let chunk = Lent::of(f[0].bytes());
    let (mut text, mut count) = (Lent::<u8>::room(f[2].size()), Number::<usize>::lent());
    let number = unsafe { ph_cues_to_labels(chunk.ptr(), chunk.len(), f[1].small(), text.ptr_mut(), text.len(), count.ptr_mut()) };
    let mut harm = false;
    chunk.same(f[0].bytes(), &mut harm);
    ended(number, vec![count.end(&mut harm)], [text.end(&mut harm)], harm)
}
