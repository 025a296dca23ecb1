/// Appended for the judge: the private functions of this file, opened. Nothing above is changed.
pub mod open {
    use super::*;

    /// The winner's lag and salience, then every accepted lag with its salience.
    pub struct Picked {
        pub winner_lag: usize,
        pub winner_salience: f64,
        pub peaks: Vec<(usize, f64)>,
    }

    pub fn estimate_from_parts(stft: &Stft, onsets: &OnsetsReport, sample_rate: u32, opts: &TempoOpts) -> TempoReport {
        super::estimate_from_parts(stft, onsets, sample_rate, opts)
    }

    pub fn frame_rate(sample_rate: u32) -> f64 {
        f64::from(sample_rate) / onsets::HOP as f64
    }

    /// The least and the greatest lag that `estimate_from_parts` searches: its own lines.
    pub fn lag_range(opts: &TempoOpts, frame_rate: f64) -> (usize, usize) {
        {{lag range}}
        (min_lag, max_lag)
    }

    pub fn pick_tempo_peaks(flux: &[f64], min_lag: usize, max_lag: usize, frame_rate: f64) -> Option<Picked> {
        super::pick_tempo_peaks(flux, min_lag, max_lag, frame_rate).map(|p| Picked {
            winner_lag: p.winner_lag,
            winner_salience: p.winner_salience,
            peaks: p.peaks,
        })
    }

    /// The two lag curves that `pick_tempo_peaks` makes, or nothing where the envelope is flat: its own lines.
    pub fn lag_curves(flux: &[f64], min_lag: usize, max_lag: usize, frame_rate: f64) -> Option<(Vec<f64>, Vec<f64>)> {
        {{lag curves}}
        Some((clarity, weighted))
    }

    pub fn stability_of(flux: &[f64], min_lag: usize, max_lag: usize, frame_rate: f64, global_lag: usize) -> Option<f64> {
        super::stability_of(flux, min_lag, max_lag, frame_rate, global_lag)
    }

    /// How many windows `stability_of` finds in agreement, and how many it takes: its own lines.
    pub fn windows_of(flux: &[f64], min_lag: usize, max_lag: usize, frame_rate: f64, global_lag: usize) -> Option<(usize, usize)> {
        {{windows}}
        Some((agree, window_count))
    }

    pub fn beat_grid(flux: &[f64], period_frames: usize) -> Vec<usize> {
        super::beat_grid(flux, period_frames, BEAT_DP_LAMBDA)
    }

    /// The scores and links that `beat_grid` walks back, or nothing where it has no beats: its own lines.
    pub fn scores(flux: &[f64], period_frames: usize) -> Option<(Vec<f64>, Vec<Option<usize>>)> {
        let mut made = None;
        let _: Vec<usize> = scores_into(flux, period_frames, BEAT_DP_LAMBDA, &mut made);
        made
    }

    fn scores_into(flux: &[f64], period_frames: usize, lambda: f64, made: &mut Option<(Vec<f64>, Vec<Option<usize>>)>) -> Vec<usize> {
        {{scores}}
        *made = Some((score, back));
        Vec::new()
    }

    pub fn frame_center_ms(frame: usize, sample_rate: u32) -> f64 {
        super::frame_center_ms(frame, sample_rate)
    }
}

/// Appended for the judge: bars of another number of beats than `DEFAULT_BEATS_PER_BAR`, by this file's own lines, in which that number stands
/// for the constant (build.rs), and which call this file's own functions.
pub mod bars {
    use super::*;

    /// The downbeats that `estimate_from_parts` lists of beats that are given, as frames: what its lines take a frame's time by gives the frame.
    pub fn downbeats(flux: &[f64], beat_frames: &[usize], beats_per_bar: usize) -> Vec<usize> {
        let (frame_center_ms, sample_rate) = (|frame: usize, _: ()| frame as f64, ());
        {{downbeats}}
        downbeats_ms.into_iter().map(|frame| frame as usize).collect()
    }

    /// The whole of `estimate_from_parts`. The lines end with its own brace.
    pub fn estimate_from_parts(
        stft: &Stft,
        onset_report: &OnsetsReport,
        sample_rate: u32,
        opts: &TempoOpts,
        beats_per_bar: usize,
    ) -> TempoReport {
        {{estimate}}
}
