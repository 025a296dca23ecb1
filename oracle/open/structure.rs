/// Appended for the judge: the private functions of this file, opened. Nothing above is changed.
pub mod open {
    use super::*;

    /// The banded similarity of feature rows: seventeen values a row.
    pub struct Similarity(BandedSimilarity);

    impl Similarity {
        pub fn compute(features: &[[f64; FEATURE_DIMS]]) -> Self {
            Similarity(BandedSimilarity::compute(features, 2 * KERNEL_HALF_WIDTH))
        }

        /// A similarity that is given, not computed.
        pub fn given(rows: usize, values: Vec<f64>) -> Self {
            Similarity(BandedSimilarity { n: rows, band: 2 * KERNEL_HALF_WIDTH, values })
        }

        pub fn values(&self) -> &[f64] {
            &self.0.values
        }

        pub fn novelty(&self) -> Vec<f64> {
            super::novelty_curve(&self.0, KERNEL_HALF_WIDTH, KERNEL_SIGMA)
        }
    }

    /// The rows of the feature transform, which are given.
    pub fn stft(magnitudes: Vec<Vec<f32>>, sample_rate: u32) -> Stft {
        Stft { magnitudes, sample_rate, fft_size: FFT_SIZE }
    }

    /// What `feature_vectors` makes of a transform that is given: its own lines behind the transform. They end with the function's own brace.
    pub fn feature_vectors(stft: &Stft, mono: &[f32], frame_len: usize, frame_count: usize) -> Vec<[f64; FEATURE_DIMS]> {
        let sample_rate = stft.sample_rate;
        {{frame time}}
        {{feature rows}}

    /// What `detect_structure` reports of a novelty curve that is given, for frames of so many samples, and the rows of its boundaries: its
    /// own lines. They end with the function's own brace.
    pub fn sections(novelty: &[f64], frame_len: usize, sample_rate: u32, opts: &StructureOpts, rows: &mut Vec<usize>) -> StructureReport {
        let frame_count = novelty.len();
        if frame_count == 0 {
            return empty_report();
        }
        {{frame length}}
        {{boundaries}}
        rows.clone_from(&picked);
        {{report}}

    /// The time of a boundary: its row times the length of a frame.
    pub fn boundary_ms(row: usize, frame_len: usize, sample_rate: u32) -> f64 {
        row as f64 * (frame_len as f64 / f64::from(sample_rate) * 1000.0)
    }
}
