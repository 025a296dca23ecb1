/// Appended for the judge: the private functions of this file, opened. Nothing above is changed.
pub mod open {
    use super::*;

    /// Rows of magnitudes as the transform would hand them over.
    pub fn stft(rows: Vec<Vec<f32>>, sample_rate: u32) -> Stft {
        Stft { magnitudes: rows, sample_rate, fft_size: FFT_SIZE }
    }

    pub fn analyze_stft(stft: &Stft) -> OnsetsReport {
        super::analyze_stft(stft)
    }

    pub fn spectral_flux(stft: &Stft) -> Vec<f64> {
        super::spectral_flux(stft)
    }

    pub fn adaptive_threshold(flux: &[f64]) -> Vec<f64> {
        super::adaptive_threshold(flux)
    }

    /// The frames that `analyze_stft` accepts, from a curve and a threshold that are given: its own lines.
    pub fn pick_onsets(flux: &[f64], threshold: &[f64], sample_rate: u32) -> Vec<usize> {
        let (stft, frame_count) = (stft(Vec::new(), sample_rate), flux.len());
        if frame_count < 3 {
            return Vec::new();
        }
        {{picking}}
        accepted
    }

    pub fn median_of(values: &[f64]) -> f64 {
        super::median_of(values)
    }

    pub fn mad_of(values: &[f64], median: f64) -> f64 {
        super::mad_of(values, median)
    }

    pub fn suppress_close_peaks(peaks: &[usize], flux: &[f64], min_gap: usize) -> Vec<usize> {
        super::suppress_close_peaks(peaks, flux, min_gap)
    }
}
