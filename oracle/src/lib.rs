//! The original: onsets.rs, tempo.rs and structure.rs of docs/src, unchanged, over stand-ins for the transform, audio and report types
//! that they import. What is left out (the transform itself, decoding, rhythm) is never called.

/// Stand-in for the transform: its rows are given, not computed.
pub mod stft {
    pub struct Stft {
        pub magnitudes: Vec<Vec<f32>>,
        pub sample_rate: u32,
        pub fft_size: usize,
    }

    impl Stft {
        pub fn compute(_mono: &[f32], _sample_rate: u32, _fft_size: usize, _hop: usize) -> Self {
            unreachable!("the transform is not part of the comparison")
        }

        pub fn bin_hz(&self, bin: usize) -> f64 {
            bin as f64 * f64::from(self.sample_rate) / self.fft_size as f64
        }
    }
}

/// Stand-in for decoded audio.
pub mod audio {
    pub struct Audio {
        pub sample_rate: u32,
    }

    impl Audio {
        pub fn mono(&self) -> Vec<f32> {
            unreachable!("audio is not part of the comparison")
        }
    }
}

/// Stand-in for the report: the one struct that the onset detector fills.
pub mod report {
    #[derive(Debug, Clone)]
    pub struct OnsetsReport {
        pub count: usize,
        pub times_ms: Vec<f64>,
    }
}

// Named in the documentation comments of the original.
pub use report::OnsetsReport;

include!(concat!(env!("OUT_DIR"), "/original.rs"));
