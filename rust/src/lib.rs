//! The rhythm of a track, proved: onset strength, tempo, beat grid, bars and sections, from magnitude rows or feature rows.
//!
//! Every call is a thin, safe door to a function that is proved to meet its contract for every input. All memory is lent: slices go in,
//! answers come back by value, and outputs are slices of the caller's, whose size is a formula ([`rooms`]). Nothing is allocated but by
//! making [`Buffers`] and by the calls of files, which answer what they made and have `_into` beside them; nothing is kept from call to call,
//! and any number of threads may call at once.
//!
//! A call takes up to 40 KB of its thread's stack on x86-64 (measured: 34,279 bytes in a whole track, on a stack filled with a pattern). A
//! thread of 40 KB ran a whole track in a release build; without optimisation what stands around the call needs more, and 48 KB were enough.
//!
//! - A call answers, or is [`Refused`], for a numbered reason ([`Refusal`]), and then nothing that was lent has changed. The error says
//!   which of all that was lent it was: `threshold: 4,095 slots lent, 4,096 needed`.
//! - "No tempo" and "no stability" are answers: `Ok` of a `None`.
//! - A call that lists answers how many entries it listed; they stand first in the slice, and the slots behind them are unchanged.
//! - Times come from frames: a frame is 256 samples after the one before it ([`frame_times`] in milliseconds).
//!
//! [`Buffers`] owns the room of one analysis and runs a whole track through it in one call, track after track, in the same memory:
//!
//! ```
//! use prohunsev::{Buffers, TempoOpts};
//!
//! // a click every half second: 120 beats a minute
//! let rate = 48_000;
//! let mut envelope = vec![0.0; 4_000];
//! for beat in 0..42 {
//!     envelope[20 + beat * 375 / 4] = 1.0;
//! }
//! let mut buffers = Buffers::for_tracks(envelope.len(), rate, TempoOpts::new())?;
//! let track = buffers.analyse_envelope(&envelope, rate, TempoOpts::new())?;
//! let tempo = track.tempo.expect("clicks have a tempo");
//! assert!((tempo.bpm - 120.0).abs() < 1.0);
//! assert_eq!(track.onsets.len(), 42);
//! assert!(track.beats.len() > 35 && track.downbeats.len() > 8);
//! # Ok::<(), prohunsev::Refused>(())
//! ```
//!
//! It also hands out the curves of what it analysed, and mends them where rows are replaced ([`Buffers::patch_magnitudes`]); the new grid
//! is then had without a full run ([`Buffers::analyse_patched`]). The beats go to a sequencer as a MIDI file ([`write_tempo_track`]),
//! to Audacity as a label track ([`write_labels`]) and into a WAV file as a cue chunk ([`write_cues`]); [`labels_to_cues`] and
//! [`cues_to_labels`] make one of the other.
#![deny(missing_docs)]
#![deny(unsafe_op_in_unsafe_fn)]

mod beats;
mod features;
mod ffi;
mod formats;
mod labels;
pub mod limits;
mod medians;
mod onsets;
mod patches;
mod refusal;
pub mod rooms;
mod sections;
mod shapes;
mod tempo;
mod track;
mod why;

pub use beats::{bar_beat_at, beat_grid, downbeats, BarBeat};
pub use features::feature_rows;
pub use formats::{read_tempo_track, read_tempo_track_into, write_tempo_track, write_tempo_track_into};
pub use labels::{cues_to_labels, cues_to_labels_into, labels_to_cues, labels_to_cues_into};
pub use labels::{labels_room, read_labels, read_labels_into, write_labels, write_labels_into};
pub use labels::{read_cues, read_cues_into, write_cues, write_cues_into};
pub use medians::{mad_of, median_of};
pub use onsets::{adaptive_threshold, frame_times, pick_onsets, spectral_flux, suppress_close_peaks};
pub use patches::{patch_features, patch_magnitudes, Patched, PatchedFeatures};
pub use refusal::{Refusal, Refused};
pub use sections::{boundaries, boundary_times, novelty, similarity, Sections};
pub use tempo::{estimate, lag_range, stability_of, Candidate, LagRange, Stability, Tempo, TempoEstimate, TempoOpts};
pub use track::{Analysis, Buffers};

// Every unsafe block of this crate calls one function of `ffi`, and is sound for one reason, to which each refers: a pointer and the
// length after it are those of one slice (a pointer alone is a local's), aligned and not null also where it is empty, and borrowed for
// as long as the call lasts; what is lent as `*mut` is borrowed mutably and so overlaps nothing else. The functions are proved to read
// and write inside what they are lent and to keep no pointer.

// the example of the README is tried with the others
#[cfg(doctest)]
#[doc = include_str!("../README.md")]
struct Readme;

#[cfg(test)]
mod tests {
    #[test]
    fn the_library_is_of_this_crates_version() {
        let part = |text: &str| text.parse::<u32>().expect("cargo gives whole numbers");
        let (major, minor) = (part(env!("CARGO_PKG_VERSION_MAJOR")), part(env!("CARGO_PKG_VERSION_MINOR")));
        let version = major * 1_000_000 + minor * 1_000 + part(env!("CARGO_PKG_VERSION_PATCH"));
        // takes nothing, and returns a constant
        assert_eq!(unsafe { super::ffi::ph_version() }, version);
    }
}
