//! The bounds of what the calls accept. A number outside is [`Refusal::OutOfBounds`](crate::Refusal::OutOfBounds), a value
//! [`Refusal::WrongValue`](crate::Refusal::WrongValue).

/// Samples from one frame to the next.
pub const HOP: u32 = 256;
/// The greatest sample rate; the least is 1.
pub const MOST_RATE: u32 = 192_000;
/// The most magnitude rows, or slots of an envelope.
pub const MOST_ROWS: usize = 1_048_576;
/// The most bins of a magnitude row; the least is 1.
pub const MOST_BINS: usize = 4_096;
/// The greatest frame in a list of frames.
pub const MOST_FRAME: u32 = 1_048_575;
/// The longest beat period, in frames, and the greatest lag.
pub const MOST_PERIOD: usize = 45_000;
/// The most beats of a bar; the least is 1.
pub const MOST_METER: usize = 16;
/// The longest gap of a tempo track, in microseconds; the least is 1. A longer one is [`Refusal::GapTooLong`](crate::Refusal::GapTooLong).
pub const MOST_TEMPO: u32 = 16_777_215;
/// The most feature rows.
pub const MOST_FEATURE_ROWS: usize = 50_000;
/// The most samples that a feature row stands for, 2^31; the least is 1.
pub const MOST_FEATURE_LENGTH: u64 = 2_147_483_648;
/// Samples of a row of the feature transform.
pub const FEATURE_FRAME: usize = 4_096;
/// Samples from one row of the feature transform to the next.
pub const FEATURE_HOP: usize = 1_024;
/// Bins of a row of the feature transform.
pub const FEATURE_BINS: usize = 2_049;
/// Values of a feature row.
pub const FEATURE_WIDTH: usize = 16;
/// Similarity slots of a feature row: a row with itself and with the sixteen after it.
pub const SIMILARITY_WIDTH: usize = 17;
/// The largest size of a magnitude, 2^126.
pub const MOST_MAGNITUDE: f32 = 85070591730234615865843651857942052864.0;
/// The largest size of an envelope, curve, median or feature value, 2^150.
pub const MOST_VALUE: f64 = 1427247692705959881058285969449495136382746624.0;
/// What [`beat_grid`](crate::beat_grid) writes in `back` for a frame with no beat before it.
pub const NO_LINK: u32 = 4_294_967_295;
