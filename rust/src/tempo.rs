//! Tempo: how fast the pulse of an envelope is, and how steady.
use crate::{ffi, limits, Refused};

/// The bounds of the tempo search in beats a minute, 30 to 300 where nothing else is said, and the beats of a bar, 4 where nothing else is.
/// The bounds may come in either order.
///
/// A bound may be open: `f64::INFINITY` as the upper one means no upper limit, `f64::NEG_INFINITY` as the lower one (or anything up to 1)
/// down to 1 beat a minute, the least there is. Every float is taken, by one rule: a pair that isn't `min_bpm <= max_bpm` swaps, so a NaN
/// swaps it; then the lower bound is 1 where it is a NaN or less, and the upper one the lower one + 1 where it is a NaN or less. A NaN is
/// therefore not an open bound: NaN and 300 mean 300 to 301.
///
/// The meter is 1 to [`MOST_METER`](TempoOpts::MOST_METER), 3 for a waltz; each call that takes the options refuses another with
/// [`OutOfBounds`](crate::Refusal::OutOfBounds). The downbeats alone are chosen by it.
///
/// ```
/// # use prohunsev::*;
/// assert_eq!(TempoOpts::new(), TempoOpts::between(30.0, 300.0));
/// assert_eq!(TempoOpts::new().with_max_bpm(200.0).max_bpm, 200.0);
/// let open = lag_range(48_000, TempoOpts::new().with_max_bpm(f64::INFINITY))?;
/// assert_eq!((open.min_lag, open.max_lag), (1, 375));
/// let waltz = TempoOpts::new().with_meter(3);
/// assert_eq!((waltz.meter, waltz.with_meter(TempoOpts::DEFAULT_METER)), (3, TempoOpts::new()));
/// let refused = lag_range(48_000, waltz.with_meter(17)).unwrap_err();
/// assert_eq!(refused.to_string(), "lag_range refused with 1: meter 17, 1 to 16");
/// # Ok::<(), Refused>(())
/// ```
#[derive(Clone, Copy, Debug, PartialEq)]
pub struct TempoOpts {
    /// The slowest tempo that is looked for; `f64::NEG_INFINITY` for the least there is, 1.
    pub min_bpm: f64,
    /// The fastest tempo that is looked for; `f64::INFINITY` for no upper limit.
    pub max_bpm: f64,
    /// The beats of a bar.
    pub meter: usize,
}

impl TempoOpts {
    /// A slow ballad heard in half time.
    pub const DEFAULT_MIN_BPM: f64 = 30.0;
    /// A dance track heard in double time.
    pub const DEFAULT_MAX_BPM: f64 = 300.0;
    /// Common time.
    pub const DEFAULT_METER: usize = 4;
    /// The most beats of a bar; the least is 1.
    pub const MOST_METER: usize = limits::MOST_METER;

    /// The defaults, 30 to 300 and four beats to the bar.
    pub const fn new() -> TempoOpts {
        TempoOpts::between(TempoOpts::DEFAULT_MIN_BPM, TempoOpts::DEFAULT_MAX_BPM)
    }

    /// Both bounds, any two floats, with the default meter. Neither this nor a call that is lent the options refuses a bound.
    pub const fn between(min_bpm: f64, max_bpm: f64) -> TempoOpts {
        TempoOpts { min_bpm, max_bpm, meter: TempoOpts::DEFAULT_METER }
    }

    /// The same options with another lower bound, `f64::NEG_INFINITY` for the least there is, 1.
    #[must_use]
    pub const fn with_min_bpm(self, min_bpm: f64) -> TempoOpts {
        TempoOpts { min_bpm, ..self }
    }

    /// The same options with another upper bound, `f64::INFINITY` for none.
    #[must_use]
    pub const fn with_max_bpm(self, max_bpm: f64) -> TempoOpts {
        TempoOpts { max_bpm, ..self }
    }

    /// The same options with another number of beats to the bar. It is the calls that are lent the options that refuse one outside 1 to 16.
    #[must_use]
    pub const fn with_meter(self, meter: usize) -> TempoOpts {
        TempoOpts { meter, ..self }
    }
}

impl Default for TempoOpts {
    fn default() -> TempoOpts {
        TempoOpts::new()
    }
}

/// The lags, in frames, that the bounds of a search stand for.
#[derive(Clone, Copy, Debug, PartialEq, Eq)]
pub struct LagRange {
    /// The least lag, the fastest tempo's; at least 1.
    pub min_lag: usize,
    /// The greatest lag, the slowest tempo's; above the least.
    pub max_lag: usize,
}

impl LagRange {
    /// How many lags there are, both ends counted: the room of each lag curve. Ends of your own that are in the wrong order count as 1,
    /// and nothing counts as more than `usize::MAX`.
    pub const fn lags(self) -> usize {
        self.max_lag.saturating_sub(self.min_lag).saturating_add(1)
    }
}

/// A tempo with its clarity.
#[derive(Clone, Copy, Debug, PartialEq)]
pub struct Tempo {
    /// Beats a minute.
    pub bpm: f64,
    /// How clearly the envelope repeats at this tempo, 0 to 1.
    pub clarity: f64,
}

/// A tempo that the envelope may be heard at.
#[derive(Clone, Copy, Debug, Default, PartialEq)]
pub struct Candidate {
    /// Frames from beat to beat.
    pub lag: usize,
    /// Its clarity, 0 to 1.
    pub salience: f64,
}

/// The answer of [`estimate`].
#[derive(Clone, Copy, Debug, Default, PartialEq)]
pub struct TempoEstimate {
    /// The tempo; `None` where the envelope is too short or too flat, has fewer than two onsets, or repeats at no lag.
    pub tempo: Option<Tempo>,
    slots: [Candidate; 3],
    count: usize,
}

impl TempoEstimate {
    // as the exported functions answer it
    pub(crate) fn of(tempo: Option<Tempo>, lags: [usize; 3], saliences: [f64; 3], count: usize) -> TempoEstimate {
        let mut slots = [Candidate::default(); 3];
        for (slot, (lag, salience)) in slots.iter_mut().zip(lags.into_iter().zip(saliences)) {
            *slot = Candidate { lag, salience };
        }
        TempoEstimate { tempo, slots, count }
    }

    /// The candidates, at most three, the winner first; none without a tempo.
    pub fn candidates(&self) -> &[Candidate] {
        &self.slots[..self.count]
    }

    /// The winner's lag: the period of the beat grid. `None` without a tempo.
    pub fn lag(&self) -> Option<usize> {
        self.candidates().first().map(|winner| winner.lag)
    }
}

/// How many windows of a track keep its tempo.
#[derive(Clone, Copy, Debug, PartialEq)]
pub struct Stability {
    /// The share of windows that agree, 0 to 1.
    pub fraction: f64,
    /// The windows whose own tempo is the whole track's, or half, twice, a quarter or four times it.
    pub agreeing: usize,
    /// All windows, 2 to 4.
    pub windows: usize,
}

/// The lags that the options' bounds stand for.
///
/// Refuses [`OutOfBounds`](crate::Refusal::OutOfBounds) (the rate, the meter). No bound is refused.
///
/// ```
/// # use prohunsev::*;
/// let range = lag_range(48_000, TempoOpts::new())?;
/// assert_eq!((range.min_lag, range.max_lag, range.lags()), (38, 375, 338));
/// # Ok::<(), Refused>(())
/// ```
pub fn lag_range(rate: u32, opts: TempoOpts) -> Result<LagRange, Refused> {
    let mut range = LagRange { min_lag: 0, max_lag: 0 };
    // SAFETY: the pointers are those of a local's two fields (the reason in lib.rs)
    let number = unsafe {
        ffi::ph_lag_range(rate, opts.min_bpm, opts.max_bpm, opts.meter, &mut range.min_lag, &mut range.max_lag)
    };
    Refused::unless_answered("lag_range", number, |why| why.rate(rate).meter(opts))?;
    Ok(range)
}

/// Finds the tempo of an envelope and at most three candidates. `onsets` says how many onsets the envelope has: below two, no tempo.
///
/// Room: [`rooms::lags`](crate::rooms::lags) slots of each of `clarity`, `weight` and `work`, also where there is no tempo.
/// Unless the envelope is too short or flat or has fewer than two onsets, `clarity` and `weight` then hold the clarity and the weight of
/// each lag.
/// Refuses [`OutOfBounds`](crate::Refusal::OutOfBounds) (the envelope's length, the rate, the meter),
/// [`TooLittleRoom`](crate::Refusal::TooLittleRoom), and [`WrongValue`](crate::Refusal::WrongValue) (an envelope value).
///
/// ```
/// # use prohunsev::*;
/// let envelope: Vec<f64> = (0..800).map(|t| if t % 80 == 0 { 1.0 } else { 0.0 }).collect();
/// let lags = rooms::lags(48_000, TempoOpts::new())?;
/// let (mut clarity, mut weight, mut work) = (vec![0.0; lags], vec![0.0; lags], vec![0.0; lags]);
/// let found = estimate(&envelope, 10, 48_000, TempoOpts::new(), &mut clarity, &mut weight, &mut work)?;
/// assert_eq!(found.lag(), Some(80));
/// assert_eq!(found.tempo.unwrap().bpm, 140.625);
/// # Ok::<(), Refused>(())
/// ```
pub fn estimate(
    envelope: &[f64],
    onsets: usize,
    rate: u32,
    opts: TempoOpts,
    clarity: &mut [f64],
    weight: &mut [f64],
    work: &mut [f64],
) -> Result<TempoEstimate, Refused> {
    let (mut found, mut bpm, mut clear, mut count) = (0, 0.0, 0.0, 0);
    let (mut lags, mut saliences) = ([0; 3], [0.0; 3]);
    // SAFETY: the pointers and lengths are those of borrowed slices and locals (the reason in lib.rs)
    let number = unsafe {
        ffi::ph_estimate(
            envelope.as_ptr(),
            envelope.len(),
            onsets,
            rate,
            opts.min_bpm,
            opts.max_bpm,
            opts.meter,
            clarity.as_mut_ptr(),
            clarity.len(),
            weight.as_mut_ptr(),
            weight.len(),
            work.as_mut_ptr(),
            work.len(),
            &mut found,
            &mut bpm,
            &mut clear,
            &mut lags,
            &mut saliences,
            &mut count,
        )
    };
    Refused::unless_answered("estimate", number, |why| {
        why.frames("envelope", envelope.len())
            .rate(rate)
            .meter(opts)
            .lag_curves(rate, opts, [("clarity", clarity.len()), ("weight", weight.len()), ("work", work.len())])
            .values("envelope", envelope)
    })?;
    let tempo = (found != 0).then_some(Tempo { bpm, clarity: clear });
    Ok(TempoEstimate::of(tempo, lags, saliences, count))
}

/// Says how steady a track's tempo is: its envelope is cut into up to four windows, and each is searched for a tempo of its own.
/// `None` where fewer than two windows fit, or where `whole_lag`, the lag of the whole track's tempo, is 0.
///
/// Room: [`rooms::lags`](crate::rooms::lags) slots of each of `clarity`, `weight` and `work`; all three then hold anything.
/// Refuses as [`estimate`] does, and [`OutOfBounds`](crate::Refusal::OutOfBounds) for a lag above 45,000.
///
/// ```
/// # use prohunsev::*;
/// let envelope: Vec<f64> = (0..2_000).map(|t| if t % 80 == 0 { 1.0 } else { 0.0 }).collect();
/// let lags = rooms::lags(48_000, TempoOpts::new())?;
/// let (mut clarity, mut weight, mut work) = (vec![0.0; lags], vec![0.0; lags], vec![0.0; lags]);
/// let steady = stability_of(&envelope, 48_000, TempoOpts::new(), 80, &mut clarity, &mut weight, &mut work)?;
/// assert_eq!(steady, Some(Stability { fraction: 1.0, agreeing: 4, windows: 4 }));
/// # Ok::<(), Refused>(())
/// ```
pub fn stability_of(
    envelope: &[f64],
    rate: u32,
    opts: TempoOpts,
    whole_lag: usize,
    clarity: &mut [f64],
    weight: &mut [f64],
    work: &mut [f64],
) -> Result<Option<Stability>, Refused> {
    let (mut found, mut fraction, mut agreeing, mut windows) = (0, 0.0, 0, 0);
    // SAFETY: the pointers and lengths are those of borrowed slices and locals (the reason in lib.rs)
    let number = unsafe {
        ffi::ph_stability_of(
            envelope.as_ptr(),
            envelope.len(),
            rate,
            opts.min_bpm,
            opts.max_bpm,
            opts.meter,
            whole_lag,
            clarity.as_mut_ptr(),
            clarity.len(),
            weight.as_mut_ptr(),
            weight.len(),
            work.as_mut_ptr(),
            work.len(),
            &mut found,
            &mut fraction,
            &mut agreeing,
            &mut windows,
        )
    };
    Refused::unless_answered("stability_of", number, |why| {
        why.frames("envelope", envelope.len())
            .rate(rate)
            .meter(opts)
            .number("whole_lag", whole_lag as u64, 0, limits::MOST_PERIOD as u64)
            .lag_curves(rate, opts, [("clarity", clarity.len()), ("weight", weight.len()), ("work", work.len())])
            .values("envelope", envelope)
    })?;
    Ok((found != 0).then_some(Stability { fraction, agreeing, windows }))
}
