//! A whole track, through buffers that are made once.
use crate::why::{Detail, Named};
use crate::{
    beat_grid, downbeats, estimate, ffi, lag_range, limits, patch_magnitudes, pick_onsets, rooms, stability_of,
    Candidate, LagRange, Patched, Refusal, Refused, Stability, Tempo, TempoEstimate, TempoOpts,
};
use std::fmt;

/// The rhythm of a track. Lists lie in the [`Buffers`] that were used, until those are used again. Printed for a look (`{:?}`), a list is
/// its length and first frames.
#[derive(Clone, Copy, PartialEq)]
pub struct Analysis<'a> {
    /// The tempo, if there is one; without, there is no stability and there are no beats.
    pub tempo: Option<Tempo>,
    /// How steady the tempo is; `None` also where the track is too short to tell.
    pub stability: Option<Stability>,
    /// The frames of the onsets, ascending.
    pub onsets: &'a [u32],
    /// The frames of the beats, ascending.
    pub beats: &'a [u32],
    /// The frames of the downbeats, ascending, the first beat of each bar by the options' meter.
    pub downbeats: &'a [u32],
    estimate: TempoEstimate,
}

impl Analysis<'_> {
    /// The candidates of the tempo, at most three, the winner first.
    pub fn candidates(&self) -> &[Candidate] {
        self.estimate.candidates()
    }
}

// a list by its length and its first four frames
struct Few<'a>(&'a [u32]);

impl fmt::Debug for Few<'_> {
    fn fmt(&self, f: &mut fmt::Formatter<'_>) -> fmt::Result {
        write!(f, "{} [", self.0.len())?;
        for (k, frame) in self.0.iter().take(4).enumerate() {
            write!(f, "{}{frame}", if k == 0 { "" } else { ", " })?;
        }
        f.write_str(if self.0.len() > 4 { ", ..]" } else { "]" })
    }
}

impl fmt::Debug for Analysis<'_> {
    fn fmt(&self, f: &mut fmt::Formatter<'_>) -> fmt::Result {
        f.debug_struct("Analysis")
            .field("tempo", &self.tempo)
            .field("candidates", &self.candidates())
            .field("stability", &self.stability)
            .field("onsets", &Few(self.onsets))
            .field("beats", &Few(self.beats))
            .field("downbeats", &Few(self.downbeats))
            .finish()
    }
}

/// The room of one analysis, made once and used for track after track: no call of it allocates, and one that refuses changes nothing.
///
/// ```
/// # use prohunsev::*;
/// let mut buffers = Buffers::for_tracks(1_000, 48_000, TempoOpts::new())?;
/// let silence = buffers.analyse_envelope(&[0.0; 500], 48_000, TempoOpts::new())?;
/// assert_eq!((silence.tempo, silence.onsets.len(), silence.beats.len()), (None, 0, 0));
/// // a track longer than the buffers were made for is refused
/// let refused = buffers.analyse_envelope(&[0.0; 1_001], 48_000, TempoOpts::new()).unwrap_err();
/// assert_eq!(refused, Refusal::TooLittleRoom);
/// assert!(refused.to_string().contains("threshold: 1,000 slots lent, 1,001 needed"));
/// # Ok::<(), Refused>(())
/// ```
///
/// After [`analyse_magnitudes`](Buffers::analyse_magnitudes) they also hold the track's curves, which a repair mends. Then the new grid
/// comes from the mended curves, and equals that of a full run on the new rows, bit for bit:
///
/// ```
/// # use prohunsev::*;
/// let (rows, rate, opts) = (2_000, 48_000, TempoOpts::new());
/// let mut magnitudes: Vec<f32> = (0..rows).map(|t| if t % 94 == 5 { 1.0 } else { 0.0 }).collect();
/// let (mut buffers, mut other) = (Buffers::for_tracks(rows, rate, opts)?, Buffers::for_tracks(rows, rate, opts)?);
/// buffers.analyse_magnitudes(&magnitudes, rows, 1, rate, opts)?;
/// buffers.patch_magnitudes(&mut magnitudes, rows, 1, 500, &[0.5; 300])?; // rows 500 to 799 are new
/// let repaired = buffers.analyse_patched()?;
/// assert_eq!(repaired, other.analyse_magnitudes(&magnitudes, rows, 1, rate, opts)?);
/// assert_eq!((buffers.flux(), buffers.threshold()), (other.flux(), other.threshold()));
/// # Ok::<(), Refused>(())
/// ```
#[derive(Clone, PartialEq)]
pub struct Buffers {
    room: rooms::Track,
    flux: Vec<f64>,
    lists: Lists,
    last: Option<Last>,
}

impl fmt::Debug for Buffers {
    fn fmt(&self, f: &mut fmt::Formatter<'_>) -> fmt::Result {
        let analysed = self.last.map(|last| last.rows);
        f.debug_struct("Buffers").field("room", &self.room).field("rows_analysed", &analysed).finish_non_exhaustive()
    }
}

// what an envelope needs; apart from the flux, which is one
#[derive(Clone, PartialEq)]
struct Lists {
    threshold: Vec<f64>,
    onsets: Vec<u32>,
    clarity: Vec<f64>,
    weight: Vec<f64>,
    window_clarity: Vec<f64>,
    window_weight: Vec<f64>,
    score: Vec<f64>,
    back: Vec<u32>,
    beats: Vec<u32>,
    downbeats: Vec<u32>,
    work: Vec<f64>,
}

// the track that was answered last, whose curves and lists the buffers hold
#[derive(Clone, Copy, PartialEq)]
struct Last {
    rows: usize,
    // None for an envelope, which stays the caller's
    bins: Option<usize>,
    rate: u32,
    opts: TempoOpts,
    // None from a patch on until the mended curves are analysed
    answer: Option<Answer>,
}

#[derive(Clone, Copy, PartialEq)]
struct Answer {
    estimate: TempoEstimate,
    stability: Option<Stability>,
    onsets: usize,
    beats: usize,
    downbeats: usize,
}

// the numbers that an answer goes into
#[derive(Default)]
struct Told {
    onsets: usize,
    found: u32,
    bpm: f64,
    clarity: f64,
    lags: [usize; 3],
    saliences: [f64; 3],
    count: usize,
    steady: u32,
    fraction: f64,
    agreeing: usize,
    windows: usize,
    beats: usize,
    downbeats: usize,
}

impl Told {
    fn answer(self) -> Answer {
        let Told { bpm, clarity, fraction, agreeing, windows, onsets, beats, downbeats, .. } = self;
        let tempo = (self.found != 0).then_some(Tempo { bpm, clarity });
        Answer {
            estimate: TempoEstimate::of(tempo, self.lags, self.saliences, self.count),
            stability: (self.steady != 0).then_some(Stability { fraction, agreeing, windows }),
            onsets,
            beats,
            downbeats,
        }
    }
}

// one of the two exported functions, handed its own input first, and then what both are lent
macro_rules! analyse {
    ($function:ident, $lists:expr, $($input:expr),*) => {{
        let (lists, mut told) = ($lists, Told::default());
        // SAFETY: the pointers and lengths are those of borrowed slices, of the buffers' own and of locals (the reason in lib.rs)
        let number = unsafe {
            ffi::$function(
                $($input,)*
                lists.threshold.as_mut_ptr(),
                lists.threshold.len(),
                lists.onsets.as_mut_ptr(),
                lists.onsets.len(),
                lists.clarity.as_mut_ptr(),
                lists.clarity.len(),
                lists.weight.as_mut_ptr(),
                lists.weight.len(),
                lists.window_clarity.as_mut_ptr(),
                lists.window_clarity.len(),
                lists.window_weight.as_mut_ptr(),
                lists.window_weight.len(),
                lists.score.as_mut_ptr(),
                lists.score.len(),
                lists.back.as_mut_ptr(),
                lists.back.len(),
                lists.beats.as_mut_ptr(),
                lists.beats.len(),
                lists.downbeats.as_mut_ptr(),
                lists.downbeats.len(),
                lists.work.as_mut_ptr(),
                lists.work.len(),
                &mut told.onsets,
                &mut told.found,
                &mut told.bpm,
                &mut told.clarity,
                &mut told.lags,
                &mut told.saliences,
                &mut told.count,
                &mut told.steady,
                &mut told.fraction,
                &mut told.agreeing,
                &mut told.windows,
                &mut told.beats,
                &mut told.downbeats,
            )
        };
        (number, told)
    }};
}

impl Buffers {
    /// Buffers for tracks of at most so many rows at this rate and with these options. Refuses as [`rooms::Track::of`] does.
    ///
    /// ```
    /// # use prohunsev::*;
    /// let refused = Buffers::for_tracks(5, 0, TempoOpts::new()).unwrap_err();
    /// assert_eq!(refused.to_string(), "Buffers::for_tracks refused with 1: rate 0, 1 to 192,000");
    /// ```
    pub fn for_tracks(rows: usize, rate: u32, opts: TempoOpts) -> Result<Buffers, Refused> {
        let room = rooms::Track::of(rows, rate, opts).map_err(|refused| refused.of_call("Buffers::for_tracks"))?;
        Buffers::with_room(room)
    }

    /// Buffers of this room, at most 43,743,040 bytes. Refuses [`OutOfBounds`](Refusal::OutOfBounds) for more than any track can use:
    /// rows above 1,048,576, lags or sorting above 45,000.
    ///
    /// ```
    /// # use prohunsev::*;
    /// let room = rooms::Track { rows: usize::MAX, lags: 338, sorting: 338 };
    /// assert_eq!(Buffers::with_room(room).unwrap_err(), Refusal::OutOfBounds);
    /// ```
    pub fn with_room(room: rooms::Track) -> Result<Buffers, Refused> {
        let (rows, lags) = (limits::MOST_ROWS, limits::MOST_PERIOD);
        for (name, is, most) in [("rows", room.rows, rows), ("lags", room.lags, lags), ("sorting", room.sorting, lags)]
        {
            if is > most {
                let detail = Detail::Number { name, is: is as u64, least: 0, most: most as u64 };
                return Err(Refused::of("with_room", Refusal::OutOfBounds, detail));
            }
        }
        let (rows, lags) = (|| vec![0.0; room.rows], || vec![0.0; room.lags]);
        let frames = || vec![0; room.rows];
        Ok(Buffers {
            room,
            flux: rows(),
            lists: Lists {
                threshold: rows(),
                onsets: frames(),
                clarity: lags(),
                weight: lags(),
                window_clarity: lags(),
                window_weight: lags(),
                score: rows(),
                back: frames(),
                beats: frames(),
                downbeats: frames(),
                work: vec![0.0; room.sorting],
            },
            last: None,
        })
    }

    /// The room that these buffers have.
    pub fn room(&self) -> rooms::Track {
        self.room
    }

    /// Analyses a track from its envelope, one slot a frame.
    ///
    /// Refuses [`OutOfBounds`](Refusal::OutOfBounds) (the length, the rate, the meter),
    /// [`TooLittleRoom`](Refusal::TooLittleRoom), and [`WrongValue`](Refusal::WrongValue) (an envelope value).
    pub fn analyse_envelope(&mut self, envelope: &[f64], rate: u32, opts: TempoOpts) -> Result<Analysis<'_>, Refused> {
        let rows = envelope.len();
        let TempoOpts { min_bpm, max_bpm, meter } = opts;
        let input = envelope.as_ptr();
        let (number, told) = analyse!(ph_analyse_envelope, &mut self.lists, input, rows, rate, min_bpm, max_bpm, meter);
        Refused::unless_answered("analyse_envelope", number, |why| {
            let (of_rows, of_lags) = self.lists.lent();
            why.frames("envelope", rows)
                .rate(rate)
                .meter(opts)
                .track((rows, rate, opts), &of_rows, &of_lags, self.lists.work.len())
                .values("envelope", envelope)
        })?;
        Ok(self.answered(Last { rows, bins: None, rate, opts, answer: None }, told.answer()))
    }

    /// Analyses a track from its magnitudes, `rows` rows of `bins` values. The buffers then hold its curves.
    ///
    /// Refuses [`OutOfBounds`](Refusal::OutOfBounds) (rows, bins, the rate, the meter),
    /// [`WrongLength`](Refusal::WrongLength), [`TooLittleRoom`](Refusal::TooLittleRoom), and [`WrongValue`](Refusal::WrongValue) (a
    /// magnitude).
    pub fn analyse_magnitudes(
        &mut self,
        magnitudes: &[f32],
        rows: usize,
        bins: usize,
        rate: u32,
        opts: TempoOpts,
    ) -> Result<Analysis<'_>, Refused> {
        let (number, told) = analyse!(
            ph_analyse_magnitudes,
            &mut self.lists,
            magnitudes.as_ptr(),
            magnitudes.len(),
            rows,
            bins,
            rate,
            opts.min_bpm,
            opts.max_bpm,
            opts.meter,
            self.flux.as_mut_ptr(),
            self.flux.len()
        );
        Refused::unless_answered("analyse_magnitudes", number, |why| {
            let (of_rows, of_lags) = self.lists.lent();
            why.magnitude_rows("magnitudes", magnitudes.len(), rows, bins)
                .rate(rate)
                .meter(opts)
                .track((rows, rate, opts), &[("flux", self.flux.len())], &[], usize::MAX)
                .track((rows, rate, opts), &of_rows, &of_lags, self.lists.work.len())
                .magnitudes("magnitudes", magnitudes)
        })?;
        Ok(self.answered(Last { rows, bins: Some(bins), rate, opts, answer: None }, told.answer()))
    }

    /// Replaces rows of the magnitudes that were analysed last, from row `start` on, and mends the buffers' flux and threshold: they are
    /// then, bit for bit, those of a full run on the edited rows. The lists and lag curves are not; [`analyse_patched`] makes them anew.
    ///
    /// `magnitudes` are those that were lent to [`analyse_magnitudes`](Buffers::analyse_magnitudes), or as patches of these buffers left
    /// them: other values of the same shape are not noticed, and the curves are then of no track. Any number of patches may follow one
    /// another. Refuses [`WrongLength`](Refusal::WrongLength) where the last analysis was of other rows or bins, of an envelope, or none,
    /// and else as [`patch_magnitudes`] does; a refused patch changes nothing, and an empty one neither.
    ///
    /// [`analyse_patched`]: Buffers::analyse_patched
    pub fn patch_magnitudes(
        &mut self,
        magnitudes: &mut [f32],
        rows: usize,
        bins: usize,
        start: usize,
        new_rows: &[f32],
    ) -> Result<Patched, Refused> {
        let wrong = |detail| Err(Refused::of("patch_magnitudes", Refusal::WrongLength, detail));
        let Some(Last { rows: last_rows, bins: Some(last_bins), .. }) = self.last else {
            return wrong(Detail::NoRows);
        };
        if (rows, bins) != (last_rows, last_bins) {
            return wrong(Detail::Analysed { rows, bins, last: (last_rows, last_bins) });
        }
        let (flux, threshold) = (&mut self.flux[..rows], &mut self.lists.threshold[..rows]);
        let patched = patch_magnitudes(magnitudes, rows, bins, start, new_rows, flux, threshold, &mut self.lists.work)?;
        if !new_rows.is_empty() {
            self.last = self.last.map(|last| Last { answer: None, ..last });
        }
        Ok(patched)
    }

    /// Analyses the mended curves: onsets, tempo, stability, beats and downbeats at the rate and with the options of the last analysis, as
    /// [`analyse_magnitudes`](Buffers::analyse_magnitudes) gives them for the edited rows, bit for bit. Neither flux nor threshold is
    /// computed again.
    ///
    /// These are the calls that one analysis is defined by, made in turn: [`pick_onsets`], [`estimate`], [`stability_of`], [`beat_grid`],
    /// [`downbeats`]. Refuses [`WrongLength`](Refusal::WrongLength) where no magnitudes have been analysed, or an envelope since.
    pub fn analyse_patched(&mut self) -> Result<Analysis<'_>, Refused> {
        const CALL: &str = "analyse_patched";
        let Some(last @ Last { rows, bins: Some(_), rate, opts, .. }) = self.last else {
            return Err(Refused::of(CALL, Refusal::WrongLength, Detail::NoRows));
        };
        self.last = Some(Last { answer: None, ..last });
        let (flux, lists) = (&self.flux[..rows], &mut self.lists);
        // none of these refuses: the analysis before had the same rate, options and room, and the curves are of rows that were taken
        let answer = (|| {
            let onsets = pick_onsets(flux, &lists.threshold[..rows], rate, &mut lists.onsets)?;
            let found = estimate(flux, onsets, rate, opts, &mut lists.clarity, &mut lists.weight, &mut lists.work)?;
            // no tempo is lag 0, which has no stability and no beats
            let lag = found.lag().unwrap_or(0);
            let (clarity, weight) = (&mut lists.window_clarity, &mut lists.window_weight);
            let stability = stability_of(flux, rate, opts, lag, clarity, weight, &mut lists.work)?;
            let beats = beat_grid(flux, lag, &mut lists.score, &mut lists.back, &mut lists.beats)?;
            let downbeats = downbeats(flux, &lists.beats[..beats], opts, &mut lists.downbeats)?;
            Ok(Answer { estimate: found, stability, onsets, beats, downbeats })
        })();
        let answer = answer.map_err(|refused: Refused| refused.of_call(CALL))?;
        Ok(self.answered(last, answer))
    }

    fn answered(&mut self, last: Last, answer: Answer) -> Analysis<'_> {
        self.last = Some(Last { answer: Some(answer), ..last });
        self.lists.analysis(answer)
    }

    /// The last analysis once more, so that it can be read beside the curves. `None` before the first, and after a patch until
    /// [`analyse_patched`](Buffers::analyse_patched).
    pub fn analysis(&self) -> Option<Analysis<'_>> {
        Some(self.lists.analysis(self.last?.answer?))
    }

    /// The flux of the magnitudes that were analysed last, a slot a row, as patches mended it. Empty after an envelope, which is one.
    pub fn flux(&self) -> &[f64] {
        self.last.filter(|last| last.bins.is_some()).map_or(&[], |last| &self.flux[..last.rows])
    }

    /// The threshold of what was analysed last, a slot a row or slot of the envelope, as patches mended it.
    pub fn threshold(&self) -> &[f64] {
        self.last.map_or(&[], |last| &self.lists.threshold[..last.rows])
    }

    /// The lags of the last analysis: slot k of [`clarity`](Buffers::clarity) and [`weight`](Buffers::weight) is that of `min_lag + k`.
    pub fn lags(&self) -> Option<LagRange> {
        self.last.and_then(|last| lag_range(last.rate, last.opts).ok())
    }

    /// How clearly the track repeats at each lag. Empty where the last analysis found no tempo, and after a patch until
    /// [`analyse_patched`](Buffers::analyse_patched).
    pub fn clarity(&self) -> &[f64] {
        self.lag_curve(&self.lists.clarity)
    }

    /// The weight of each lag, by which the tempo was chosen. Empty where [`clarity`](Buffers::clarity) is.
    pub fn weight(&self) -> &[f64] {
        self.lag_curve(&self.lists.weight)
    }

    // without a tempo the slots may be of an earlier track
    fn lag_curve<'a>(&self, curve: &'a [f64]) -> &'a [f64] {
        let found = self.analysis().is_some_and(|track| track.tempo.is_some());
        self.lags().filter(|_| found).map_or(&[], |range| &curve[..range.lags()])
    }
}

impl Lists {
    // the slices of a row and of a lag, by name and length
    fn lent(&self) -> ([Named; 6], [Named; 4]) {
        (
            [
                ("threshold", self.threshold.len()),
                ("onsets", self.onsets.len()),
                ("score", self.score.len()),
                ("back", self.back.len()),
                ("beats", self.beats.len()),
                ("downbeats", self.downbeats.len()),
            ],
            [
                ("clarity", self.clarity.len()),
                ("weight", self.weight.len()),
                ("window_clarity", self.window_clarity.len()),
                ("window_weight", self.window_weight.len()),
            ],
        )
    }

    fn analysis(&self, answer: Answer) -> Analysis<'_> {
        Analysis {
            tempo: answer.estimate.tempo,
            stability: answer.stability,
            onsets: &self.onsets[..answer.onsets],
            beats: &self.beats[..answer.beats],
            downbeats: &self.downbeats[..answer.downbeats],
            estimate: answer.estimate,
        }
    }
}
