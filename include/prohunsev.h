/* prohunsev.h: the rhythm of a track, proved, for C99 and C++.
 *
 * Each function is named ph_ and the name of the proved call behind it, and does what that call promises: crates/capi holds the
 * statements, docs/PROMISES.md says what they mean. What follows are the rules that all of them share.
 *
 * Numbers of refusal. Every function but ph_version returns one of these; each has a name below. Of 1 to 4 the lowest that applies is given; the
 * functions of files have an order of their own, which their comments say:
 *   0  answered ("no tempo" and "no stability" are answers)
 *   1  a number is out of bounds: a rate outside 1 to 192,000, more than 1,048,576 magnitude rows or slots of an input that is an envelope,
 *      a flux or the curve of ph_suppress_close_peaks, bins outside 1 to 4,096, more than 50,000 feature rows or slots of ph_boundaries'
 *      novelty, a feature length outside 1 to 2^31, a count of feature rows other than samples over length, rounded up, a period or whole lag
 *      above 45,000, a meter outside 1 to 16, a patch whose start is above its row count, a frame above 1,048,575, a listed row of 50,000 and
 *      above in ph_boundary_times, a peak list that doesn't ascend strictly or points past its curve, or the median of nothing
 *   2  the length of an input isn't rows times width, a threshold isn't as long as its flux, however long it is, or a patch isn't whole rows
 *      or runs past the end
 *   3  too little room: an output or a work slice is shorter than its formula
 *   4  a value isn't finite or is too large: above 2^126 in size for magnitudes, above 2^150 for envelopes, curves, medians and
 *      features, and outside -1 to 1 for a similarity; samples may have any finite size, and ph_feature_rows takes no magnitude below 0
 *   6  of a tempo track's beats there are fewer than two, or they don't ascend strictly
 *   7  from one beat to the next are more than 16,777,215 microseconds, the longest tempo that three bytes hold
 *   8  a file isn't of the one shape that ph_write_tempo_track writes, or has a tempo of 0
 *   9  a line of a label track, or a cue chunk, isn't of the one form that ph_write_labels and ph_write_cues write
 *   10 a time of a label track at its rate, or an offset of a cue chunk, is no listed frame's
 *   11 frames that are lent, or those of a label track or a cue chunk, don't ascend strictly
 * 5 is of the reporting program alone: a malformed header.
 * A refusal changes nothing that was lent: no slot of a slice, and none of the numbers that an answer would go into.
 *
 * Slices. A slice is a pointer and a length in slots, one behind the other: `const double *flux, size_t flux_len`. An output
 * or work slice may be longer than its formula; slots behind it are neither read nor written. A pointer to a single number, and an array of
 * three, has no length, and is never null. What a pointer must be: aligned for its type; good for its length; and what a function writes
 * must overlap nothing else that is lent to the same call. C cannot check this and neither does the library: the proofs hold of callers that
 * keep it, and that lend no null.
 *
 * Empty slices. Null with length 0 is taken as an empty slice, as an empty std::vector's data() may give it. This is tried, for every slice
 * of every function (tests/c/empty.c), and not proved: the proofs speak of pointers that are not null. The compiler is told of none that it
 * isn't null, and a slice of length 0 isn't read. Who wants to stand on the proofs alone lends the address of any variable of the slot's
 * type. Null with another length is a fault, as with any pointer that isn't good for its length.
 *
 * Room, in slots. N is the number of magnitude rows or the length of an envelope, F the number of feature rows, L = max_lag - min_lag
 * + 1 by ph_lag_range (338 at 48,000 samples a second and 30 to 300 bpm):
 *   N       flux, threshold, onset frames, score, back links, beats
 *   L       each lag curve, and the work slice beside it
 *   16 F    features
 *   17 F    similarity (row i with row i + d stands in slot 17 i + d, for d from 0 to 16)
 *   F       novelty, boundary rows, and the work slice beside them
 *   one for each entry: suppressed peaks, times, downbeats; a median's work slice
 *   min(21, N)  the work slice of a threshold
 *   a whole track at once: what ph_room_of answers
 *   26 + 7 (k - 1) bytes for the tempo track of k beats, and one slot for each gap that is read of one
 *   12 + 24 k bytes for the cue chunk of k frames; for their label track what ph_labels_room answers, 2 d + 21 bytes for a frame whose time has
 *   d digits of seconds, 39 at most; and one slot for each frame that is read of one
 * Work slices hold anything after an answer, in the slots of their formula, unless the function's own comment says more;
 * ph_stability_of treats its lag curves the same way. Lists have their entries first, as many as the count says. All other slots stay
 * as they were.
 *
 * Threads. Nothing is allocated, nothing is kept from call to call, and there is no global state: any number of threads may call any
 * of these at the same time, each with slices and numbers of its own to write into; what is only read may be shared. Every call ends.
 *
 * Stack. A call takes up to 40 KB of its thread's stack on x86-64; none recurses but the two that write labels, a step for each digit of a time's
 * seconds, nine at most. Measured on a thread's stack filled with a pattern, 34,112 bytes in ph_analyse_magnitudes, the most (docs/ROOM.md).
 *
 * Times. A magnitude row is a frame: 1,024 samples, 256 after the one before it. Frame t's centre is at (256 t + 512) / rate seconds.
 * A feature row has 16 values and is `length` samples long. Beats and lags are counted in frames. The feature transform has rows of its own: 4,096
 * samples, 1,024 after the one before it, centred at (1,024 t + 2,048) / rate seconds, and 2,049 bins, of which bin k stands at k rate / 4,096 Hz.
 *
 * Linking. `tools/library` makes lib/libprohunsev.a and lib/libprohunsev.so for this processor, `tools/library PREFIX` installs them with
 * this header and a file for pkg-config. The library needs memcpy and memset of libc, and nothing else. examples/c/tag.c has a command line.
 *
 * Versions. PROHUNSEV_VERSION is the version of this header, ph_version() that of the library linked: compare them once, where a program
 * begins, since a library of another version may have other parameters under the same names.
 */
#ifndef PROHUNSEV_H
#define PROHUNSEV_H

#include <stddef.h>
#include <stdint.h>

#ifdef __cplusplus
extern "C" {
#endif

/* ---- the version, the numbers of refusal and the limits, each as the library has it (tools/header holds them to the source) */

/* major * 1,000,000 + minor * 1,000 + patch: 0.2.0 */
#define PROHUNSEV_VERSION 2000u

/* what a function returns */
#define PROHUNSEV_ANSWERED 0u
#define PROHUNSEV_OUT_OF_BOUNDS 1u
#define PROHUNSEV_WRONG_LENGTH 2u
#define PROHUNSEV_TOO_LITTLE_ROOM 3u
#define PROHUNSEV_WRONG_VALUE 4u
#define PROHUNSEV_WRONG_GRID 6u
#define PROHUNSEV_GAP_TOO_LONG 7u
#define PROHUNSEV_OTHER_SHAPE 8u
#define PROHUNSEV_NOT_OF_THIS_FORM 9u
#define PROHUNSEV_NO_LISTED_FRAME 10u
#define PROHUNSEV_NOT_ASCENDING 11u

/* what ph_beat_grid writes in `back` for a frame with no beat before it */
#define PROHUNSEV_NO_LINK 4294967295u

/* samples of a frame, and from one frame to the next */
#define PROHUNSEV_FRAME 1024u
#define PROHUNSEV_HOP 256u
/* samples of a row of the feature transform, from one to the next, and its bins */
#define PROHUNSEV_FEATURE_FRAME 4096u
#define PROHUNSEV_FEATURE_HOP 1024u
#define PROHUNSEV_FEATURE_BINS 2049u
/* values of a feature row, and similarity slots of one: a row with itself and with the sixteen after it */
#define PROHUNSEV_FEATURE_WIDTH 16u
#define PROHUNSEV_SIMILARITY_WIDTH 17u
/* the most that is taken: samples a second (the least is 1), magnitude rows or slots, bins (the least is 1), a listed frame, a period or
 * lag in frames, feature rows, samples of a feature row (the least is 1, the most 2^31) */
#define PROHUNSEV_MOST_RATE 192000u
#define PROHUNSEV_MOST_ROWS 1048576u
#define PROHUNSEV_MOST_BINS 4096u
#define PROHUNSEV_MOST_FRAME 1048575u
#define PROHUNSEV_MOST_PERIOD 45000u
#define PROHUNSEV_MOST_FEATURE_ROWS 50000u
#define PROHUNSEV_MOST_FEATURE_LENGTH 2147483648u
/* the largest size of a magnitude, 2^126, and of a value of an envelope, curve, median or feature row, 2^150 */
#define PROHUNSEV_MOST_MAGNITUDE 85070591730234615865843651857942052864.0f
#define PROHUNSEV_MOST_VALUE 1427247692705959881058285969449495136382746624.0
/* the usual bounds of a tempo, in beats a minute: min_bpm and max_bpm; INFINITY (math.h) as max_bpm is no upper limit, and -INFINITY as
 * min_bpm, or anything up to 1, is 1, the least there is */
#define PROHUNSEV_MIN_BPM 30.0
#define PROHUNSEV_MAX_BPM 300.0
/* the usual beats of a bar, meter, and the most (the least is 1): 3 is a waltz's */
#define PROHUNSEV_DEFAULT_METER 4u
#define PROHUNSEV_MOST_METER 16u
/* the longest gap of a tempo track, in microseconds (the least is 1) */
#define PROHUNSEV_MOST_TEMPO 16777215u

/* The version of the library that is linked, as PROHUNSEV_VERSION is written: where the two differ, this header is not the library's.
 * Room: none.
 * Refuses nothing: what it returns is no number of refusal. */
uint32_t ph_version(void);

/* ---- medians */

/* The median of values by IEEE 754's total order: the entry at length div 2 once they are sorted, so the upper middle of an even length.
 * Room: values_len slots of work, which then hold anything.
 * Refuses 1 for no values, 3, and 4 for a value above 2^150 in size or not finite. */
uint32_t ph_median_of(const double *values, size_t values_len, double *work, size_t work_len, double *median);

/* The median of the distances |value - median| from a given median.
 * Room: values_len slots of work, which then hold anything.
 * Refuses 1 for no values, 3, and 4 for a value or a median above 2^150 in size or not finite. */
uint32_t ph_mad_of(const double *values, size_t values_len, double median, double *work, size_t work_len, double *mad);

/* ---- onsets */

/* Onset strength: flux[t] is how much row t of the magnitudes rises over row t - 1, summed over the bins; flux[0] is 0.
 * Room: rows slots of flux.
 * Refuses 1 for rows or bins, 2 where there aren't rows times bins magnitudes, 3, and 4 for a magnitude above 2^126 in size or not finite. */
uint32_t ph_spectral_flux(const float *magnitudes, size_t magnitudes_len, size_t rows, size_t bins, double *flux, size_t flux_len);

/* What a flux must exceed to be an onset: the median of the slots from t - 10 to t + 10, eight times their median distance from it, and 0.000001.
 * Room: flux_len slots of threshold, and min(21, flux_len) of work, which then hold anything.
 * Refuses 1 for the length of flux, 3, and 4 for a flux value above 2^150 in size or not finite. */
uint32_t ph_adaptive_threshold(const double *flux, size_t flux_len, double *threshold, size_t threshold_len, double *work, size_t work_len);

/* Lists the frames of the onsets, ascending: peaks of the flux above its threshold, the best of each group (30 ms, at least a frame); *count.
 * Room: flux_len slots of frames.
 * Refuses 1 for more than 1,048,576 slots of flux or the rate, 2 for a threshold of another length, however long, 3, and 4 for a value of either. */
uint32_t ph_pick_onsets(const double *flux, size_t flux_len, const double *threshold, size_t threshold_len, uint32_t rate,
                        uint32_t *frames, size_t frames_len, size_t *count);

/* Lists the best peak of each group, ascending; a peak joins a group while it is at most gap slots past its best so far; *count of them.
 * Room: peaks_len slots of frames.
 * Refuses 1 for more than 1,048,576 slots of curve, or peaks that don't ascend strictly or point past it, 3, and 4 for a value of the curve. */
uint32_t ph_suppress_close_peaks(const uint32_t *peaks, size_t peaks_len, const double *curve, size_t curve_len, size_t gap,
                                 uint32_t *frames, size_t frames_len, size_t *count);

/* The time of each frame's centre in milliseconds, in the frames' order, which need not ascend.
 * Room: frames_len slots of ms.
 * Refuses 1 for the rate or a frame above 1,048,575, and 3. */
uint32_t ph_frame_times(const uint32_t *frames, size_t frames_len, uint32_t rate, double *ms, size_t ms_len);

/* ---- tempo */

/* The lags, in frames, of the fastest and the slowest tempo that two bounds in beats a minute allow; reversed bounds are swapped.
 * *min_lag is at least 1, *max_lag at least one more and at most 45,000. The usual bounds are 30 and 300.
 * Bounds, here and in every function below that takes them, are any two doubles, and none is refused. INFINITY as max_bpm means no upper
 * limit, -INFINITY as min_bpm, or anything up to 1, down to 1 beat a minute, the least there is; INFINITY as both gives the lags 1 and 2.
 * The rule: unless min_bpm <= max_bpm they swap, so a NaN swaps them; then the lower is 1 where it is a NaN or less, and the upper is the
 * lower + 1 where it is a NaN or less. So a NaN is not an open bound: NAN and 300 mean 300 to 301.
 * The meter, beats in a bar, stands behind the bounds in every function that takes them, since the three are one record, the options of a
 * search; 4 is the usual. Each of these functions refuses a meter outside 1 to 16, and the downbeats alone are chosen by it.
 * Refuses 1 for the rate or the meter. */
uint32_t ph_lag_range(uint32_t rate, double min_bpm, double max_bpm, size_t meter, size_t *min_lag, size_t *max_lag);

/* The tempo of an envelope with this many onsets. With a tempo: *found is 1, *bpm and *clarity are its, and lags and saliences begin with
 * *count candidates, 1 to 3, the winner first, the slots behind them 0. Without a tempo: *found, *bpm, *clarity, *count and all slots are 0.
 * Room: L slots each of clarity_curve and weight_curve, which then hold the lag curves (unchanged where the envelope is too short, has fewer
 * than two onsets or is flat), and of work, unchanged.
 * Refuses 1 for the length, the rate or the meter, 3, and 4 for a value. */
uint32_t ph_estimate(const double *envelope, size_t envelope_len, size_t onsets, uint32_t rate, double min_bpm, double max_bpm, size_t meter,
                     double *clarity_curve, size_t clarity_curve_len, double *weight_curve, size_t weight_curve_len, double *work, size_t work_len,
                     uint32_t *found, double *bpm, double *clarity, size_t lags[3], double saliences[3], size_t *count);

/* In how many of up to four windows the tempo is heard again; whole_lag is the winning candidate's lag, 0 for no tempo.
 * With a stability: *found is 1, *agreeing of *windows agree, and *fraction is *agreeing / *windows. Without one: all four numbers are 0.
 * Room: L slots each of clarity_curve, weight_curve and work, which hold anything where *found is 1 and else stay as they were.
 * Refuses 1 for the length, the rate, the meter or a lag above 45,000, 3, and 4 for a value. */
uint32_t ph_stability_of(const double *envelope, size_t envelope_len, uint32_t rate, double min_bpm, double max_bpm, size_t meter, size_t whole_lag,
                         double *clarity_curve, size_t clarity_curve_len, double *weight_curve, size_t weight_curve_len, double *work, size_t work_len,
                         uint32_t *found, double *fraction, size_t *agreeing, size_t *windows);

/* ---- beats and bars */

/* Lists the frames of the beats, about period frames apart, ascending, *count of them; none for period 0 or a flat envelope.
 * Room: envelope_len slots each of score, back (the beat before, 4,294,967,295 for none) and beats; without beats no slot is written.
 * Refuses 1 for the length or a period above 45,000, 3, and 4 for a value. */
uint32_t ph_beat_grid(const double *envelope, size_t envelope_len, size_t period, double *score, size_t score_len,
                      uint32_t *back, size_t back_len, uint32_t *beats, size_t beats_len, size_t *count);

/* Lists the first beat of each bar of `meter` beats: every meter-th beat, from the one of the first meter beats that makes their flux sum
 * greatest, the earliest of equal ones; *count of them. With 4 that is every fourth, with 3 a waltz's. The beats need not ascend. Fewer beats
 * than the meter leave phases empty: where all others' sums are negative an empty one wins, and none is listed.
 * Room: beats_len slots of frames.
 * Refuses 1 for the length of envelope, a beat above 1,048,575 or a meter outside 1 to 16, 3, and 4 for a value. */
uint32_t ph_downbeats(const double *envelope, size_t envelope_len, const uint32_t *beats, size_t beats_len, size_t meter,
                      uint32_t *frames, size_t frames_len, size_t *count);

/* Where a time lies. From the first downbeat on: *found is 1, and *bar and *beat count from 1. Before it: *found, *bar and *beat are 0.
 * The two lists hold times in the unit of `time`; any double will do in each place, in any order, and both tests have a slack of 0.000001.
 * Refuses nothing. */
uint32_t ph_bar_beat_at(double time, const double *downbeats, size_t downbeats_len, const double *beats, size_t beats_len,
                        uint32_t *found, size_t *bar, size_t *beat);

/* ---- sections */

/* Feature rows from rows of the feature transform and the samples that it was made of, for ph_similarity: of each stretch of `length` samples, the last
 * perhaps shorter, features[16 i] to features[16 i + 15]. Twelve are the sums of the magnitudes of each pitch class, C first, of the bins from 55 to
 * 5,000 Hz, over the greatest of them; three are the parts of the energy below 250 Hz, to 4,000 Hz and above; the last is the root mean square of the
 * samples. A row of the transform belongs to the feature row of its centre's time over a feature row's, rounded as floats are (a centre exactly on a
 * border may fall to the row before), and past the last one to that. Where nothing sounds from 55 to 5,000 Hz the twelve are 0, and without magnitudes
 * other than 0 the three too. No samples: a count of 0, and nothing is written.
 * Room: 16 count slots of features. Every value is one that ph_similarity takes, the first fifteen 0 to 1.
 * Refuses 1 for the rate, rows above 1,048,576, the length, and a count above 50,000 or other than samples over length, rounded up; 2 where there
 * aren't 2,049 rows magnitudes; 3; and 4 for a magnitude below 0 (-0 isn't), above 2^126 or not finite, and a sample that isn't finite. */
uint32_t ph_feature_rows(const float *magnitudes, size_t magnitudes_len, size_t rows, const float *samples, size_t samples_len, uint32_t rate,
                         uint64_t length, size_t count, double *features, size_t features_len);

/* How alike each feature row is to itself and to the sixteen rows after it, from -1 to 1; 0 past the last row and beside a row of zeros.
 * Room: 17 rows slots of similarity.
 * Refuses 1 for rows above 50,000, 2 where there aren't 16 rows feature values, 3, and 4 for a value. */
uint32_t ph_similarity(const double *features, size_t features_len, size_t rows, double *similarity, size_t similarity_len);

/* How new each row is, from the similarity of the eight rows before it and the eight from it on.
 * Room: rows slots of novelty.
 * Refuses 1 for rows above 50,000, 2 where there aren't 17 rows similarities, 3, and 4 for one outside -1 to 1. */
uint32_t ph_novelty(const double *similarity, size_t similarity_len, size_t rows, double *novelty, size_t novelty_len);

/* Lists the rows at which a section begins, ascending, *count of them, at most max(1, max_sections) - 1; *sections is how many sections they
 * make, and *confidence how far they stand out, 0 to 1. A row of features is `length` samples long.
 * Room: novelty_len slots of rows, and of work, which then hold anything; where novelty_len is below 16 work stays as it was.
 * Refuses 1 for the length of novelty, a row's length or the rate, 3, and 4 for a value. */
uint32_t ph_boundaries(const double *novelty, size_t novelty_len, uint64_t length, uint32_t rate, size_t max_sections,
                       uint32_t *rows, size_t rows_len, double *work, size_t work_len, size_t *sections, size_t *count, double *confidence);

/* The time at which each row begins in milliseconds, in the rows' order, which need not ascend.
 * Room: rows_len slots of ms.
 * Refuses 1 for a row's length, the rate or a listed row of 50,000 and above, and 3. */
uint32_t ph_boundary_times(const uint32_t *rows, size_t rows_len, uint64_t length, uint32_t rate, double *ms, size_t ms_len);

/* ---- repairs */

/* Replaces the rows from start on by the new ones, mends flux and threshold, those of the old rows, to what a full run on the edited rows
 * gives, and names the slots written, from each *_first up to and without its *_past. No new rows: nothing changes, and all four are 0.
 * Room: rows slots each of flux and threshold, and min(21, rows) of work, which then hold anything.
 * Refuses 1 for rows, bins or a start above rows, 2 for a length, 3, and 4 for a magnitude, old or new, or one of the first rows values of a curve. */
uint32_t ph_patch_magnitudes(float *magnitudes, size_t magnitudes_len, size_t rows, size_t bins, size_t start,
                             const float *new_rows, size_t new_rows_len, double *flux, size_t flux_len, double *threshold, size_t threshold_len,
                             double *work, size_t work_len,
                             size_t *flux_first, size_t *flux_past, size_t *threshold_first, size_t *threshold_past);

/* Replaces the feature rows from start on by the new ones, mends similarity and novelty, those of the old rows, to what a full run on the
 * edited rows gives, and names the slots, from each *_first up to and without its *_past. No new rows: nothing changes, and all four are 0.
 * Room: 17 rows slots of similarity and rows of novelty.
 * Refuses 1 for rows or a start above rows, 2 for a length, 3, and 4 for a feature, old or new, or a value of a curve up to its formula. */
uint32_t ph_patch_features(double *features, size_t features_len, size_t rows, size_t start, const double *new_rows, size_t new_rows_len,
                           double *similarity, size_t similarity_len, double *novelty, size_t novelty_len,
                           size_t *similarity_first, size_t *similarity_past, size_t *novelty_first, size_t *novelty_past);

/* ---- a whole track */

/* The room of a whole analysis: *row_slots each for flux, threshold, onsets, score, back, beats and downbeats, *lag_slots for each of the
 * four lag curves, *work_slots for work.
 * With exactly this room neither analysis below refuses with 3; with one slot fewer in a slice that it is lent it does, unless a lower number applies.
 * The room is the same for every meter.
 * Refuses 1 for rows above 1,048,576, the rate or the meter. */
uint32_t ph_room_of(size_t rows, uint32_t rate, double min_bpm, double max_bpm, size_t meter,
                    size_t *row_slots, size_t *lag_slots, size_t *work_slots);

/* Onsets, tempo, candidates, stability, beats and downbeats of an envelope, as the calls above give them one after the other: *found and what
 * follows it up to *count are ph_estimate's, *steady is the *found of ph_stability_of. Without a tempo there is no stability and no beat.
 * Room: by ph_room_of; with a stability window_clarity, window_weight and work then hold anything, in those slots, else only min(21, N) slots
 * of work do.
 * Refuses 1 for the length, the rate or the meter, 3, and 4 for a value; a threshold above 2^150, made from a lent envelope that large, refuses
 * nothing here. */
uint32_t ph_analyse_envelope(const double *envelope, size_t envelope_len, uint32_t rate, double min_bpm, double max_bpm, size_t meter,
                             double *threshold, size_t threshold_len, uint32_t *onsets, size_t onsets_len,
                             double *clarity_curve, size_t clarity_curve_len, double *weight_curve, size_t weight_curve_len,
                             double *window_clarity, size_t window_clarity_len, double *window_weight, size_t window_weight_len,
                             double *score, size_t score_len, uint32_t *back, size_t back_len, uint32_t *beats, size_t beats_len,
                             uint32_t *downbeats, size_t downbeats_len, double *work, size_t work_len,
                             size_t *onset_count, uint32_t *found, double *bpm, double *clarity, size_t lags[3], double saliences[3], size_t *count,
                             uint32_t *steady, double *fraction, size_t *agreeing, size_t *windows, size_t *beat_count, size_t *downbeat_count);

/* The same from magnitudes: their flux, which goes into flux, is the envelope.
 * Room: row_slots of flux, and else as ph_analyse_envelope.
 * Refuses 1 for rows, bins, the rate or the meter, 2 where there aren't rows times bins magnitudes, 3, and 4 for a magnitude. */
uint32_t ph_analyse_magnitudes(const float *magnitudes, size_t magnitudes_len, size_t rows, size_t bins, uint32_t rate,
                               double min_bpm, double max_bpm, size_t meter,
                               double *flux, size_t flux_len, double *threshold, size_t threshold_len, uint32_t *onsets, size_t onsets_len,
                               double *clarity_curve, size_t clarity_curve_len, double *weight_curve, size_t weight_curve_len,
                               double *window_clarity, size_t window_clarity_len, double *window_weight, size_t window_weight_len,
                               double *score, size_t score_len, uint32_t *back, size_t back_len, uint32_t *beats, size_t beats_len,
                               uint32_t *downbeats, size_t downbeats_len, double *work, size_t work_len,
                               size_t *onset_count, uint32_t *found, double *bpm, double *clarity, size_t lags[3], double saliences[3], size_t *count,
                               uint32_t *steady, double *fraction, size_t *agreeing, size_t *windows, size_t *beat_count, size_t *downbeat_count);

/* ---- files */

/* Writes the beats as a Standard MIDI File of tempos, for a sequencer: format 0, one track, 96 ticks a beat, and for each gap between two beats one
 * Set Tempo of so many microseconds, the first at once and the others 96 ticks apart; the track ends 96 after the last, on the last beat. A
 * beat's time is (256 t + 512) / rate seconds, exact, rounded half up to whole microseconds, and a gap is the difference of two such times, so that
 * roundings never add up. The file begins on the first beat: what comes before it in the recording isn't told. *count is how many bytes it has.
 * Room: 26 + 7 (beats_len - 1) bytes of file; those behind them stay.
 * Refuses, in this order, 1 for the rate or a beat above 1,048,575, 6 for fewer than two beats or beats that don't ascend strictly, 7 for a gap above
 * 16,777,215 microseconds, and 3. Never 8: two frames are at least 1,333 microseconds apart. */
uint32_t ph_write_tempo_track(const uint32_t *beats, size_t beats_len, uint32_t rate, uint8_t *file, size_t file_len, size_t *count);

/* Reads the gaps of such a file, in microseconds, *count of them; 60,000,000 / gap are beats a minute. A file that is read is, byte for byte, what
 * the function above writes for beats that are these gaps apart, where there are such beats.
 * Room: (file_len - 26) / 7 slots of gaps, one a gap, and none for a file of fewer than 33 bytes, which is refused; those behind them stay.
 * Refuses 8 for any other file, though a sequencer may read it: another header, format, division, length, delta or event, a status byte left out, a
 * byte more or fewer, no gap at all, a tempo of 0; and then 3. */
uint32_t ph_read_tempo_track(const uint8_t *file, size_t file_len, uint32_t *gaps, size_t gaps_len, size_t *count);

/* How many bytes ph_write_labels writes for these frames at this rate, in *count: 2 d + 21 for a frame whose time has d digits of seconds, which is
 * 23 below ten seconds and 39 at most.
 * Room: none.
 * Refuses, in this order, 1 for the rate or a frame above 1,048,575, and 11 for frames that don't ascend strictly. */
uint32_t ph_labels_room(const uint32_t *frames, size_t frames_len, uint32_t rate, size_t *count);

/* Writes the frames as an Audacity label track: for each a line of start, tab, end, tab, the word beat and a line feed. Both times are the frame's,
 * (256 t + 512) / rate seconds, exact, rounded half up to six decimals, with no needless zero in front: frame 0 at 48,000 is 0.010667. No frames are
 * no bytes. *count is how many bytes the text has.
 * Room: what ph_labels_room answers, in bytes of text; those behind them stay.
 * Refuses, in this order, 1 for the rate or a frame above 1,048,575, 11 for frames that don't ascend strictly, and 3. */
uint32_t ph_write_labels(const uint32_t *frames, size_t frames_len, uint32_t rate, uint8_t *text, size_t text_len, size_t *count);

/* Reads the frames of such a label track, *count of them. A text that is read is, byte for byte, what the function above writes for the frames read,
 * at this rate; any bytes may be lent, of any length.
 * Room: one slot of frames for each line, which has 23 bytes or more; those behind them stay.
 * Refuses, in this order and each of the whole text, 1 for the rate, 9 for a line of another form (another word, a needless zero, other than six
 * decimals, two times that differ, a carriage return, no line feed at the end), 10 for a time that is no listed frame's at this rate, or is above
 * the last one's, be its digits as many as they may, 11 for frames that don't ascend strictly, and 3. */
uint32_t ph_read_labels(const uint8_t *text, size_t text_len, uint32_t rate, uint32_t *frames, size_t frames_len, size_t *count);

/* Writes the frames as a cue chunk of a RIFF WAVE file, all numbers with the low byte first: the id `cue `, the size of what follows it, the count,
 * and for each frame 24 bytes: its name, from 1 upward, the position 256 t + 512, the chunk id `data`, two fields of 0, and the sample offset 256 t
 * + 512, a frame's centre. A chunk has no rate. It is the chunk alone: the file around it is yours, and its sizes. *count is how many bytes the
 * chunk has.
 * Room: 12 + 24 frames_len bytes of chunk; those behind them stay.
 * Refuses, in this order, 1 for a frame above 1,048,575, 11 for frames that don't ascend strictly, and 3. */
uint32_t ph_write_cues(const uint32_t *frames, size_t frames_len, uint8_t *chunk, size_t chunk_len, size_t *count);

/* Reads the frames of such a chunk, *count of them. A chunk that is read is, byte for byte, what the function above writes for the frames read; any
 * bytes may be lent, of any length.
 * Room: (chunk_len - 12) / 24 slots of frames, one a point; those behind them stay.
 * Refuses, in this order and each of the whole chunk, 9 for one of another form, though a player may read it: another id, size, count or length, a
 * name, chunk id or field that isn't as said, a position that isn't the sample offset; 10 for an offset that is no listed frame's, 11 for frames
 * that don't ascend strictly, and 3. */
uint32_t ph_read_cues(const uint8_t *chunk, size_t chunk_len, uint32_t *frames, size_t frames_len, size_t *count);

/* The cue chunk of a label track's frames, in one call and with no frames lent: what ph_write_cues writes for what ph_read_labels reads. *count is
 * how many bytes the chunk has; no labels are a chunk of count 0.
 * Room: 12 bytes of chunk and 24 for each line; those behind them stay.
 * Refuses, in this order, 1, 9, 10 and 11 as ph_read_labels does, and 3. */
uint32_t ph_labels_to_cues(const uint8_t *text, size_t text_len, uint32_t rate, uint8_t *chunk, size_t chunk_len, size_t *count);

/* The label track of a cue chunk's frames at this rate: what ph_write_labels writes for what ph_read_cues reads. *count is how many bytes the text
 * has; a chunk of count 0 is no labels. The two conversions, one after the other at the same rate, give back the same bytes.
 * Room: 2 d + 21 bytes of text for a point whose time has d digits of seconds, 39 at most; those behind them stay.
 * Refuses, in this order, 1 for the rate, 9, 10 and 11 as ph_read_cues does, and 3. */
uint32_t ph_cues_to_labels(const uint8_t *chunk, size_t chunk_len, uint32_t rate, uint8_t *text, size_t text_len, size_t *count);

#ifdef __cplusplus
}
#endif

#endif
