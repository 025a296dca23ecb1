/* Every call of include/prohunsev.h: an answer that document 01 gives, one refusal at least, and nothing written that must not be.
 *
 * Slices are lent longer than their formula and filled with a poison, so that a slot written behind its formula is seen, and so is
 * anything that a refusal changes. All of it runs in four threads at the same time, each with slices of its own.
 * Marked numbers: M1 (median), M3 and M4 (close peaks), M5, M6 and M8 (lags), M11 and M12 (beats). */
#define _POSIX_C_SOURCE 200809L
#include "prohunsev.h"

#include <math.h>
#include <pthread.h>
#include <stdio.h>
#include <stdlib.h>
#include <string.h>

enum { THREADS = 4 };

static const double POISON = -12345.5;
static const uint32_t POISON_FRAME = 0xABCDEF01u;
static const size_t POISON_SIZE = 987654321u;

/* checks that passed, a count for each thread */
struct run {
    pthread_t thread;
    long passed;
};

static void check(struct run *run, int holds, const char *what, int line)
{
    if (!holds) {
        fprintf(stderr, "tests/c/calls.c:%d: fails: %s\n", line, what);
        exit(1);
    }
    run->passed++;
}
#define CHECK(what) check(run, (what), #what, __LINE__)

static void poison(double *slots, size_t n)
{
    for (size_t i = 0; i < n; i++)
        slots[i] = POISON;
}

static void poison_frames(uint32_t *slots, size_t n)
{
    for (size_t i = 0; i < n; i++)
        slots[i] = POISON_FRAME;
}

/* whether the slots from a up to b still hold the poison */
static int kept(const double *slots, size_t a, size_t b)
{
    for (size_t i = a; i < b; i++)
        if (slots[i] != POISON)
            return 0;
    return 1;
}

static int kept_frames(const uint32_t *slots, size_t a, size_t b)
{
    for (size_t i = a; i < b; i++)
        if (slots[i] != POISON_FRAME)
            return 0;
    return 1;
}

/* whether two slices hold the same bits */
static int same(const void *a, const void *b, size_t bytes)
{
    return memcmp(a, b, bytes) == 0;
}

/* a small generator of whole numbers, for rows that need no meaning */
static uint32_t next(uint32_t *state)
{
    *state = *state * 1664525u + 1013904223u;
    return *state >> 16;
}

/* the header's constants: the version is the library's, and each limit is taken, and not what is one above it */
static void constants(struct run *run)
{
    const uint32_t last[1] = {PROHUNSEV_MOST_FRAME}, past[1] = {PROHUNSEV_MOST_FRAME + 1};
    const uint32_t last_row[1] = {PROHUNSEV_MOST_FEATURE_ROWS - 1}, past_row[1] = {PROHUNSEV_MOST_FEATURE_ROWS};
    float loud[1] = {PROHUNSEV_MOST_MAGNITUDE}, louder[1] = {nextafterf(PROHUNSEV_MOST_MAGNITUDE, INFINITY)};
    double large[1] = {PROHUNSEV_MOST_VALUE}, larger[1] = {nextafter(PROHUNSEV_MOST_VALUE, INFINITY)};
    double slot[1], work[1];
    uint32_t back[1], listed[1];
    size_t low, high, slots, count;

    CHECK(ph_version() == PROHUNSEV_VERSION);
    CHECK(ph_frame_times(last, 1, PROHUNSEV_MOST_RATE, slot, 1) == PROHUNSEV_ANSWERED);
    CHECK(ph_frame_times(past, 1, PROHUNSEV_MOST_RATE, slot, 1) == PROHUNSEV_OUT_OF_BOUNDS);
    CHECK(ph_frame_times(last, 1, PROHUNSEV_MOST_RATE + 1, slot, 1) == PROHUNSEV_OUT_OF_BOUNDS);
    CHECK(ph_frame_times(last, 1, PROHUNSEV_MOST_RATE, slot, 0) == PROHUNSEV_TOO_LITTLE_ROOM);
    CHECK(ph_frame_times(last, 1, 48000, slot, 1) == 0);
    CHECK(slot[0] == ((double)PROHUNSEV_MOST_FRAME * PROHUNSEV_HOP + PROHUNSEV_FRAME / 2.0) / 48000.0 * 1000.0);
    CHECK(ph_room_of(PROHUNSEV_MOST_ROWS, 48000, PROHUNSEV_MIN_BPM, PROHUNSEV_MAX_BPM, PROHUNSEV_DEFAULT_METER, &low, &high, &slots) == 0);
    CHECK(ph_room_of(PROHUNSEV_MOST_ROWS + 1, 48000, PROHUNSEV_MIN_BPM, PROHUNSEV_MAX_BPM, PROHUNSEV_DEFAULT_METER, &low, &high, &slots) == 1);
    CHECK(ph_spectral_flux(loud, 0, 0, PROHUNSEV_MOST_BINS, slot, 1) == 0);
    CHECK(ph_spectral_flux(loud, 0, 0, PROHUNSEV_MOST_BINS + 1, slot, 1) == 1);
    CHECK(ph_spectral_flux(loud, 1, 2, 1, slot, 1) == PROHUNSEV_WRONG_LENGTH);
    CHECK(ph_spectral_flux(loud, 1, 1, 1, slot, 1) == 0);
    CHECK(ph_spectral_flux(louder, 1, 1, 1, slot, 1) == PROHUNSEV_WRONG_VALUE);
    CHECK(ph_median_of(large, 1, work, 1, slot) == 0);
    CHECK(ph_median_of(larger, 1, work, 1, slot) == PROHUNSEV_WRONG_VALUE);
    CHECK(ph_beat_grid(large, 1, PROHUNSEV_MOST_PERIOD + 1, slot, 1, back, 1, listed, 1, &count) == 1);
    CHECK(ph_beat_grid(large, 1, PROHUNSEV_MOST_PERIOD, slot, 1, back, 1, listed, 1, &count) == 0);
    CHECK(PROHUNSEV_DEFAULT_METER == 4);
    CHECK(ph_downbeats(large, 1, last, 1, PROHUNSEV_MOST_METER, listed, 1, &count) == 0);
    CHECK(ph_downbeats(large, 1, last, 1, PROHUNSEV_MOST_METER + 1, listed, 1, &count) == PROHUNSEV_OUT_OF_BOUNDS);
    CHECK(ph_boundary_times(last_row, 1, PROHUNSEV_MOST_FEATURE_LENGTH, 48000, slot, 1) == 0);
    CHECK(ph_boundary_times(past_row, 1, PROHUNSEV_MOST_FEATURE_LENGTH, 48000, slot, 1) == 1);
    CHECK(ph_boundary_times(last_row, 1, (uint64_t)PROHUNSEV_MOST_FEATURE_LENGTH + 1, 48000, slot, 1) == 1);
}

static void medians(struct run *run)
{
    const double values[4] = {4.0, 2.0, 3.0, 1.0};
    double bad[2] = {1.0, INFINITY}, work[6], median = POISON, mad = POISON;

    poison(work, 6);
    CHECK(ph_median_of(values, 4, work, 6, &median) == 0);
    CHECK(median == 3.0); /* M1 */
    CHECK(kept(work, 4, 6));
    CHECK(ph_mad_of(values, 4, 3.0, work, 6, &mad) == 0);
    CHECK(mad == 1.0);
    CHECK(kept(work, 4, 6));

    poison(work, 6);
    median = mad = POISON;
    CHECK(ph_median_of(values, 0, work, 6, &median) == 1);
    CHECK(ph_median_of(values, 4, work, 3, &median) == 3);
    CHECK(ph_median_of(bad, 2, work, 6, &median) == 4);
    CHECK(ph_mad_of(values, 4, NAN, work, 6, &mad) == 4);
    CHECK(ph_mad_of(values, 0, NAN, work, 0, &mad) == 1);
    CHECK(median == POISON && mad == POISON && kept(work, 0, 6));
}

static void onsets(struct run *run)
{
    const float magnitudes[4] = {0.0f, 0.0f, 5.0f, 0.0f};
    const float loud[1] = {INFINITY};
    const uint32_t late[1] = {1048576};
    double flux[6], threshold[6], work[6], ms[3];
    uint32_t frames[6];
    size_t count = POISON_SIZE;

    poison(flux, 6);
    CHECK(ph_spectral_flux(magnitudes, 3, 4, 1, flux, 6) == 2);
    CHECK(ph_spectral_flux(magnitudes, 4, 4, 1, flux, 3) == 3);
    CHECK(ph_spectral_flux(loud, 1, 1, 1, flux, 6) == 4);
    CHECK(ph_spectral_flux(magnitudes, 4, 4, 0, flux, 6) == 1);
    CHECK(kept(flux, 0, 6));
    CHECK(ph_spectral_flux(magnitudes, 4, 4, 1, flux, 6) == 0);
    CHECK(flux[0] == 0.0 && flux[1] == 0.0 && flux[2] == 5.0 && flux[3] == 0.0 && kept(flux, 4, 6));

    poison(threshold, 6);
    poison(work, 6);
    CHECK(ph_adaptive_threshold(flux, 4, threshold, 6, work, 3) == 3);
    CHECK(kept(threshold, 0, 6) && kept(work, 0, 6));
    CHECK(ph_adaptive_threshold(flux, 4, threshold, 6, work, 6) == 0);
    CHECK(threshold[0] == 0.000001 && threshold[3] == 0.000001 && kept(threshold, 4, 6) && kept(work, 4, 6));

    poison_frames(frames, 6);
    CHECK(ph_pick_onsets(flux, 4, threshold, 4, 0, frames, 6, &count) == 1);
    CHECK(ph_pick_onsets(flux, 4, threshold, 3, 48000, frames, 6, &count) == 2);
    CHECK(ph_pick_onsets(flux, 4, threshold, 4, 48000, frames, 3, &count) == 3);
    CHECK(count == POISON_SIZE && kept_frames(frames, 0, 6));
    CHECK(ph_pick_onsets(flux, 4, threshold, 4, 48000, frames, 6, &count) == 0);
    CHECK(count == 1 && frames[0] == 2 && kept_frames(frames, 1, 6));

    poison(ms, 3);
    CHECK(ph_frame_times(late, 1, 48000, ms, 3) == 1);
    CHECK(ph_frame_times(frames, 1, 48000, ms, 0) == 3);
    CHECK(kept(ms, 0, 3));
    CHECK(ph_frame_times(frames, 1, 48000, ms, 3) == 0);
    CHECK(ms[0] == (2.0 * 256.0 + 512.0) / 48000.0 * 1000.0 && kept(ms, 1, 3));
}

static void close_peaks(struct run *run)
{
    const uint32_t three[3] = {10, 16, 22}, two[2] = {10, 17}, back[2] = {17, 10};
    double curve[24];
    uint32_t frames[5];
    size_t count = POISON_SIZE;

    for (size_t i = 0; i < 24; i++)
        curve[i] = 0.0;
    curve[10] = 5.0, curve[16] = 6.0, curve[17] = 5.0, curve[22] = 7.0;
    poison_frames(frames, 5);
    CHECK(ph_suppress_close_peaks(back, 2, curve, 24, 6, frames, 5, &count) == 1);
    CHECK(ph_suppress_close_peaks(three, 3, curve, 22, 6, frames, 5, &count) == 1);
    CHECK(ph_suppress_close_peaks(three, 3, curve, 24, 6, frames, 2, &count) == 3);
    CHECK(count == POISON_SIZE && kept_frames(frames, 0, 5));
    CHECK(ph_suppress_close_peaks(three, 3, curve, 24, 6, frames, 5, &count) == 0);
    CHECK(count == 1 && frames[0] == 22 && kept_frames(frames, 1, 5)); /* M4 */
    CHECK(ph_suppress_close_peaks(two, 2, curve, 24, 6, frames, 5, &count) == 0);
    CHECK(count == 2 && frames[0] == 10 && frames[1] == 17 && kept_frames(frames, 2, 5)); /* M3 */
}

static void lags(struct run *run)
{
    size_t least = POISON_SIZE, most = POISON_SIZE;

    CHECK(ph_lag_range(0, 30.0, 300.0, 4, &least, &most) == 1);
    CHECK(ph_lag_range(0, NAN, INFINITY, 4, &least, &most) == 1);
    CHECK(least == POISON_SIZE && most == POISON_SIZE);
    CHECK(ph_lag_range(48000, 30.0, 300.0, 4, &least, &most) == 0);
    CHECK(least == 38 && most == 375); /* M5 */
    CHECK(ph_lag_range(48000, 200.0, 100.0, 4, &least, &most) == 0);
    CHECK(least == 56 && most == 113); /* M6 */
    CHECK(ph_lag_range(1, 30.0, 300.0, 4, &least, &most) == 0);
    CHECK(least == 1 && most == 2); /* M8 */

    /* bounds that are not finite, and their lags by the original */
    static const struct {
        double min_bpm, max_bpm;
        size_t least, most;
    } open[] = {
        {INFINITY, INFINITY, 1, 2},          {30.0, INFINITY, 1, 375}, {INFINITY, 30.0, 1, 375}, {-INFINITY, INFINITY, 1, 11250},
        {-INFINITY, -INFINITY, 5625, 11250}, {NAN, 300.0, 37, 38},     {30.0, NAN, 375, 11250},  {NAN, NAN, 5625, 11250},
    };
    for (size_t k = 0; k < sizeof open / sizeof open[0]; k++) {
        size_t rows, lags, work;
        least = most = POISON_SIZE;
        CHECK(ph_lag_range(48000, open[k].min_bpm, open[k].max_bpm, 4, &least, &most) == 0);
        CHECK(least == open[k].least && most == open[k].most);
        CHECK(ph_room_of(9, 48000, open[k].min_bpm, open[k].max_bpm, 4, &rows, &lags, &work) == 0);
        CHECK(rows == 9 && lags == most - least + 1 && work == (lags < 9 ? 9 : lags));
    }
}

/* a click every fifty frames; at 100 frames a second that is 120 beats a minute */
static void tempo(struct run *run)
{
    enum { N = 600, RATE = 25600, L = 181 };
    double envelope[N], clarity_curve[L + 2], weight_curve[L + 2], work[L + 2], bpm = POISON, clarity = POISON, fraction = POISON;
    double saliences[3] = {POISON, POISON, POISON};
    size_t lags[3] = {POISON_SIZE, POISON_SIZE, POISON_SIZE}, count = POISON_SIZE, agreeing = POISON_SIZE, windows = POISON_SIZE;
    size_t least, most;
    uint32_t found = POISON_FRAME;

    for (size_t i = 0; i < N; i++)
        envelope[i] = i % 50 == 0 ? 1.0 : 0.0;
    CHECK(ph_lag_range(RATE, 30.0, 300.0, 4, &least, &most) == 0 && most - least + 1 == L);
    poison(clarity_curve, L + 2), poison(weight_curve, L + 2), poison(work, L + 2);

    CHECK(ph_estimate(envelope, N, 12, RATE, 30.0, 300.0, 4, clarity_curve, L, weight_curve, L - 1, work, L, &found, &bpm, &clarity, lags,
                      saliences, &count) == 3);
    /* no upper limit: lags 1 to 200, for which this is too little room */
    CHECK(ph_estimate(envelope, N, 12, RATE, 30.0, INFINITY, 4, clarity_curve, L, weight_curve, L, work, L, &found, &bpm, &clarity, lags,
                      saliences, &count) == 3);
    CHECK(ph_estimate(envelope, N, 12, 0, 30.0, INFINITY, 4, clarity_curve, L, weight_curve, L, work, L, &found, &bpm, &clarity, lags,
                      saliences, &count) == 1);
    CHECK(found == POISON_FRAME && bpm == POISON && clarity == POISON && count == POISON_SIZE);
    CHECK(lags[0] == POISON_SIZE && lags[2] == POISON_SIZE && saliences[0] == POISON && saliences[2] == POISON);
    CHECK(kept(clarity_curve, 0, L + 2) && kept(weight_curve, 0, L + 2) && kept(work, 0, L + 2));

    /* one onset is no tempo: an answer, and the curves stay */
    CHECK(ph_estimate(envelope, N, 1, RATE, 30.0, 300.0, 4, clarity_curve, L + 2, weight_curve, L + 2, work, L + 2, &found, &bpm, &clarity,
                      lags, saliences, &count) == 0);
    CHECK(found == 0 && bpm == 0.0 && clarity == 0.0 && count == 0 && lags[0] == 0 && lags[2] == 0 && saliences[0] == 0.0 && saliences[2] == 0.0);
    CHECK(kept(clarity_curve, 0, L + 2) && kept(weight_curve, 0, L + 2));

    CHECK(ph_estimate(envelope, N, 12, RATE, 30.0, 300.0, 4, clarity_curve, L + 2, weight_curve, L + 2, work, L + 2, &found, &bpm, &clarity,
                      lags, saliences, &count) == 0);
    CHECK(found == 1 && bpm == 120.0 && lags[0] == 50 && saliences[0] == clarity && 1 <= count && count <= 3);
    CHECK(clarity_curve[50 - least] == clarity && 0.9 < clarity && clarity <= 1.0);
    CHECK(kept(clarity_curve, L, L + 2) && kept(weight_curve, L, L + 2) && kept(work, 0, L + 2));

    poison(clarity_curve, L + 2), poison(weight_curve, L + 2);
    found = POISON_FRAME;
    CHECK(ph_stability_of(envelope, N, RATE, 30.0, 300.0, 4, 45001, clarity_curve, L, weight_curve, L, work, L, &found, &fraction, &agreeing, &windows) == 1);
    CHECK(ph_stability_of(envelope, N, RATE, 30.0, 300.0, 4, 50, clarity_curve, L, weight_curve, L, work, L - 1, &found, &fraction, &agreeing, &windows) == 3);
    CHECK(found == POISON_FRAME && fraction == POISON && agreeing == POISON_SIZE && windows == POISON_SIZE);
    CHECK(kept(clarity_curve, 0, L + 2) && kept(weight_curve, 0, L + 2) && kept(work, 0, L + 2));
    CHECK(ph_stability_of(envelope, N, RATE, 30.0, 300.0, 4, 0, clarity_curve, L + 2, weight_curve, L + 2, work, L + 2, &found, &fraction,
                          &agreeing, &windows) == 0);
    CHECK(found == 0 && fraction == 0.0 && agreeing == 0 && windows == 0);
    CHECK(ph_stability_of(envelope, N, RATE, 30.0, 300.0, 4, 50, clarity_curve, L + 2, weight_curve, L + 2, work, L + 2, &found, &fraction,
                          &agreeing, &windows) == 0);
    CHECK(found == 1 && windows == 2 && agreeing == 2 && fraction == 1.0);
    CHECK(kept(clarity_curve, L, L + 2) && kept(weight_curve, L, L + 2) && kept(work, L, L + 2));
}

static void beats(struct run *run)
{
    const double envelope[6] = {0.0, 4.0, 0.0, 4.0, 0.0, 4.0}, flat[4] = {4.0, 4.0, 4.0, 4.0};
    const uint32_t late[1] = {1048576};
    double score[8];
    uint32_t back[8], grid[8], frames[5];
    size_t count = POISON_SIZE;

    poison(score, 8), poison_frames(back, 8), poison_frames(grid, 8), poison_frames(frames, 5);
    CHECK(ph_beat_grid(envelope, 6, 45001, score, 8, back, 8, grid, 8, &count) == 1);
    CHECK(ph_beat_grid(envelope, 6, 2, score, 8, back, 5, grid, 8, &count) == 3);
    CHECK(count == POISON_SIZE);
    CHECK(ph_beat_grid(flat, 4, 2, score, 8, back, 8, grid, 8, &count) == 0);
    CHECK(count == 0); /* M12 */
    CHECK(kept(score, 0, 8) && kept_frames(back, 0, 8) && kept_frames(grid, 0, 8));
    CHECK(ph_beat_grid(envelope, 6, 2, score, 8, back, 8, grid, 8, &count) == 0);
    CHECK(count == 3 && grid[0] == 1 && grid[1] == 3 && grid[2] == 5); /* M11 */
    CHECK(back[1] == PROHUNSEV_NO_LINK && back[3] == 1 && back[5] == 3);
    CHECK(kept(score, 6, 8) && kept_frames(back, 6, 8) && kept_frames(grid, 3, 8));

    count = POISON_SIZE;
    CHECK(ph_downbeats(envelope, 6, late, 1, 4, frames, 5, &count) == 1);
    CHECK(ph_downbeats(envelope, 6, grid, 3, 4, frames, 2, &count) == 3);
    CHECK(count == POISON_SIZE && kept_frames(frames, 0, 5));
    CHECK(ph_downbeats(envelope, 6, grid, 3, 4, frames, 5, &count) == 0);
    CHECK(count == 1 && frames[0] == 1 && kept_frames(frames, 1, 5)); /* M11 */
}

/* a meter that is 4 where only its lower half is read */
#define FOUR_IN_FEWER_BITS (((size_t)-1 >> 1) + 5)

/* beats of a bar: the downbeats of 1 to 16 by their rule, written out; any other is refused by every call that takes the options, and a
 * refusal changes nothing */
static void meters(struct run *run)
{
    enum { BEATS = 40, RATE = 25600, L = 181 };
    static const size_t refused[] = {0, 17, 260, FOUR_IN_FEWER_BITS, (size_t)-1};
    const double bad[1] = {NAN};
    double envelope[BEATS], clarity_curve[L], weight_curve[L], work[L], bpm = POISON, clarity = POISON, fraction = POISON;
    double saliences[3] = {POISON, POISON, POISON};
    uint32_t list[BEATS], frames[BEATS + 2], found = POISON_FRAME;
    size_t lags[3] = {POISON_SIZE, POISON_SIZE, POISON_SIZE}, count = POISON_SIZE, agreeing = POISON_SIZE, windows = POISON_SIZE;
    size_t least = POISON_SIZE, most = POISON_SIZE, rows = POISON_SIZE;
    uint32_t seed = 3;

    for (size_t i = 0; i < BEATS; i++) {
        envelope[i] = (double)(next(&seed) % 5) - 1.0;
        list[i] = next(&seed) % (BEATS + 3); /* some past the envelope */
    }
    for (size_t meter = 1; meter <= PROHUNSEV_MOST_METER; meter++) {
        size_t best = 0, expected = 0;
        double greatest = -INFINITY;
        for (size_t phase = 0; phase < meter; phase++) {
            double sum = 0.0;
            for (size_t i = phase; i < BEATS; i += meter)
                sum += list[i] < BEATS ? envelope[list[i]] : 0.0;
            if (sum > greatest)
                greatest = sum, best = phase;
        }
        poison_frames(frames, BEATS + 2);
        CHECK(ph_downbeats(envelope, BEATS, list, BEATS, meter, frames, BEATS + 2, &count) == 0);
        for (size_t i = best; i < BEATS; i += meter)
            CHECK(frames[expected++] == list[i]);
        CHECK(count == expected && kept_frames(frames, expected, BEATS + 2));
        /* nothing else is chosen by it */
        CHECK(ph_lag_range(48000, 30.0, 300.0, meter, &least, &most) == 0 && least == 38 && most == 375);
        CHECK(ph_room_of(9, 48000, 30.0, 300.0, meter, &rows, &least, &most) == 0 && rows == 9 && least == 338 && most == 338);
        CHECK(ph_stability_of(envelope, BEATS, RATE, 30.0, 300.0, meter, 45000, clarity_curve, L, weight_curve, L, work, L, &found, &fraction,
                              &agreeing, &windows) == 0);
    }

    count = least = most = rows = agreeing = windows = POISON_SIZE;
    found = POISON_FRAME, fraction = POISON;
    poison(clarity_curve, L), poison(weight_curve, L), poison(work, L), poison_frames(frames, BEATS + 2);
    for (size_t k = 0; k < sizeof refused / sizeof refused[0]; k++) {
        const size_t meter = refused[k];
        CHECK(ph_downbeats(envelope, BEATS, list, BEATS, meter, frames, BEATS + 2, &count) == 1);
        CHECK(ph_downbeats(bad, 1, list, 1, meter, frames, 0, &count) == 1); /* before 3 and 4 */
        CHECK(ph_lag_range(48000, 30.0, 300.0, meter, &least, &most) == 1);
        CHECK(ph_room_of(9, 48000, 30.0, 300.0, meter, &rows, &least, &most) == 1);
        CHECK(ph_estimate(envelope, BEATS, 9, RATE, 30.0, 300.0, meter, clarity_curve, L, weight_curve, L, work, L, &found, &bpm, &clarity, lags,
                          saliences, &count) == 1);
        CHECK(ph_estimate(bad, 1, 9, RATE, 30.0, 300.0, meter, clarity_curve, 0, weight_curve, 0, work, 0, &found, &bpm, &clarity, lags,
                          saliences, &count) == 1);
        CHECK(ph_stability_of(envelope, BEATS, RATE, 30.0, 300.0, meter, 50, clarity_curve, L, weight_curve, L, work, L, &found, &fraction,
                              &agreeing, &windows) == 1);
    }
    CHECK(count == POISON_SIZE && least == POISON_SIZE && most == POISON_SIZE && rows == POISON_SIZE && agreeing == POISON_SIZE);
    CHECK(windows == POISON_SIZE && found == POISON_FRAME && bpm == POISON && clarity == POISON && fraction == POISON);
    CHECK(lags[0] == POISON_SIZE && lags[2] == POISON_SIZE && saliences[0] == POISON && saliences[2] == POISON);
    CHECK(kept(clarity_curve, 0, L) && kept(weight_curve, 0, L) && kept(work, 0, L) && kept_frames(frames, 0, BEATS + 2));
}

static void bars(struct run *run)
{
    const double downbeats[2] = {0.0, 2.0}, beat_times[6] = {0.0, 0.5, 1.0, 1.5, 2.0, 2.5};
    uint32_t found = POISON_FRAME;
    size_t bar = POISON_SIZE, beat = POISON_SIZE;

    CHECK(ph_bar_beat_at(2.5, downbeats, 2, beat_times, 6, &found, &bar, &beat) == 0);
    CHECK(found == 1 && bar == 2 && beat == 2);
    CHECK(ph_bar_beat_at(-1.0, downbeats, 2, beat_times, 6, &found, &bar, &beat) == 0);
    CHECK(found == 0 && bar == 0 && beat == 0);
    CHECK(ph_bar_beat_at(NAN, downbeats, 2, beat_times, 6, &found, &bar, &beat) == 0);
    CHECK(found == 0); /* refuses nothing */
}

/* at 20,480 samples a second bin k is at 5 k Hz: 88 is an A, 26 a C, both below 4,000 Hz */
static void feature_rows(struct run *run)
{
    enum { BINS = PROHUNSEV_FEATURE_BINS, RATE = 20480, LENGTH = 3072 };
    static const float none[1] = {0.0f};
    float *magnitudes = calloc(2 * BINS, sizeof *magnitudes), *samples = malloc((LENGTH + 1) * sizeof *samples);
    double features[34], similarity[34];

    CHECK(magnitudes && samples);
    for (size_t i = 0; i <= LENGTH; i++)
        samples[i] = i < LENGTH ? -0.5f : 3.0f;
    magnitudes[88] = 2.0f, magnitudes[BINS + 26] = 1.0f, magnitudes[BINS + 1200] = 2.0f;
    poison(features, 34);
    CHECK(ph_feature_rows(magnitudes, 2 * BINS, 2, samples, LENGTH + 1, 0, LENGTH, 2, features, 34) == 1);
    CHECK(ph_feature_rows(magnitudes, 2 * BINS, PROHUNSEV_MOST_ROWS + 1, samples, LENGTH + 1, RATE, LENGTH, 2, features, 34) == 1);
    CHECK(ph_feature_rows(magnitudes, 2 * BINS, 2, samples, LENGTH + 1, RATE, 0, 2, features, 34) == 1);
    CHECK(ph_feature_rows(magnitudes, 2 * BINS, 2, samples, LENGTH + 1, RATE, LENGTH, 1, features, 34) == 1);
    CHECK(ph_feature_rows(magnitudes, 2 * BINS, 2, samples, LENGTH, RATE, LENGTH, 2, features, 34) == 1);
    CHECK(ph_feature_rows(magnitudes, 2 * BINS - 1, 2, samples, LENGTH + 1, RATE, LENGTH, 2, features, 31) == 2);
    magnitudes[2 * BINS - 1] = -1.0f;
    CHECK(ph_feature_rows(magnitudes, 2 * BINS, 2, samples, LENGTH + 1, RATE, LENGTH, 2, features, 31) == 3);
    CHECK(ph_feature_rows(magnitudes, 2 * BINS, 2, samples, LENGTH + 1, RATE, LENGTH, 2, features, 34) == 4);
    magnitudes[2 * BINS - 1] = -0.0f; /* is not below 0 */
    samples[LENGTH] = (float)INFINITY;
    CHECK(ph_feature_rows(magnitudes, 2 * BINS, 2, samples, LENGTH + 1, RATE, LENGTH, 2, features, 34) == 4);
    samples[LENGTH] = 3.0f;
    CHECK(ph_feature_rows(none, 0, 0, none, 0, RATE, LENGTH, 0, features, 34) == 0); /* no samples: nothing is written */
    CHECK(kept(features, 0, 34));
    CHECK(ph_feature_rows(magnitudes, 2 * BINS, 2, samples, LENGTH + 1, RATE, LENGTH, 2, features, 34) == 0);
    for (size_t k = 0; k < 15; k++) {
        CHECK(features[k] == (k == 9 || k == 13 ? 1.0 : 0.0));
        CHECK(features[16 + k] == (k == 0 ? 1.0 : k == 12 ? 1.0 / 5.0 : k == 14 ? 4.0 / 5.0 : 0.0));
    }
    CHECK(features[15] == 0.5 && features[31] == 3.0 && kept(features, 32, 34));
    CHECK(ph_similarity(features, 32, 2, similarity, 34) == 0); /* every value is one that it takes */
    free(magnitudes), free(samples);
}

static void sections(struct run *run)
{
    double features[32] = {0.0}, similarity[36], novelty[34], work[34], ms[3], confidence = POISON;
    const uint32_t late[1] = {50000};
    uint32_t rows[34];
    size_t number = POISON_SIZE, count = POISON_SIZE;
    const double side = exp(-1.0 / 32.0), corner = exp(-2.0 / 32.0);

    features[0] = features[16] = 1.0;
    poison(similarity, 36), poison(novelty, 34), poison(work, 34), poison(ms, 3), poison_frames(rows, 34);
    CHECK(ph_similarity(features, 31, 2, similarity, 36) == 2);
    CHECK(ph_similarity(features, 32, 2, similarity, 33) == 3);
    CHECK(kept(similarity, 0, 36));
    CHECK(ph_similarity(features, 32, 2, similarity, 36) == 0);
    CHECK(similarity[0] == 1.0 && similarity[1] == 1.0 && similarity[2] == 0.0 && similarity[17] == 1.0 && similarity[18] == 0.0 && kept(similarity, 34, 36));

    similarity[3] = 1.5;
    CHECK(ph_novelty(similarity, 34, 2, novelty, 34) == 4);
    similarity[3] = 0.0;
    CHECK(ph_novelty(similarity, 33, 2, novelty, 34) == 2);
    CHECK(kept(novelty, 0, 34));
    CHECK(ph_novelty(similarity, 34, 2, novelty, 34) == 0);
    CHECK(fabs(novelty[0] - (1.0 + 2.0 * side + corner)) < 1e-12 && fabs(novelty[1] - (1.0 - 2.0 * side + corner)) < 1e-12 && kept(novelty, 2, 34));

    for (size_t i = 0; i < 32; i++)
        novelty[i] = i == 16 ? 1.0 : 0.0;
    CHECK(ph_boundaries(novelty, 32, 48000, 0, 8, rows, 34, work, 34, &number, &count, &confidence) == 1);
    CHECK(ph_boundaries(novelty, 32, 48000, 48000, 8, rows, 31, work, 34, &number, &count, &confidence) == 3);
    CHECK(number == POISON_SIZE && count == POISON_SIZE && confidence == POISON && kept_frames(rows, 0, 34) && kept(work, 0, 34));
    for (size_t most = 0; most < 2; most++) { /* max(1, most) - 1 boundaries */
        CHECK(ph_boundaries(novelty, 32, 48000, 48000, most, rows, 34, work, 34, &number, &count, &confidence) == 0);
        CHECK(number == 1 && count == 0 && confidence == 0.0 && kept_frames(rows, 0, 34));
    }
    CHECK(ph_boundaries(novelty, 32, 48000, 48000, 8, rows, 34, work, 34, &number, &count, &confidence) == 0);
    CHECK(number == 2 && count == 1 && rows[0] == 16 && 0.0 <= confidence && confidence <= 1.0);
    CHECK(kept_frames(rows, 1, 34) && kept(work, 32, 34));

    CHECK(ph_boundary_times(late, 1, 48000, 48000, ms, 3) == 1);
    CHECK(ph_boundary_times(rows, 1, 48000, 48000, ms, 0) == 3);
    CHECK(kept(ms, 0, 3));
    CHECK(ph_boundary_times(rows, 1, 48000, 48000, ms, 3) == 0);
    CHECK(ms[0] == 16000.0 && kept(ms, 1, 3));
}

/* a patch leaves what a full run on the edited rows gives, bit for bit */
static void row_patches(struct run *run)
{
    enum { ROWS = 30, BINS = 2 };
    float magnitudes[ROWS * BINS], before[ROWS * BINS], patch[3 * BINS];
    double flux[ROWS + 2], threshold[ROWS + 2], fresh_flux[ROWS + 2], fresh_threshold[ROWS + 2], work[23];
    size_t a = POISON_SIZE, b = POISON_SIZE, c = POISON_SIZE, d = POISON_SIZE;
    uint32_t seed = 7;

    for (size_t i = 0; i < ROWS * BINS; i++)
        magnitudes[i] = (float)(next(&seed) % 100);
    for (size_t i = 0; i < 3 * BINS; i++)
        patch[i] = (float)(next(&seed) % 100);
    poison(flux, ROWS + 2), poison(threshold, ROWS + 2), poison(fresh_flux, ROWS + 2), poison(fresh_threshold, ROWS + 2), poison(work, 23);
    CHECK(ph_spectral_flux(magnitudes, ROWS * BINS, ROWS, BINS, flux, ROWS + 2) == 0);
    CHECK(ph_adaptive_threshold(flux, ROWS, threshold, ROWS + 2, work, 23) == 0);

    memcpy(before, magnitudes, sizeof magnitudes);
    memcpy(fresh_flux, flux, sizeof flux);
    memcpy(fresh_threshold, threshold, sizeof threshold);
    poison(work, 23);
    CHECK(ph_patch_magnitudes(magnitudes, ROWS * BINS, ROWS, BINS, ROWS + 1, patch, 0, flux, ROWS + 2, threshold, ROWS + 2, work, 23, &a, &b, &c, &d) == 1);
    CHECK(ph_patch_magnitudes(magnitudes, ROWS * BINS, ROWS, BINS, 28, patch, 6, flux, ROWS + 2, threshold, ROWS + 2, work, 23, &a, &b, &c, &d) == 2);
    CHECK(ph_patch_magnitudes(magnitudes, ROWS * BINS, ROWS, BINS, 10, patch, 6, flux, ROWS + 2, threshold, ROWS - 1, work, 23, &a, &b, &c, &d) == 3);
    CHECK(a == POISON_SIZE && b == POISON_SIZE && c == POISON_SIZE && d == POISON_SIZE && kept(work, 0, 23));
    CHECK(ph_patch_magnitudes(magnitudes, ROWS * BINS, ROWS, BINS, 10, patch, 0, flux, ROWS + 2, threshold, ROWS + 2, work, 23, &a, &b, &c, &d) == 0);
    CHECK(a == 0 && b == 0 && c == 0 && d == 0 && kept(work, 0, 23));
    CHECK(same(before, magnitudes, sizeof magnitudes) && same(fresh_flux, flux, sizeof flux) && same(fresh_threshold, threshold, sizeof threshold));

    CHECK(ph_patch_magnitudes(magnitudes, ROWS * BINS, ROWS, BINS, 10, patch, 6, flux, ROWS + 2, threshold, ROWS + 2, work, 23, &a, &b, &c, &d) == 0);
    CHECK(a == 10 && b == 14 && c == 0 && d == 24 && kept(work, 21, 23));
    memcpy(before + 10 * BINS, patch, sizeof patch);
    CHECK(same(before, magnitudes, sizeof magnitudes));
    CHECK(ph_spectral_flux(magnitudes, ROWS * BINS, ROWS, BINS, fresh_flux, ROWS + 2) == 0);
    CHECK(ph_adaptive_threshold(fresh_flux, ROWS, fresh_threshold, ROWS + 2, work, 23) == 0);
    CHECK(same(fresh_flux, flux, sizeof flux) && same(fresh_threshold, threshold, sizeof threshold));
}

static void feature_patches(struct run *run)
{
    enum { ROWS = 40, WIDTH = 16, PAIRS = 17 * ROWS };
    double features[ROWS * WIDTH], before[ROWS * WIDTH], patch[2 * WIDTH];
    double similarity[PAIRS + 2], novelty[ROWS + 2], fresh_similarity[PAIRS + 2], fresh_novelty[ROWS + 2];
    size_t a = POISON_SIZE, b = POISON_SIZE, c = POISON_SIZE, d = POISON_SIZE;
    uint32_t seed = 11;

    for (size_t i = 0; i < ROWS * WIDTH; i++)
        features[i] = (double)(next(&seed) % 100) - 50.0;
    for (size_t i = 0; i < 2 * WIDTH; i++)
        patch[i] = (double)(next(&seed) % 100) - 50.0;
    poison(similarity, PAIRS + 2), poison(novelty, ROWS + 2);
    CHECK(ph_similarity(features, ROWS * WIDTH, ROWS, similarity, PAIRS + 2) == 0);
    CHECK(ph_novelty(similarity, PAIRS, ROWS, novelty, ROWS + 2) == 0);

    memcpy(before, features, sizeof features);
    memcpy(fresh_similarity, similarity, sizeof similarity);
    memcpy(fresh_novelty, novelty, sizeof novelty);
    CHECK(ph_patch_features(features, ROWS * WIDTH, ROWS, 20, patch, 17, similarity, PAIRS + 2, novelty, ROWS + 2, &a, &b, &c, &d) == 2);
    CHECK(ph_patch_features(features, ROWS * WIDTH, ROWS, 20, patch, 32, similarity, PAIRS - 1, novelty, ROWS + 2, &a, &b, &c, &d) == 3);
    CHECK(a == POISON_SIZE && b == POISON_SIZE && c == POISON_SIZE && d == POISON_SIZE);
    CHECK(same(before, features, sizeof features) && same(fresh_similarity, similarity, sizeof similarity) && same(fresh_novelty, novelty, sizeof novelty));

    CHECK(ph_patch_features(features, ROWS * WIDTH, ROWS, 20, patch, 32, similarity, PAIRS + 2, novelty, ROWS + 2, &a, &b, &c, &d) == 0);
    CHECK(a == 4 * 17 + 16 && b == 22 * 17 && c == 13 && d == 30);
    memcpy(before + 20 * WIDTH, patch, sizeof patch);
    CHECK(same(before, features, sizeof features));
    CHECK(ph_similarity(features, ROWS * WIDTH, ROWS, fresh_similarity, PAIRS + 2) == 0);
    CHECK(ph_novelty(fresh_similarity, PAIRS, ROWS, fresh_novelty, ROWS + 2) == 0);
    CHECK(same(fresh_similarity, similarity, sizeof similarity) && same(fresh_novelty, novelty, sizeof novelty));
}

/* a tempo track, its bytes made by hand from the standard */
static void files(struct run *run)
{
    static const uint8_t track[47] = {
        'M', 'T', 'h', 'd', 0, 0, 0, 6, 0, 0, 0, 1, 0, 96, 'M', 'T', 'r', 'k', 0, 0, 0, 25,
        0, 0xFF, 0x51, 3, 0x07, 0xA6, 0x55, 96, 0xFF, 0x51, 3, 0x07, 0xA6, 0x55, 96, 0xFF, 0x51, 3, 0x07, 0xA6, 0x56, 96, 0xFF, 0x2F, 0,
    };
    const uint32_t grid[4] = {0, 94, 188, 282}, equal[3] = {0, 94, 94}, back[2] = {94, 0}, past[3] = {5, 5, PROHUNSEV_MOST_FRAME + 1};
    const uint32_t longest[2] = {1, 1736}, longer[2] = {3, 1738}, halves[4] = {0, 1, 2, 3};
    uint8_t file[50], other[48];
    uint32_t gaps[5], scratch[3];
    size_t count = POISON_SIZE, scratch_count;

    /* 1, 6, 7 and then 3, and nothing is written */
    memset(file, 0xA5, sizeof file);
    CHECK(ph_write_tempo_track(past, 3, 0, file, 0, &count) == PROHUNSEV_OUT_OF_BOUNDS);
    CHECK(ph_write_tempo_track(past, 3, 48000, file, 50, &count) == PROHUNSEV_OUT_OF_BOUNDS); /* before 6 */
    CHECK(ph_write_tempo_track(grid, 4, PROHUNSEV_MOST_RATE + 1, file, 50, &count) == PROHUNSEV_OUT_OF_BOUNDS);
    CHECK(ph_write_tempo_track(grid, 0, 48000, file, 50, &count) == PROHUNSEV_WRONG_GRID);
    CHECK(ph_write_tempo_track(grid, 1, 48000, file, 50, &count) == PROHUNSEV_WRONG_GRID);
    CHECK(ph_write_tempo_track(equal + 1, 2, 48000, file, 50, &count) == PROHUNSEV_WRONG_GRID);
    CHECK(ph_write_tempo_track(equal, 3, 1, file, 50, &count) == PROHUNSEV_WRONG_GRID); /* before 7 */
    CHECK(ph_write_tempo_track(back, 2, 1, file, 0, &count) == PROHUNSEV_WRONG_GRID); /* before 3 */
    CHECK(ph_write_tempo_track(grid, 4, 1, file, 0, &count) == PROHUNSEV_GAP_TOO_LONG); /* before 3 */
    CHECK(ph_write_tempo_track(longer, 2, 26474, file, 50, &count) == PROHUNSEV_GAP_TOO_LONG);
    CHECK(ph_write_tempo_track(grid, 4, 48000, file, 46, &count) == PROHUNSEV_TOO_LITTLE_ROOM);
    CHECK(count == POISON_SIZE);
    for (size_t i = 0; i < sizeof file; i++)
        CHECK(file[i] == 0xA5);

    CHECK(ph_write_tempo_track(grid, 4, 48000, file, 47, &count) == 0); /* exactly its room, and more */
    CHECK(ph_write_tempo_track(grid, 4, 48000, file, 50, &count) == 0);
    CHECK(count == 47 && same(file, track, 47) && file[47] == 0xA5 && file[49] == 0xA5);
    /* as many frames as above, and one microsecond fewer: the roundings fall otherwise */
    CHECK(ph_write_tempo_track(longest, 2, 26474, file, 50, &count) == 0);
    CHECK(count == 33 && file[26] == 0xFF && file[27] == 0xFF && file[28] == 0xFF);
    CHECK(ph_read_tempo_track(file, 33, gaps, 1, &count) == 0 && count == 1 && gaps[0] == PROHUNSEV_MOST_TEMPO);

    poison_frames(gaps, 5);
    count = POISON_SIZE;
    CHECK(ph_read_tempo_track(track, 47, gaps, 2, &count) == PROHUNSEV_TOO_LITTLE_ROOM);
    CHECK(ph_read_tempo_track(track, 46, gaps, 0, &count) == PROHUNSEV_OTHER_SHAPE); /* before 3 */
    CHECK(ph_read_tempo_track(track, 0, gaps, 5, &count) == PROHUNSEV_OTHER_SHAPE);
    for (size_t i = 0; i < 47; i++) { /* no byte but those of a tempo may be another; a tempo of 0 may not be */
        int in_a_tempo = i >= 26 && i < 43 && (i - 22) % 7 >= 4;
        memcpy(other, track, 47);
        other[i] ^= 0x10;
        CHECK(ph_read_tempo_track(other, 47, scratch, 3, &scratch_count) == (in_a_tempo ? 0 : PROHUNSEV_OTHER_SHAPE));
    }
    memcpy(other, track, 47);
    other[47] = 0;
    CHECK(ph_read_tempo_track(other, 48, gaps, 5, &count) == PROHUNSEV_OTHER_SHAPE);
    memcpy(other + 22, track + 43, 4); /* no gap, in a track of four bytes */
    other[21] = 4;
    CHECK(ph_read_tempo_track(other, 26, gaps, 5, &count) == PROHUNSEV_OTHER_SHAPE);
    other[22] = 0;
    CHECK(ph_read_tempo_track(other, 26, gaps, 5, &count) == PROHUNSEV_OTHER_SHAPE);
    memcpy(other, track, 47);
    other[9] = 1; /* another format */
    CHECK(ph_read_tempo_track(other, 47, gaps, 0, &count) == PROHUNSEV_OTHER_SHAPE); /* before 3 */
    other[9] = 0;
    memset(other + 33, 0, 3);
    CHECK(ph_read_tempo_track(other, 47, gaps, 5, &count) == PROHUNSEV_OTHER_SHAPE);
    CHECK(count == POISON_SIZE && kept_frames(gaps, 0, 5));
    CHECK(ph_read_tempo_track(track, 47, gaps, 5, &count) == 0);
    CHECK(count == 3 && gaps[0] == 501333 && gaps[1] == 501333 && gaps[2] == 501334 && kept_frames(gaps, 3, 5));
    CHECK(ph_read_tempo_track(track, 47, gaps, 3, &count) == 0);

    /* times end in halves, which are rounded up */
    CHECK(ph_write_tempo_track(halves, 4, 32768, file, 50, &count) == 0);
    CHECK(ph_read_tempo_track(file, count, gaps, 5, &count) == 0);
    CHECK(count == 3 && gaps[0] == 7813 && gaps[1] == 7812 && gaps[2] == 7813);
    CHECK(ph_read_tempo_track(file, 33, gaps, 5, &count) == PROHUNSEV_OTHER_SHAPE);
    CHECK(PROHUNSEV_MOST_TEMPO == 0xFFFFFF);
}

/* a label track and a cue chunk of the same two frames, made by hand, and one of the other */
static void labels(struct run *run)
{
    static const char text[46] = "0.010667\t0.010667\tbeat\n0.512000\t0.512000\tbeat\n";
    static const uint8_t chunk[60] = {
        'c', 'u', 'e', ' ', 52, 0, 0, 0, 2, 0, 0, 0,
        1, 0, 0, 0, 0x00, 0x02, 0, 0, 'd', 'a', 't', 'a', 0, 0, 0, 0, 0, 0, 0, 0, 0x00, 0x02, 0, 0,
        2, 0, 0, 0, 0x00, 0x60, 0, 0, 'd', 'a', 't', 'a', 0, 0, 0, 0, 0, 0, 0, 0, 0x00, 0x60, 0, 0,
    };
    static const char end[66] = "512.000000\t512.000000\tbeat\n268435712.000000\t268435712.000000\tbeat\n";
    static const char falls[46] = "0.512000\t0.512000\tbeat\n0.010667\t0.010667\tbeat\n", none[23] = "0.512001\t0.512001\tbeat\n";
    static const char zero[25] = "00.512000\t00.512000\tbeat\n";
    const uint32_t grid[2] = {0, 94}, ends[2] = {0, PROHUNSEV_MOST_FRAME}, equal[2] = {94, 94}, past[3] = {5, 5, PROHUNSEV_MOST_FRAME + 1};
    const uint8_t *bytes = (const uint8_t *)text;
    uint8_t file[70], other[60];
    uint32_t frames[4];
    size_t count = POISON_SIZE;

    /* frames: 1, 11 and then 3; a label track: 1, 9, 10, 11 and then 3; a chunk: no rate; and nothing is written */
    memset(file, 0xA5, sizeof file);
    poison_frames(frames, 4);
    CHECK(ph_labels_room(past, 3, 48000, &count) == PROHUNSEV_OUT_OF_BOUNDS);
    CHECK(ph_labels_room(equal, 2, PROHUNSEV_MOST_RATE + 1, &count) == PROHUNSEV_OUT_OF_BOUNDS);
    CHECK(ph_labels_room(equal, 2, 48000, &count) == PROHUNSEV_NOT_ASCENDING);
    CHECK(ph_write_labels(past, 3, 48000, file, 70, &count) == PROHUNSEV_OUT_OF_BOUNDS); /* before 11 */
    CHECK(ph_write_labels(grid, 2, 0, file, 70, &count) == PROHUNSEV_OUT_OF_BOUNDS);
    CHECK(ph_write_labels(equal, 2, 48000, file, 0, &count) == PROHUNSEV_NOT_ASCENDING); /* before 3 */
    CHECK(ph_write_labels(grid, 2, 48000, file, 45, &count) == PROHUNSEV_TOO_LITTLE_ROOM);
    CHECK(ph_write_cues(past, 3, file, 70, &count) == PROHUNSEV_OUT_OF_BOUNDS);
    CHECK(ph_write_cues(equal, 2, file, 0, &count) == PROHUNSEV_NOT_ASCENDING);
    CHECK(ph_write_cues(grid, 2, file, 59, &count) == PROHUNSEV_TOO_LITTLE_ROOM);
    CHECK(ph_write_cues(grid, 0, file, 11, &count) == PROHUNSEV_TOO_LITTLE_ROOM);
    CHECK(ph_read_labels((const uint8_t *)zero, 25, 0, frames, 4, &count) == PROHUNSEV_OUT_OF_BOUNDS);
    CHECK(ph_read_labels((const uint8_t *)zero, 25, 48000, frames, 4, &count) == PROHUNSEV_NOT_OF_THIS_FORM);
    CHECK(ph_read_labels(bytes, 45, 48000, frames, 0, &count) == PROHUNSEV_NOT_OF_THIS_FORM); /* no last line feed, and before 3 */
    CHECK(ph_read_labels((const uint8_t *)none, 23, 48000, frames, 4, &count) == PROHUNSEV_NO_LISTED_FRAME);
    CHECK(ph_read_labels(bytes, 46, 44100, frames, 0, &count) == PROHUNSEV_NO_LISTED_FRAME);
    CHECK(ph_read_labels((const uint8_t *)falls, 46, 48000, frames, 0, &count) == PROHUNSEV_NOT_ASCENDING);
    CHECK(ph_read_labels(bytes, 46, 48000, frames, 1, &count) == PROHUNSEV_TOO_LITTLE_ROOM);
    CHECK(ph_labels_to_cues((const uint8_t *)zero, 25, 48000, file, 0, &count) == PROHUNSEV_NOT_OF_THIS_FORM);
    CHECK(ph_labels_to_cues((const uint8_t *)none, 23, 48000, file, 70, &count) == PROHUNSEV_NO_LISTED_FRAME);
    CHECK(ph_labels_to_cues((const uint8_t *)falls, 46, 48000, file, 0, &count) == PROHUNSEV_NOT_ASCENDING);
    CHECK(ph_labels_to_cues(bytes, 46, 48000, file, 59, &count) == PROHUNSEV_TOO_LITTLE_ROOM);
    CHECK(ph_labels_to_cues(bytes, 46, 0, file, 70, &count) == PROHUNSEV_OUT_OF_BOUNDS);
    CHECK(ph_read_cues(chunk, 60, frames, 1, &count) == PROHUNSEV_TOO_LITTLE_ROOM);
    CHECK(ph_read_cues(chunk, 59, frames, 0, &count) == PROHUNSEV_NOT_OF_THIS_FORM);
    CHECK(ph_read_cues(chunk, 0, frames, 4, &count) == PROHUNSEV_NOT_OF_THIS_FORM);
    for (size_t i = 0; i < 60; i++) { /* no byte may be another by itself */
        memcpy(other, chunk, 60);
        other[i] ^= 0x10;
        CHECK(ph_read_cues(other, 60, frames, 4, &count) == PROHUNSEV_NOT_OF_THIS_FORM);
        CHECK(ph_cues_to_labels(other, 60, 48000, file, 70, &count) == PROHUNSEV_NOT_OF_THIS_FORM);
        if (i < 46) {
            memcpy(other, text, 46);
            other[i] ^= 0x10;
            CHECK(ph_read_labels(other, 46, 48000, frames, 4, &count) == PROHUNSEV_NOT_OF_THIS_FORM);
        }
    }
    memcpy(other, chunk, 60);
    other[40] = other[56] = 1; /* sample 24,577 */
    CHECK(ph_read_cues(other, 60, frames, 0, &count) == PROHUNSEV_NO_LISTED_FRAME);
    CHECK(ph_cues_to_labels(other, 60, 48000, file, 0, &count) == PROHUNSEV_NO_LISTED_FRAME);
    CHECK(ph_cues_to_labels(other, 60, 0, file, 70, &count) == PROHUNSEV_OUT_OF_BOUNDS);
    other[40] = other[56] = 0;
    other[41] = other[57] = 2; /* the first frame again */
    CHECK(ph_read_cues(other, 60, frames, 0, &count) == PROHUNSEV_NOT_ASCENDING);
    CHECK(ph_cues_to_labels(other, 60, 48000, file, 0, &count) == PROHUNSEV_NOT_ASCENDING);
    CHECK(ph_cues_to_labels(chunk, 60, 48000, file, 45, &count) == PROHUNSEV_TOO_LITTLE_ROOM);
    CHECK(count == POISON_SIZE && kept_frames(frames, 0, 4));
    for (size_t i = 0; i < sizeof file; i++)
        CHECK(file[i] == 0xA5);

    CHECK(ph_labels_room(grid, 2, 48000, &count) == 0 && count == 46);
    CHECK(ph_labels_room(ends, 2, 1, &count) == 0 && count == 66);
    CHECK(ph_write_labels(grid, 2, 48000, file, 70, &count) == 0);
    CHECK(count == 46 && same(file, text, 46) && file[46] == 0xA5 && file[69] == 0xA5);
    CHECK(ph_write_labels(ends, 2, 1, file, 66, &count) == 0);
    CHECK(count == 66 && same(file, end, 66) && file[66] == 0xA5);
    memset(file, 0xA5, sizeof file);
    CHECK(ph_write_cues(grid, 2, file, 70, &count) == 0);
    CHECK(count == 60 && same(file, chunk, 60) && file[60] == 0xA5 && file[69] == 0xA5);
    CHECK(ph_read_labels(bytes, 46, 48000, frames, 4, &count) == 0);
    CHECK(count == 2 && frames[0] == 0 && frames[1] == 94 && kept_frames(frames, 2, 4));
    poison_frames(frames, 4);
    CHECK(ph_read_cues(chunk, 60, frames, 4, &count) == 0);
    CHECK(count == 2 && frames[0] == 0 && frames[1] == 94 && kept_frames(frames, 2, 4));
    memset(file, 0xA5, sizeof file);
    CHECK(ph_labels_to_cues(bytes, 46, 48000, file, 70, &count) == 0);
    CHECK(count == 60 && same(file, chunk, 60) && file[60] == 0xA5);
    memset(file, 0xA5, sizeof file);
    CHECK(ph_cues_to_labels(chunk, 60, 48000, file, 70, &count) == 0);
    CHECK(count == 46 && same(file, text, 46) && file[46] == 0xA5);

    /* none: no bytes, and a chunk of count 0 */
    CHECK(ph_write_labels(grid, 0, 48000, file, 70, &count) == 0 && count == 0);
    CHECK(ph_labels_to_cues(bytes, 0, 48000, file, 70, &count) == 0 && count == 12 && same(file, "cue \4\0\0\0\0\0\0\0", 12));
    CHECK(ph_cues_to_labels(file, 12, 48000, other, 60, &count) == 0 && count == 0);
    CHECK(ph_read_cues(file, 12, frames, 4, &count) == 0 && count == 0);
}

/* what a whole analysis is lent, with room to spare behind each slice */
enum { TRACK = 600, TRACK_LAGS = 181, SPARE = 3 };

struct track {
    double flux[TRACK + SPARE], threshold[TRACK + SPARE], score[TRACK + SPARE];
    double clarity_curve[TRACK_LAGS + SPARE], weight_curve[TRACK_LAGS + SPARE], window_clarity[TRACK_LAGS + SPARE], window_weight[TRACK_LAGS + SPARE];
    double work[TRACK_LAGS + SPARE];
    uint32_t onsets[TRACK + SPARE], back[TRACK + SPARE], beats[TRACK + SPARE], downbeats[TRACK + SPARE];
    double bpm, clarity, saliences[3], fraction;
    size_t onset_count, lags[3], count, agreeing, windows, beat_count, downbeat_count;
    uint32_t found, steady;
};

static void poison_track(struct track *t)
{
    memset(t, 0, sizeof *t);
    poison(t->flux, TRACK + SPARE), poison(t->threshold, TRACK + SPARE), poison(t->score, TRACK + SPARE);
    poison(t->clarity_curve, TRACK_LAGS + SPARE), poison(t->weight_curve, TRACK_LAGS + SPARE);
    poison(t->window_clarity, TRACK_LAGS + SPARE), poison(t->window_weight, TRACK_LAGS + SPARE), poison(t->work, TRACK_LAGS + SPARE);
    poison_frames(t->onsets, TRACK + SPARE), poison_frames(t->back, TRACK + SPARE);
    poison_frames(t->beats, TRACK + SPARE), poison_frames(t->downbeats, TRACK + SPARE);
    t->bpm = t->clarity = t->saliences[0] = t->saliences[2] = t->fraction = POISON;
    t->onset_count = t->count = t->agreeing = t->windows = t->beat_count = t->downbeat_count = t->lags[0] = t->lags[2] = POISON_SIZE;
    t->found = t->steady = POISON_FRAME;
}

static uint32_t analyse_envelope(const double *envelope, uint32_t rate, size_t meter, struct track *t, size_t work_len)
{
    return ph_analyse_envelope(envelope, TRACK, rate, 30.0, 300.0, meter, t->threshold, TRACK + SPARE, t->onsets, TRACK + SPARE, t->clarity_curve,
                               TRACK_LAGS + SPARE, t->weight_curve, TRACK_LAGS + SPARE, t->window_clarity, TRACK_LAGS + SPARE, t->window_weight,
                               TRACK_LAGS + SPARE, t->score, TRACK + SPARE, t->back, TRACK + SPARE, t->beats, TRACK + SPARE, t->downbeats,
                               TRACK + SPARE, t->work, work_len, &t->onset_count, &t->found, &t->bpm, &t->clarity, t->lags, t->saliences,
                               &t->count, &t->steady, &t->fraction, &t->agreeing, &t->windows, &t->beat_count, &t->downbeat_count);
}

static uint32_t analyse_magnitudes(const float *magnitudes, size_t bins, uint32_t rate, size_t meter, struct track *t)
{
    return ph_analyse_magnitudes(magnitudes, TRACK, TRACK, bins, rate, 30.0, 300.0, meter, t->flux, TRACK + SPARE, t->threshold, TRACK + SPARE,
                                 t->onsets, TRACK + SPARE, t->clarity_curve, TRACK_LAGS + SPARE, t->weight_curve, TRACK_LAGS + SPARE,
                                 t->window_clarity, TRACK_LAGS + SPARE, t->window_weight, TRACK_LAGS + SPARE, t->score, TRACK + SPARE, t->back,
                                 TRACK + SPARE, t->beats, TRACK + SPARE, t->downbeats, TRACK + SPARE, t->work, TRACK_LAGS + SPARE,
                                 &t->onset_count, &t->found, &t->bpm, &t->clarity, t->lags, t->saliences, &t->count, &t->steady,
                                 &t->fraction, &t->agreeing, &t->windows, &t->beat_count, &t->downbeat_count);
}

/* one call for the whole track, and its parts called in turn, with so many beats to the bar; each third click is accented, from the second on */
static void whole_track(struct run *run, size_t meter)
{
    enum { RATE = 25600 };
    struct track *whole = malloc(sizeof *whole), *parts = malloc(sizeof *parts);
    float magnitudes[TRACK];
    double envelope[TRACK];
    size_t rows = POISON_SIZE, lag_slots = POISON_SIZE, sorting = POISON_SIZE;

    CHECK(whole != NULL && parts != NULL);
    CHECK(ph_room_of(1048577, RATE, 30.0, 300.0, meter, &rows, &lag_slots, &sorting) == 1);
    CHECK(rows == POISON_SIZE && lag_slots == POISON_SIZE && sorting == POISON_SIZE);
    CHECK(ph_room_of(TRACK, RATE, 30.0, 300.0, meter, &rows, &lag_slots, &sorting) == 0);
    CHECK(rows == TRACK && lag_slots == TRACK_LAGS && sorting == TRACK_LAGS);

    for (size_t i = 0; i < TRACK; i++)
        magnitudes[i] = i % 50 != 0 ? 0.0f : i / 50 % 3 == 2 ? 2.0f : 1.0f;
    poison_track(whole), poison_track(parts);
    CHECK(analyse_magnitudes(magnitudes, 2, RATE, meter, whole) == 2);
    CHECK(analyse_magnitudes(magnitudes, 1, 0, meter, whole) == 1);
    CHECK(analyse_magnitudes(magnitudes, 2, RATE, 0, whole) == 1); /* before 2 */
    CHECK(analyse_magnitudes(magnitudes, 1, RATE, 17, whole) == 1 && analyse_magnitudes(magnitudes, 1, RATE, FOUR_IN_FEWER_BITS, whole) == 1);
    CHECK(same(whole, parts, sizeof *whole));

    CHECK(ph_spectral_flux(magnitudes, TRACK, TRACK, 1, parts->flux, TRACK + SPARE) == 0);
    memcpy(envelope, parts->flux, sizeof envelope);
    CHECK(ph_adaptive_threshold(envelope, TRACK, parts->threshold, TRACK + SPARE, parts->work, TRACK_LAGS) == 0);
    CHECK(ph_pick_onsets(envelope, TRACK, parts->threshold, TRACK, RATE, parts->onsets, TRACK + SPARE, &parts->onset_count) == 0);
    CHECK(ph_estimate(envelope, TRACK, parts->onset_count, RATE, 30.0, 300.0, meter, parts->clarity_curve, TRACK_LAGS + SPARE, parts->weight_curve,
                      TRACK_LAGS + SPARE, parts->work, TRACK_LAGS, &parts->found, &parts->bpm, &parts->clarity, parts->lags, parts->saliences,
                      &parts->count) == 0);
    CHECK(ph_stability_of(envelope, TRACK, RATE, 30.0, 300.0, meter, parts->lags[0], parts->window_clarity, TRACK_LAGS + SPARE, parts->window_weight,
                          TRACK_LAGS + SPARE, parts->work, TRACK_LAGS, &parts->steady, &parts->fraction, &parts->agreeing, &parts->windows) == 0);
    CHECK(ph_beat_grid(envelope, TRACK, parts->lags[0], parts->score, TRACK + SPARE, parts->back, TRACK + SPARE, parts->beats, TRACK + SPARE,
                       &parts->beat_count) == 0);
    CHECK(ph_downbeats(envelope, TRACK, parts->beats, parts->beat_count, meter, parts->downbeats, TRACK + SPARE, &parts->downbeat_count) == 0);
    CHECK(parts->onset_count == 11 && parts->found == 1 && parts->bpm == 120.0 && parts->beat_count > 2 && parts->downbeat_count > 0);
    /* a waltz: three beats apart, on the accent */
    for (size_t i = 0; meter == 3 && i < parts->downbeat_count; i++)
        CHECK(parts->downbeats[i] == 100 + 150 * i && parts->downbeat_count == 4);

    CHECK(analyse_magnitudes(magnitudes, 1, RATE, meter, whole) == 0);
    CHECK(kept(whole->window_clarity, TRACK_LAGS, TRACK_LAGS + SPARE) && kept(whole->window_weight, TRACK_LAGS, TRACK_LAGS + SPARE));
    CHECK(kept(whole->work, TRACK_LAGS, TRACK_LAGS + SPARE));
    /* what is worked in holds anything */
    memcpy(whole->window_clarity, parts->window_clarity, sizeof whole->window_clarity);
    memcpy(whole->window_weight, parts->window_weight, sizeof whole->window_weight);
    memcpy(whole->work, parts->work, sizeof whole->work);
    CHECK(same(whole, parts, sizeof *whole));

    poison_track(whole);
    CHECK(analyse_envelope(envelope, RATE, 0, whole, TRACK_LAGS - 1) == 1); /* before 3 */
    CHECK(analyse_envelope(envelope, RATE, 17, whole, TRACK_LAGS) == 1);
    CHECK(analyse_envelope(envelope, RATE, FOUR_IN_FEWER_BITS, whole, TRACK_LAGS) == 1);
    CHECK(analyse_envelope(envelope, RATE, meter, whole, TRACK_LAGS - 1) == 3);
    CHECK(whole->found == POISON_FRAME && whole->beat_count == POISON_SIZE && kept(whole->threshold, 0, TRACK + SPARE) &&
          kept(whole->work, 0, TRACK_LAGS + SPARE));
    CHECK(analyse_envelope(envelope, RATE, meter, whole, TRACK_LAGS) == 0);
    memcpy(whole->flux, parts->flux, sizeof whole->flux);
    memcpy(whole->window_clarity, parts->window_clarity, sizeof whole->window_clarity);
    memcpy(whole->window_weight, parts->window_weight, sizeof whole->window_weight);
    memcpy(whole->work, parts->work, sizeof whole->work);
    CHECK(same(whole, parts, sizeof *whole));
    free(whole), free(parts);
}

static void whole_tracks(struct run *run)
{
    static const size_t meters[] = {4, 3, 1, 16};

    for (size_t k = 0; k < sizeof meters / sizeof meters[0]; k++)
        whole_track(run, meters[k]);
}

static void *all(void *given)
{
    struct run *run = given;

    for (int turn = 0; turn < 50; turn++) {
        constants(run);
        medians(run);
        onsets(run);
        close_peaks(run);
        lags(run);
        tempo(run);
        beats(run);
        meters(run);
        bars(run);
        feature_rows(run);
        sections(run);
        row_patches(run);
        feature_patches(run);
        files(run);
        labels(run);
        whole_tracks(run);
    }
    return NULL;
}

int main(void)
{
    struct run runs[THREADS];
    long passed = 0;

    for (int i = 0; i < THREADS; i++) {
        runs[i].passed = 0;
        if (pthread_create(&runs[i].thread, NULL, all, &runs[i]) != 0) {
            fprintf(stderr, "tests/c/calls.c: no thread\n");
            return 2;
        }
    }
    for (int i = 0; i < THREADS; i++) {
        pthread_join(runs[i].thread, NULL);
        passed += runs[i].passed;
    }
    printf("%ld checks passed, in %d threads\n", passed, THREADS);
    return 0;
}
