/* Null with length 0, in every slice of every function of include/prohunsev.h: it is taken as any other empty slice is.
 *
 * Each function is called with every choice of its slices empty, once with null for the empty ones and once with an address that is
 * not null. Both must give the same number and leave the same bits in all that was lent. This is tried, and not proved. */
#include "prohunsev.h"

#include <stdio.h>
#include <stdlib.h>
#include <string.h>

enum { N = 40, BINS = 2, FEATURES = 3, SLOTS = 64 };
static const uint32_t RATE = 2560; /* ten frames a second, so that the lag curves have 19 slots */

/* all that calls are lent: one block, which is compared whole */
static struct {
    float magnitudes[N * BINS], rows[2 * BINS], wide[2049], samples[N];
    double a[SLOTS], b[SLOTS], c[SLOTS], d[SLOTS], e[SLOTS], f[SLOTS], g[SLOTS], work[SLOTS], reals[3], saliences[3];
    uint32_t p[SLOTS], q[SLOTS], r[SLOTS], s[SLOTS], small[2];
    size_t sizes[8], lags[3];
    uint8_t bytes[1024], track[33], text[46], chunk[60];
} lent;

/* where an empty slice points, and which slices are empty, a bit for each */
static void *empty;
static unsigned chosen;
#define S(place, slice, n) (chosen >> (place) & 1 ? empty : (void *)(slice)), (chosen >> (place) & 1 ? (size_t)0 : (size_t)(n))

static void reset(void)
{
    memset(&lent, 0, sizeof lent);
    for (size_t k = 0; k < SLOTS; k++) {
        lent.a[k] = k % 8 == 3 ? 1.0 : 0.0; /* an envelope that repeats every eight frames */
        lent.b[k] = 0.25;
        lent.p[k] = (uint32_t)k;
    }
    for (size_t k = 0; k < N; k++) {
        lent.magnitudes[k * BINS] = k % 8 == 3 ? 1.0f : 0.0f;
        lent.samples[k] = (float)k;
    }
    lent.wide[100] = lent.wide[1000] = 1.0f;
    memcpy(lent.track, "MThd\0\0\0\6\0\0\0\1\0\140MTrk\0\0\0\13\0\377\121\3\0\0\1\140\377\57\0", sizeof lent.track);
    memcpy(lent.text, "0.200000\t0.200000\tbeat\n0.300000\t0.300000\tbeat\n", sizeof lent.text);
    memcpy(lent.chunk, "cue \64\0\0\0\2\0\0\0\1\0\0\0\0\2\0\0data\0\0\0\0\0\0\0\0\0\2\0\0"
                       "\2\0\0\0\0\3\0\0data\0\0\0\0\0\0\0\0\0\3\0\0", sizeof lent.chunk);
}

static uint32_t version(void) { return ph_version(); }
static uint32_t median_of(void) { return ph_median_of(S(0, lent.a, N), S(1, lent.work, N), lent.reals); }
static uint32_t mad_of(void) { return ph_mad_of(S(0, lent.a, N), 0.5, S(1, lent.work, N), lent.reals); }
static uint32_t spectral_flux(void) { return ph_spectral_flux(S(0, lent.magnitudes, N * BINS), chosen & 1 ? 0 : N, BINS, S(1, lent.c, N)); }
static uint32_t adaptive_threshold(void) { return ph_adaptive_threshold(S(0, lent.a, N), S(1, lent.c, N), S(2, lent.work, 21)); }
static uint32_t pick_onsets(void) { return ph_pick_onsets(S(0, lent.a, N), S(1, lent.b, N), RATE, S(2, lent.q, N), lent.sizes); }
static uint32_t suppress_close_peaks(void)
{
    return ph_suppress_close_peaks(S(0, lent.p, N), S(1, lent.a, N), 3, S(2, lent.q, N), lent.sizes);
}
static uint32_t frame_times(void) { return ph_frame_times(S(0, lent.p, N), RATE, S(1, lent.c, N)); }
static uint32_t lag_range(void) { return ph_lag_range(RATE, 30.0, 300.0, 4, lent.sizes, lent.sizes + 1); }
static uint32_t estimate(void)
{
    return ph_estimate(S(0, lent.a, N), 5, RATE, 30.0, 300.0, 4, S(1, lent.c, 19), S(2, lent.d, 19), S(3, lent.work, 19), lent.small, lent.reals,
                       lent.reals + 1, lent.lags, lent.saliences, lent.sizes);
}
static uint32_t stability_of(void)
{
    return ph_stability_of(S(0, lent.a, N), RATE, 30.0, 300.0, 4, 8, S(1, lent.c, 19), S(2, lent.d, 19), S(3, lent.work, 19), lent.small,
                           lent.reals, lent.sizes, lent.sizes + 1);
}
static uint32_t beat_grid(void)
{
    return ph_beat_grid(S(0, lent.a, N), 8, S(1, lent.c, N), S(2, lent.q, N), S(3, lent.r, N), lent.sizes);
}
static uint32_t downbeats(void) { return ph_downbeats(S(0, lent.a, N), S(1, lent.p, N), 4, S(2, lent.q, N), lent.sizes); }
static uint32_t bar_beat_at(void) { return ph_bar_beat_at(0.5, S(0, lent.a, N), S(1, lent.b, N), lent.small, lent.sizes, lent.sizes + 1); }
static uint32_t feature_rows(void)
{
    return ph_feature_rows(S(0, lent.wide, 2049), chosen & 1 ? 0 : 1, S(1, lent.samples, N), RATE, 16, chosen & 2 ? 0 : FEATURES, S(2, lent.c, 16 * FEATURES));
}
static uint32_t similarity(void) { return ph_similarity(S(0, lent.a, 16 * FEATURES), chosen & 1 ? 0 : FEATURES, S(1, lent.c, 17 * FEATURES)); }
static uint32_t novelty(void) { return ph_novelty(S(0, lent.a, 17 * FEATURES), chosen & 1 ? 0 : FEATURES, S(1, lent.c, FEATURES)); }
static uint32_t boundaries(void)
{
    return ph_boundaries(S(0, lent.a, N), 1024, RATE, 3, S(1, lent.q, N), S(2, lent.work, N), lent.sizes, lent.sizes + 1, lent.reals);
}
static uint32_t boundary_times(void) { return ph_boundary_times(S(0, lent.p, N), 1024, RATE, S(1, lent.c, N)); }
static uint32_t patch_magnitudes(void)
{
    return ph_patch_magnitudes(S(0, lent.magnitudes, N * BINS), chosen & 1 ? 0 : N, BINS, chosen & 1 ? 0 : 4, S(1, lent.rows, 2 * BINS),
                               S(2, lent.a, N), S(3, lent.b, N), S(4, lent.work, 21), lent.sizes, lent.sizes + 1, lent.sizes + 2,
                               lent.sizes + 3);
}
static uint32_t patch_features(void)
{
    return ph_patch_features(S(0, lent.a, 16 * FEATURES), chosen & 1 ? 0 : FEATURES, chosen & 1 ? 0 : 1, S(1, lent.b, 16),
                             S(2, lent.c, 17 * FEATURES), S(3, lent.d, FEATURES), lent.sizes, lent.sizes + 1, lent.sizes + 2, lent.sizes + 3);
}
static uint32_t room_of(void) { return ph_room_of(N, RATE, 30.0, 300.0, 4, lent.sizes, lent.sizes + 1, lent.sizes + 2); }
static uint32_t analyse_envelope(void)
{
    return ph_analyse_envelope(S(0, lent.a, N), RATE, 30.0, 300.0, 4, S(1, lent.b, N), S(2, lent.p, N), S(3, lent.c, 19), S(4, lent.d, 19),
                               S(5, lent.e, 19), S(6, lent.f, 19), S(7, lent.g, N), S(8, lent.q, N), S(9, lent.r, N), S(10, lent.s, N),
                               S(11, lent.work, 21), lent.sizes, lent.small, lent.reals, lent.reals + 1, lent.lags, lent.saliences,
                               lent.sizes + 1, lent.small + 1, lent.reals + 2, lent.sizes + 2, lent.sizes + 3, lent.sizes + 4, lent.sizes + 5);
}
static uint32_t analyse_magnitudes(void)
{
    return ph_analyse_magnitudes(S(0, lent.magnitudes, N * BINS), chosen & 1 ? 0 : N, BINS, RATE, 30.0, 300.0, 4, S(1, lent.a, N),
                                 S(2, lent.b, N), S(3, lent.p, N), S(4, lent.c, 19), S(5, lent.d, 19), S(6, lent.e, 19), S(7, lent.f, 19),
                                 S(8, lent.g, N), S(9, lent.q, N), S(10, lent.r, N), S(11, lent.s, N), S(12, lent.work, 21), lent.sizes,
                                 lent.small, lent.reals, lent.reals + 1, lent.lags, lent.saliences, lent.sizes + 1, lent.small + 1,
                                 lent.reals + 2, lent.sizes + 2, lent.sizes + 3, lent.sizes + 4, lent.sizes + 5);
}

static uint32_t write_tempo_track(void) { return ph_write_tempo_track(S(0, lent.p, N), RATE, S(1, lent.bytes, 26 + 7 * (N - 1)), lent.sizes); }
static uint32_t read_tempo_track(void) { return ph_read_tempo_track(S(0, lent.track, sizeof lent.track), S(1, lent.q, N), lent.sizes); }
static uint32_t labels_room(void) { return ph_labels_room(S(0, lent.p, N), RATE, lent.sizes); }
static uint32_t write_labels(void) { return ph_write_labels(S(0, lent.p, N), RATE, S(1, lent.bytes, 23 * N), lent.sizes); }
static uint32_t read_labels(void) { return ph_read_labels(S(0, lent.text, sizeof lent.text), RATE, S(1, lent.q, N), lent.sizes); }
static uint32_t write_cues(void) { return ph_write_cues(S(0, lent.p, N), S(1, lent.bytes, 12 + 24 * N), lent.sizes); }
static uint32_t read_cues(void) { return ph_read_cues(S(0, lent.chunk, sizeof lent.chunk), S(1, lent.q, N), lent.sizes); }
static uint32_t labels_to_cues(void)
{
    return ph_labels_to_cues(S(0, lent.text, sizeof lent.text), RATE, S(1, lent.bytes, 60), lent.sizes);
}
static uint32_t cues_to_labels(void)
{
    return ph_cues_to_labels(S(0, lent.chunk, sizeof lent.chunk), RATE, S(1, lent.bytes, 46), lent.sizes);
}

/* a function, how many slices it takes, and what it returns with all of them empty: room for the lags is asked of no rows too */
static const struct {
    const char *name;
    uint32_t (*call)(void);
    unsigned slices;
    uint32_t of_nothing;
} CALLS[] = {
    {"version", version, 0, PROHUNSEV_VERSION}, {"median_of", median_of, 2, 1}, {"mad_of", mad_of, 2, 1}, {"spectral_flux", spectral_flux, 2, 0},
    {"adaptive_threshold", adaptive_threshold, 3, 0}, {"pick_onsets", pick_onsets, 3, 0},
    {"suppress_close_peaks", suppress_close_peaks, 3, 0}, {"frame_times", frame_times, 2, 0}, {"lag_range", lag_range, 0, 0},
    {"estimate", estimate, 4, 3}, {"stability_of", stability_of, 4, 3}, {"beat_grid", beat_grid, 4, 0}, {"downbeats", downbeats, 3, 0},
    {"bar_beat_at", bar_beat_at, 2, 0}, {"feature_rows", feature_rows, 3, 0}, {"similarity", similarity, 2, 0}, {"novelty", novelty, 2, 0},
    {"boundaries", boundaries, 3, 0}, {"boundary_times", boundary_times, 2, 0}, {"patch_magnitudes", patch_magnitudes, 5, 0}, {"patch_features", patch_features, 4, 0},
    {"room_of", room_of, 0, 0}, {"analyse_envelope", analyse_envelope, 12, 3}, {"analyse_magnitudes", analyse_magnitudes, 13, 3},
    {"write_tempo_track", write_tempo_track, 2, 6}, {"read_tempo_track", read_tempo_track, 2, 8}, {"labels_room", labels_room, 1, 0},
    {"write_labels", write_labels, 2, 0}, {"read_labels", read_labels, 2, 0}, {"write_cues", write_cues, 2, 3}, {"read_cues", read_cues, 2, 9},
    {"labels_to_cues", labels_to_cues, 2, 3}, {"cues_to_labels", cues_to_labels, 2, 9},
};

int main(void)
{
    static unsigned char with_null[sizeof lent];
    static double nowhere;
    long tried = 0, answered = 0, wrong = 0;
    for (size_t k = 0; k < sizeof CALLS / sizeof *CALLS; k++) {
        unsigned all = (1u << CALLS[k].slices) - 1;
        for (chosen = 0; chosen <= all; chosen++) {
            reset();
            empty = NULL;
            uint32_t number = CALLS[k].call();
            memcpy(with_null, &lent, sizeof lent);
            reset();
            empty = &nowhere;
            int same = CALLS[k].call() == number && memcmp(with_null, &lent, sizeof lent) == 0;
            if (!same || nowhere != 0.0 || (chosen == all && number != CALLS[k].of_nothing) || (chosen == 0 && k > 0 && number != 0)) {
                fprintf(stderr, "tests/c/empty.c: ph_%s with the slices %#x empty returns %u\n", CALLS[k].name, chosen, (unsigned)number);
                wrong++;
            }
            tried++;
            answered += number == 0;
        }
    }
    printf("%ld calls with null for the empty slices, %ld answered, %ld unlike another empty slice\n", tried, answered, wrong);
    return wrong != 0;
}
