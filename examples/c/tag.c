/* The rhythm of a track, and of the same track after twenty seconds of it are repaired, from C. It reads nothing: the rows are made here.
 *
 * At the root of the clone, after tools/library:
 *
 *   cc -std=c99 -Iinclude examples/c/tag.c lib/libprohunsev.a -o tag && ./tag
 *
 * tools/ctest runs this line and holds what is printed to tag.txt. */
#include "prohunsev.h"

#include <stdio.h>
#include <stdlib.h>
#include <string.h>

/* two minutes of rows at 48,000 samples a second; a transform of 1,024 samples has 513 bins, and four do for clicks */
enum { RATE = 48000, ROWS = 22500, BINS = 4, PERIOD = 94, FIRST = 5 };
/* beats of a bar: 3 would be a waltz's */
enum { METER = PROHUNSEV_DEFAULT_METER };
/* the twenty seconds from 0:40 on, in rows, and how late they are */
enum { BAD = 40 * RATE / PROHUNSEV_HOP, BAD_ROWS = 20 * RATE / PROHUNSEV_HOP, SLIP = 40 };

/* all that one analysis is lent, and what it answers */
struct track {
    size_t row_slots, lag_slots, work_slots;
    double *flux, *threshold, *score, *clarity_curve, *weight_curve, *window_clarity, *window_weight, *work;
    uint32_t *onsets, *back, *beats, *downbeats;
    uint32_t found, steady;
    double bpm, clarity, fraction, saliences[3];
    size_t lags[3], onset_count, count, agreeing, windows, beat_count, downbeat_count;
};

/* a number of refusal in words; 0 is none */
static void must(uint32_t number, const char *call)
{
    static const char *const why[] = {"", "a number is out of bounds", "a length isn't rows times width", "too little room was lent",
                                      "a value isn't finite or is too large"};
    if (number != PROHUNSEV_ANSWERED) {
        fprintf(stderr, "tag: %s refused with %u: %s\n", call, (unsigned)number, number <= PROHUNSEV_WRONG_VALUE ? why[number] : "");
        exit(1);
    }
}

/* room for so many slots, all bytes 0; one more, so that none is null */
static void *room(size_t slots, size_t bytes)
{
    void *made = calloc(slots + 1, bytes);
    if (!made) {
        fputs("tag: no memory\n", stderr);
        exit(1);
    }
    return made;
}

/* lends what an analysis of so many rows needs; one track's room serves every track that isn't longer */
static void lend(struct track *t, size_t rows)
{
    memset(t, 0, sizeof *t);
    must(ph_room_of(rows, RATE, PROHUNSEV_MIN_BPM, PROHUNSEV_MAX_BPM, METER, &t->row_slots, &t->lag_slots, &t->work_slots), "ph_room_of");
    t->flux = room(t->row_slots, sizeof(double));
    t->threshold = room(t->row_slots, sizeof(double));
    t->score = room(t->row_slots, sizeof(double));
    t->onsets = room(t->row_slots, sizeof(uint32_t));
    t->back = room(t->row_slots, sizeof(uint32_t));
    t->beats = room(t->row_slots, sizeof(uint32_t));
    t->downbeats = room(t->row_slots, sizeof(uint32_t));
    t->clarity_curve = room(t->lag_slots, sizeof(double));
    t->weight_curve = room(t->lag_slots, sizeof(double));
    t->window_clarity = room(t->lag_slots, sizeof(double));
    t->window_weight = room(t->lag_slots, sizeof(double));
    t->work = room(t->work_slots, sizeof(double));
}

static void give_back(struct track *t)
{
    free(t->flux), free(t->threshold), free(t->score), free(t->onsets), free(t->back), free(t->beats), free(t->downbeats);
    free(t->clarity_curve), free(t->weight_curve), free(t->window_clarity), free(t->window_weight), free(t->work);
}

/* the analysis of rows */
static void analyse(struct track *t, const float *magnitudes, size_t rows)
{
    must(ph_analyse_magnitudes(magnitudes, rows * BINS, rows, BINS, RATE, PROHUNSEV_MIN_BPM, PROHUNSEV_MAX_BPM, METER, t->flux, t->row_slots,
                               t->threshold, t->row_slots, t->onsets, t->row_slots, t->clarity_curve, t->lag_slots, t->weight_curve,
                               t->lag_slots, t->window_clarity, t->lag_slots, t->window_weight, t->lag_slots, t->score, t->row_slots, t->back,
                               t->row_slots, t->beats, t->row_slots, t->downbeats, t->row_slots, t->work, t->work_slots, &t->onset_count,
                               &t->found, &t->bpm, &t->clarity, t->lags, t->saliences, &t->count, &t->steady, &t->fraction, &t->agreeing,
                               &t->windows, &t->beat_count, &t->downbeat_count),
         "ph_analyse_magnitudes");
}

/* the analysis of a flux that is there already, such as one that a patch has mended */
static void analyse_flux(struct track *t, const double *flux, size_t rows)
{
    must(ph_analyse_envelope(flux, rows, RATE, PROHUNSEV_MIN_BPM, PROHUNSEV_MAX_BPM, METER, t->threshold, t->row_slots, t->onsets, t->row_slots,
                             t->clarity_curve, t->lag_slots, t->weight_curve, t->lag_slots, t->window_clarity, t->lag_slots,
                             t->window_weight, t->lag_slots, t->score, t->row_slots, t->back, t->row_slots, t->beats, t->row_slots,
                             t->downbeats, t->row_slots, t->work, t->work_slots, &t->onset_count, &t->found, &t->bpm, &t->clarity, t->lags,
                             t->saliences, &t->count, &t->steady, &t->fraction, &t->agreeing, &t->windows, &t->beat_count,
                             &t->downbeat_count),
         "ph_analyse_envelope");
}

/* the same from flux and threshold as they stand, call by call: nothing that a patch has mended is made again, which is most of the work */
static void regrid(struct track *t, size_t rows)
{
    must(ph_pick_onsets(t->flux, rows, t->threshold, rows, RATE, t->onsets, t->row_slots, &t->onset_count), "ph_pick_onsets");
    must(ph_estimate(t->flux, rows, t->onset_count, RATE, PROHUNSEV_MIN_BPM, PROHUNSEV_MAX_BPM, METER, t->clarity_curve, t->lag_slots,
                     t->weight_curve, t->lag_slots, t->work, t->work_slots, &t->found, &t->bpm, &t->clarity, t->lags, t->saliences, &t->count),
         "ph_estimate");
    /* the winner's lag; 0 without a tempo, and then there is no stability and no beat */
    size_t lag = t->lags[0];
    must(ph_stability_of(t->flux, rows, RATE, PROHUNSEV_MIN_BPM, PROHUNSEV_MAX_BPM, METER, lag, t->window_clarity, t->lag_slots, t->window_weight,
                         t->lag_slots, t->work, t->work_slots, &t->steady, &t->fraction, &t->agreeing, &t->windows),
         "ph_stability_of");
    must(ph_beat_grid(t->flux, rows, lag, t->score, t->row_slots, t->back, t->row_slots, t->beats, t->row_slots, &t->beat_count),
         "ph_beat_grid");
    must(ph_downbeats(t->flux, rows, t->beats, t->beat_count, METER, t->downbeats, t->row_slots, &t->downbeat_count), "ph_downbeats");
}

static double seconds(uint32_t frame)
{
    return ((double)frame * PROHUNSEV_HOP + PROHUNSEV_FRAME / 2.0) / RATE;
}

static void print(const char *name, const struct track *t)
{
    printf("%s: ", name);
    if (!t->found) {
        printf("no tempo, %zu onsets\n", t->onset_count);
        return;
    }
    printf("%.2f bpm, clarity %.3f, ", t->bpm, t->clarity);
    if (t->steady)
        printf("heard again in %zu of %zu windows, ", t->agreeing, t->windows);
    printf("%zu onsets, %zu beats, %zu bars\n", t->onset_count, t->beat_count, t->downbeat_count);
    printf("  beats around 0:40, in seconds:");
    for (size_t k = 0; k < t->beat_count; k++)
        if (t->beats[k] + 200 > BAD && t->beats[k] < BAD + 200)
            printf(" %.3f", seconds(t->beats[k]));
    printf("\n");
}

static int same(const void *a, const void *b, size_t bytes)
{
    return memcmp(a, b, bytes) == 0;
}

/* whether two analyses answer the same, bit for bit */
static int alike(const struct track *a, const struct track *b)
{
    return a->found == b->found && same(&a->bpm, &b->bpm, sizeof a->bpm) && same(&a->clarity, &b->clarity, sizeof a->clarity) &&
           a->count == b->count && same(a->lags, b->lags, sizeof a->lags) && same(a->saliences, b->saliences, sizeof a->saliences) &&
           a->steady == b->steady && same(&a->fraction, &b->fraction, sizeof a->fraction) && a->agreeing == b->agreeing &&
           a->windows == b->windows && a->onset_count == b->onset_count && same(a->onsets, b->onsets, a->onset_count * sizeof *a->onsets) &&
           a->beat_count == b->beat_count && same(a->beats, b->beats, a->beat_count * sizeof *a->beats) &&
           a->downbeat_count == b->downbeat_count && same(a->downbeats, b->downbeats, a->downbeat_count * sizeof *a->downbeats);
}

int main(void)
{
    /* as a transform would give them: rows of magnitudes, row after row; here a click every 94 rows, and 40 rows late in the bad part */
    float *magnitudes = room(ROWS * BINS, sizeof(float)), *right = room(BAD_ROWS * BINS, sizeof(float));
    for (size_t row = FIRST; row < ROWS; row += PERIOD) {
        int bad = row >= BAD && row < BAD + BAD_ROWS;
        for (size_t bin = 0; bin < BINS; bin++) {
            magnitudes[(bad ? row + SLIP : row) * BINS + bin] = 1.0f;
            if (bad)
                right[(row - BAD) * BINS + bin] = 1.0f;
        }
    }
    if (ph_version() != PROHUNSEV_VERSION) {
        fprintf(stderr, "tag: the library is version %u, the header %u: run tools/library\n", (unsigned)ph_version(), PROHUNSEV_VERSION);
        return 1;
    }

    struct track track, again, full;
    lend(&track, ROWS);
    analyse(&track, magnitudes, ROWS);
    print("twenty seconds out of step", &track);

    /* the repair: the right rows go in, and the flux and the threshold of the analysis are mended in place */
    size_t flux_first, flux_past, threshold_first, threshold_past;
    must(ph_patch_magnitudes(magnitudes, ROWS * BINS, ROWS, BINS, BAD, right, BAD_ROWS * BINS, track.flux, track.row_slots,
                             track.threshold, track.row_slots, track.work, track.work_slots, &flux_first, &flux_past, &threshold_first,
                             &threshold_past),
         "ph_patch_magnitudes");
    printf("mended: %zu of %d slots of flux, %zu of threshold\n", flux_past - flux_first, ROWS, threshold_past - threshold_first);

    /* the new grid, from the mended curves; from the mended flux in one call; and from a full run on the edited rows. They are the same,
     * which is proved (docs/PROMISES.md, "The auditor's second question") */
    regrid(&track, ROWS);
    print("repaired", &track);
    lend(&again, ROWS);
    analyse_flux(&again, track.flux, ROWS);
    lend(&full, ROWS);
    analyse(&full, magnitudes, ROWS);
    int curves = same(track.flux, full.flux, ROWS * sizeof(double)) && same(track.threshold, full.threshold, ROWS * sizeof(double));
    int equal = curves && alike(&track, &full) && alike(&again, &full);
    puts(equal ? "a full run gives the same flux, threshold, tempo and grid, bit for bit" : "a full run DIFFERS");

    give_back(&track), give_back(&again), give_back(&full);
    free(magnitudes), free(right);
    if (fflush(stdout) != 0 || ferror(stdout)) {
        fputs("tag: not all of it could be written\n", stderr);
        return 1;
    }
    return equal ? 0 : 1;
}
