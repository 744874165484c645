/* resampled.c: see resampled.h. */
#include "resampled.h"

#include <soxr.h>
#include <stdlib.h>
#include <string.h>

#include "errors.h"

enum { NO_SECOND = -1 };

/* How many frames of 32,000 before and behind a second its resampler is given. libsoxr's filter reaches less far. */
enum { REACH = 1024 };

struct resampled {
    int rate;
    uint32_t margin;        /* frames of the run before and behind a second, of which each begins at a frame of the rate too */
    uint32_t margin_out;    /* the same time in frames of the rate */
    int64_t second;         /* that `made` holds, or NO_SECOND */
    uint32_t filled;        /* how many frames `taken` holds */
    spcwave_frame *taken;   /* of the run: a margin, the second, a margin */
    spcwave_frame *made;    /* the same at the rate */
};

static uint32_t common_divisor(uint32_t a, uint32_t b) { return b ? common_divisor(b, a % b) : a; }

static size_t taken_size(const resampled *it) { return SPCWAVE_RATE + 2 * (size_t)it->margin; }
static size_t made_size(const resampled *it) { return (size_t)it->rate + 2 * (size_t)it->margin_out; }

resampled *open_resampled(int rate) {
    resampled *it = calloc(1, sizeof *it);
    uint32_t step = SPCWAVE_RATE / common_divisor(SPCWAVE_RATE, (uint32_t)rate);
    uint32_t reach = rate < SPCWAVE_RATE ? (uint32_t)((uint64_t)REACH * SPCWAVE_RATE / (uint32_t)rate) : REACH;
    if (!it) return NULL;
    it->rate = rate;
    it->margin = (reach + step - 1) / step * step;
    it->margin_out = (uint32_t)((uint64_t)it->margin * (uint32_t)rate / SPCWAVE_RATE);
    it->second = NO_SECOND;
    it->taken = malloc(taken_size(it) * sizeof *it->taken);
    it->made = malloc(made_size(it) * sizeof *it->made);
    if (it->taken && it->made) return it;
    close_resampled(it);
    return NULL;
}

void close_resampled(resampled *it) {
    if (!it) return;
    free(it->taken);
    free(it->made);
    free(it);
}

void invalidate_resampled(resampled *it) { it->second = NO_SECOND; }

/* The run's frame at which what a second takes begins: below 0 for the first, whose margin is silent. */
static int64_t begin_of(const resampled *it, int64_t second) { return second * SPCWAVE_RATE - it->margin; }

uint32_t first_needed(const resampled *it, int64_t at) {
    int64_t begin = begin_of(it, at / it->rate);
    return begin > 0 ? (uint32_t)begin : 0;
}

/* Takes the frames of a second. What the one before had of them stays. */
static void take_second(resampled *it, spc_run *run, int64_t second) {
    int64_t begin = begin_of(it, second);
    uint32_t kept = 0;
    if (it->second != NO_SECOND && second == it->second + 1) {
        kept = 2 * it->margin;
        memmove(it->taken, it->taken + SPCWAVE_RATE, kept * sizeof *it->taken);
    } else if (begin < 0) {
        kept = (uint32_t)-begin < it->margin ? (uint32_t)-begin : it->margin;
        memset(it->taken, 0, kept * sizeof *it->taken);
    }
    if (run->at != begin + kept) seek_run(run, (uint32_t)(begin + kept));
    read_run(run, it->taken + kept, (uint32_t)taken_size(it) - kept);
}

/* Resamples all that was taken. */
static gme_err_t make_second(resampled *it) {
    soxr_io_spec_t samples = soxr_io_spec(SOXR_INT16_I, SOXR_INT16_I);
    soxr_quality_spec_t quality = soxr_quality_spec(SOXR_HQ, 0);
    soxr_error_t error;
    soxr_t soxr;
    size_t given, ended, room = made_size(it);
    samples.flags = SOXR_NO_DITHER;
    soxr = soxr_create(SPCWAVE_RATE, it->rate, 2, &error, &samples, &quality, NULL);
    if (!soxr) return OUT_OF_MEMORY;
    error = soxr_process(soxr, it->taken, taken_size(it), NULL, it->made, room, &given);
    if (!error) error = soxr_process(soxr, NULL, 0, NULL, it->made + given, room - given, &ended);
    soxr_delete(soxr);
    return error ? OUT_OF_MEMORY : NULL;
}

gme_err_t seek_resampled(resampled *it, spc_run *run, int64_t at) {
    int64_t second = at / it->rate;
    gme_err_t error;
    if (second == it->second) return NULL;
    take_second(it, run, second);
    error = make_second(it);
    it->second = error ? NO_SECOND : second;
    return error;
}

gme_err_t read_resampled(resampled *it, spc_run *run, int64_t at, spcwave_frame *frames, int count) {
    while (count > 0) {
        int place = (int)(at % it->rate), some = it->rate - place < count ? it->rate - place : count;
        gme_err_t error = seek_resampled(it, run, at);
        if (error) return error;
        memcpy(frames, it->made + it->margin_out + place, (size_t)some * sizeof *frames);
        frames += some, at += some, count -= some;
    }
    return NULL;
}
