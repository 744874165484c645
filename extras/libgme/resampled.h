/* resampled.h: a run at another rate than 32,000, by libsoxr.
 *
 * It is made a second at a time, each by a resampler that begins anew some frames earlier. So frame n depends on n and on the run alone, whatever was
 * sought or played before, and a seek is exact to the frame at every rate. */
#ifndef RESAMPLED_H
#define RESAMPLED_H

#include <gme/gme.h>
#include <stdint.h>

#include "spc_run.h"

enum { MIN_RATE = 1000, MAX_RATE = 768000 };

typedef struct resampled resampled;

/* Opens it at a rate between the two above; NULL where memory is short. */
resampled *open_resampled(int rate);

void close_resampled(resampled *it);

/* The run's frames have changed (its end or its muted voices): what is cached of them is dropped. */
void invalidate_resampled(resampled *it);

/* The first frame of the run that frame `at` needs. */
uint32_t first_needed(const resampled *it, int64_t at);

/* Makes what a read from frame `at` needs. */
gme_err_t seek_resampled(resampled *it, spc_run *run, int64_t at);

/* Writes frames [at, at + count) of this rate. */
gme_err_t read_resampled(resampled *it, spc_run *run, int64_t at, spcwave_frame *frames, int count);

#endif
