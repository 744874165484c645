/* spc_run.h: the frames of an SPC file at 32,000 a second, one after another, silent behind the end. */
#ifndef SPC_RUN_H
#define SPC_RUN_H

#include <stdbool.h>
#include <stdint.h>

#include "spc_tags.h"
#include "spcwave.h"

typedef struct spc_run {
    spcwave_player *player; /* NULL where nothing is opened */
    uint32_t at;            /* how many frames were read before */
    uint32_t end;           /* the track's length */
    bool endless;           /* it has no end but the last frame that can be played */
    bool heeds_silence;     /* six silent seconds end it */
    uint32_t quiet;         /* how many frames right before `at` are silent */
    uint32_t silent_from;   /* the frame at which six silent seconds were over; NEVER where that hasn't been met */
} spc_run;

enum { MARK_SECONDS = 5 };
#define NEVER UINT32_MAX

/* Opens a run at its beginning, with voices that are muted. Answers a status of libspcwave. */
uint32_t open_run(spc_run *run, const uint8_t *file, size_t size, uint8_t muted);

void close_run(spc_run *run);

/* Lets it end after `frames`, of which the last `fade` fade out along a line. */
void set_run_end(spc_run *run, uint32_t frames, uint32_t fade);

/* Lets it play without an end: to the last frame that can be played. */
void set_run_endless(spc_run *run);

void seek_run(spc_run *run, uint32_t frame);

/* Mutes these voices. What comes is as if they had been muted from the beginning. */
void mute_run(spc_run *run, uint8_t voices);

void read_run(spc_run *run, spcwave_frame *frames, uint32_t count);

/* Whether a place lies at the track's end or behind it. */
bool is_run_over(const spc_run *run, uint32_t place);

#endif
