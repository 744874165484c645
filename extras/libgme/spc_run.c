/* spc_run.c: plays a run by libspcwave, and listens for its silence. */
#include "spc_run.h"

#include <string.h>

#include "spcwave_table.h"

/* Pages for the marks of five minutes, one each five seconds, of nearly any tune. */
enum { PAGES = 16384 };
enum { SILENCE = 6 * SPCWAVE_RATE, QUIET = 8 };

uint32_t open_run(spc_run *run, const uint8_t *file, size_t size, uint8_t muted) {
    spcwave_options options = SPCWAVE_OPTIONS;
    uint8_t table[1024];
    uint32_t status;
    memset(run, 0, sizeof *run);
    run->silent_from = NEVER;
    spcwave_console_table(table);
    options.pages = PAGES;
    options.mark_seconds = MARK_SECONDS;
    options.muted = muted;
    status = spcwave_open(&run->player, file, size, table, sizeof table, &options);
    if (status != SPCWAVE_OK) run->player = NULL;
    return status;
}

void close_run(spc_run *run) { spcwave_close(&run->player); }

static uint32_t last_place(const spc_run *run) { return run->endless ? SPCWAVE_MAX_FRAMES : run->end; }

void seek_run(spc_run *run, uint32_t frame) {
    spcwave_seek(run->player, frame < last_place(run) ? frame : last_place(run));
    run->at = frame;
    run->quiet = 0;
    run->silent_from = NEVER;
}

void set_run_end(spc_run *run, uint32_t frames, uint32_t fade) {
    spcwave_set_end(run->player, frames, fade);
    run->end = frames;
    run->endless = false;
    seek_run(run, run->at);
}

void set_run_endless(spc_run *run) {
    run->endless = true;
    seek_run(run, run->at);
}

void mute_run(spc_run *run, uint8_t voices) { spcwave_mute(run->player, voices); }

static bool is_quiet(spcwave_frame frame) {
    return frame.left >= -QUIET && frame.left <= QUIET && frame.right >= -QUIET && frame.right <= QUIET;
}

static void listen(spc_run *run, const spcwave_frame *frames, uint32_t count) {
    uint32_t i;
    for (i = 0; i < count; i++) {
        run->quiet = is_quiet(frames[i]) ? run->quiet + 1 : 0;
        if (run->quiet >= SILENCE && run->silent_from == NEVER) run->silent_from = run->at + i + 1;
    }
}

void read_run(spc_run *run, spcwave_frame *frames, uint32_t count) {
    size_t played = run->endless ? spcwave_play(run->player, frames, count) : spcwave_play_faded(run->player, frames, count);
    memset(frames + played, 0, (count - played) * sizeof *frames);
    if (run->heeds_silence) listen(run, frames, count);
    run->at += count;
}

bool is_run_over(const spc_run *run, uint32_t place) { return place >= last_place(run) || (run->heeds_silence && place >= run->silent_from); }
