/* spc_play.c: SPC files are played. */
#include <limits.h>

#include "emulator.h"
#include "errors.h"
#include "spc_calls.h"

enum { OWN_FADE = 8000 };   /* milliseconds: the fade of gme_set_fade */
static const char NOT_STARTED[] = "No track is started";

/* The frame of the run at which a position lies. */
static uint32_t place_of(const spc_tune *tune) {
    int64_t place = tune->at * SPCWAVE_RATE / tune->rate;
    return place < UINT32_MAX ? (uint32_t)place : UINT32_MAX;
}

/* The next call plays from the position, whatever has changed. */
static void play_anew(spc_tune *tune) {
    if (tune->resampled) invalidate_resampled(tune->resampled);
    seek_run(&tune->run, tune->resampled ? first_needed(tune->resampled, tune->at) : place_of(tune));
}

static gme_err_t prepare_rate(spc_tune *tune) {
    if (tune->rate == SPCWAVE_RATE || tune->resampled) return NULL;
    if (tune->rate < MIN_RATE || tune->rate > MAX_RATE) return "Unsupported sample rate";
    tune->resampled = open_resampled(tune->rate);
    return tune->resampled ? NULL : OUT_OF_MEMORY;
}

gme_err_t spc_start_track(Music_Emu *emu, int track) {
    spc_tune *tune = &emu->spc;
    gme_err_t error;
    if (!tune->loaded) return NOT_LOADED;
    if (track != 0) return INVALID_TRACK;
    if (!tune->run.player) return "Opened for its information only";
    error = prepare_rate(tune);
    if (error) return error;
    tune->at = 0;
    tune->started = true;
    tune->warning = NULL;
    tune->run.heeds_silence = !tune->tags.timed && !tune->unlimited && !tune->ignores_silence;
    if (tune->unlimited) set_run_endless(&tune->run);
    else set_run_end(&tune->run, tune->tags.frames, tune->tags.fade);
    play_anew(tune);
    return NULL;
}

gme_err_t spc_play(Music_Emu *emu, int count, short out[]) {
    spc_tune *tune = &emu->spc;
    spcwave_frame *frames = (spcwave_frame *)out;
    gme_err_t error = NULL;
    if (!tune->started) return NOT_STARTED;
    if (count < 0 || count % 2) return "An odd number of samples";
    if (tune->resampled) error = read_resampled(tune->resampled, &tune->run, tune->at, frames, count / 2);
    else read_run(&tune->run, frames, (uint32_t)count / 2);
    if (!error) tune->at += count / 2;
    return error;
}

int spc_track_ended(Music_Emu const *emu) { return !emu->spc.started || is_run_over(&emu->spc.run, place_of(&emu->spc)); }

int spc_tell(Music_Emu const *emu) { return emu->spc.rate > 0 ? (int)(emu->spc.at * 1000 / emu->spc.rate) : 0; }

int spc_tell_samples(Music_Emu const *emu) { return emu->spc.at < INT_MAX / 2 ? (int)(2 * emu->spc.at) : INT_MAX - 1; }

static gme_err_t seek_frame(spc_tune *tune, int64_t frame) {
    if (!tune->started) return NOT_STARTED;
    tune->at = frame > 0 ? frame : 0;
    if (tune->resampled) return seek_resampled(tune->resampled, &tune->run, tune->at);
    seek_run(&tune->run, place_of(tune));
    return NULL;
}

gme_err_t spc_seek(Music_Emu *emu, int milliseconds) { return seek_frame(&emu->spc, (int64_t)milliseconds * emu->spc.rate / 1000); }

gme_err_t spc_seek_samples(Music_Emu *emu, int samples) { return seek_frame(&emu->spc, samples / 2); }

/* Whether a fade from there on would reach the end that the tags give, with a fade of their own: that one is kept then. */
static bool keeps_own_end(const spc_tags *tags, int start) {
    int length = (int)(tags->frames / (SPCWAVE_RATE / 1000));
    return start <= 0 || start == length || (tags->fade && start < length && start + OWN_FADE >= length);
}

void spc_set_fade(Music_Emu *emu, int start) {
    spc_tune *tune = &emu->spc;
    int64_t end = ((int64_t)start + OWN_FADE) * (SPCWAVE_RATE / 1000);
    if (!tune->started) return;
    if (keeps_own_end(&tune->tags, start)) set_run_end(&tune->run, tune->tags.frames, tune->tags.fade);
    else set_run_end(&tune->run, end < SPCWAVE_MAX_FRAMES ? (uint32_t)end : SPCWAVE_MAX_FRAMES, OWN_FADE * (SPCWAVE_RATE / 1000));
    play_anew(tune);
}

void spc_set_autoload_playback_limit(Music_Emu *emu, int limit) { emu->spc.unlimited = !limit; }
int spc_autoload_playback_limit(Music_Emu const *emu) { return !emu->spc.unlimited; }

void spc_ignore_silence(Music_Emu *emu, int ignore) {
    emu->spc.ignores_silence = ignore != 0;
    if (ignore) emu->spc.run.heeds_silence = false;
}

void spc_mute_voices(Music_Emu *emu, int voices) {
    spc_tune *tune = &emu->spc;
    if (tune->muted == (uint8_t)voices) return;
    tune->muted = (uint8_t)voices;
    if (!tune->run.player) return;
    if (tune->started) play_anew(tune);
    mute_run(&tune->run, tune->muted);
}

void spc_mute_voice(Music_Emu *emu, int voice, int mute) {
    if (voice < 0 || voice > 7) return;
    spc_mute_voices(emu, mute ? emu->spc.muted | 1 << voice : emu->spc.muted & ~(1 << voice));
}

void spc_set_tempo(Music_Emu *emu, double tempo) {
    if (tempo != 1) emu->spc.warning = "The tempo of SPC files stays as it is";
}

void spc_set_stereo_depth(Music_Emu *emu, double depth) { (void)emu, (void)depth; }
void spc_enable_accuracy(Music_Emu *emu, int enabled) { (void)emu, (void)enabled; }
void spc_equalizer(Music_Emu const *emu, gme_equalizer_t *out) { *out = emu->spc.equalizer; }
void spc_set_equalizer(Music_Emu *emu, gme_equalizer_t const *equalizer) { emu->spc.equalizer = *equalizer; }
