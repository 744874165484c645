/* gme.c: the names of gme.h. Each call goes to what plays the file: SPC to libspcwave, all else to the system's libgme. */
#include <stdbool.h>
#include <stddef.h>
#include <stdlib.h>
#include <string.h>

#include "emulator.h"
#include "errors.h"
#include "spc_calls.h"
#include "types.h"

static const char wrong_file_type[] = "Wrong file type for this emulator";
const char *const gme_wrong_file_type = wrong_file_type;

/* Calls that do nothing for SPC files: they have no playlists and no channels of their own. */
static gme_err_t no_m3u(Music_Emu *emu, const char path[]) { return (void)emu, (void)path, NULL; }
static gme_err_t no_m3u_data(Music_Emu *emu, void const *data, long size) { return (void)emu, (void)data, (void)size, NULL; }
static void no_playlist(Music_Emu *emu) { (void)emu; }
static int no_channels(Music_Emu const *emu) { return (void)emu, 0; }

const struct gme_calls spc_calls = {
    .gme_delete = spc_delete, .gme_load_file = spc_load_file, .gme_load_data = spc_load_data, .gme_load_custom = spc_load_custom,
    .gme_load_m3u = no_m3u, .gme_load_m3u_data = no_m3u_data, .gme_clear_playlist = no_playlist,
    .gme_start_track = spc_start_track, .gme_play = spc_play, .gme_track_ended = spc_track_ended,
    .gme_tell = spc_tell, .gme_tell_samples = spc_tell_samples, .gme_seek = spc_seek, .gme_seek_samples = spc_seek_samples,
    .gme_set_fade = spc_set_fade, .gme_set_autoload_playback_limit = spc_set_autoload_playback_limit,
    .gme_autoload_playback_limit = spc_autoload_playback_limit, .gme_ignore_silence = spc_ignore_silence,
    .gme_mute_voice = spc_mute_voice, .gme_mute_voices = spc_mute_voices, .gme_set_tempo = spc_set_tempo,
    .gme_set_stereo_depth = spc_set_stereo_depth, .gme_enable_accuracy = spc_enable_accuracy,
    .gme_equalizer = spc_equalizer, .gme_set_equalizer = spc_set_equalizer,
    .gme_track_count = spc_track_count, .gme_track_info = spc_track_info, .gme_free_info = spc_free_info, .gme_warning = spc_warning,
    .gme_voice_count = spc_voice_count, .gme_voice_name = spc_voice_name, .gme_multi_channel = no_channels,
};

/* ---- making, opening, deleting ---- */

static Music_Emu *new_spc(int rate) {
    Music_Emu *emu = calloc(1, sizeof *emu);
    if (!emu) return NULL;
    emu->calls = &spc_calls;
    emu->inner = emu;
    emu->type = gme_spc_type;
    emu->spc.rate = rate;
    return emu;
}

/* An emulator around the system's, which it takes over; NULL where there is none. */
static Music_Emu *new_around(Music_Emu *inner, gme_type_t type) {
    Music_Emu *emu = inner ? calloc(1, sizeof *emu) : NULL;
    if (!emu) {
        if (inner) system_gme()->gme_delete(inner);
        return NULL;
    }
    emu->calls = system_gme();
    emu->inner = inner;
    emu->type = type;
    return emu;
}

Music_Emu *gme_new_emu(gme_type_t type, int rate) {
    if (!is_played(type)) return NULL;
    return is_spc(type) ? new_spc(rate) : new_around(system_gme()->gme_new_emu(type_of_system(type), rate), type);
}

Music_Emu *gme_new_emu_multi_channel(gme_type_t type, int rate) {
    if (!is_played(type)) return NULL;
    return is_spc(type) ? new_spc(rate) : new_around(system_gme()->gme_new_emu_multi_channel(type_of_system(type), rate), type);
}

void gme_delete(Music_Emu *emu) {
    if (!emu) return;
    if (emu->cleanup) emu->cleanup(emu->user_data);
    emu->calls->gme_delete(emu->inner);
    free(emu);
}

/* Hands out an emulator that was loaded, or takes it back where that failed. */
static gme_err_t hand_out(Music_Emu *emu, gme_err_t error, Music_Emu **out) {
    if (error) gme_delete(emu);
    else *out = emu;
    return error;
}

gme_err_t gme_open_data(void const *data, long size, Music_Emu **out, int rate) {
    gme_type_t type = size >= 4 ? gme_identify_extension(gme_identify_header(data)) : NULL;
    Music_Emu *emu;
    *out = NULL;
    if (!is_played(type)) return gme_wrong_file_type;
    emu = gme_new_emu(type, rate);
    return emu ? hand_out(emu, gme_load_data(emu, data, size), out) : OUT_OF_MEMORY;
}

gme_err_t gme_open_file(const char path[], Music_Emu **out, int rate) {
    gme_type_t type;
    gme_err_t error = gme_identify_file(path, &type);
    Music_Emu *emu;
    *out = NULL;
    if (error) return error;
    if (!is_played(type)) return gme_wrong_file_type;
    emu = gme_new_emu(type, rate);
    return emu ? hand_out(emu, gme_load_file(emu, path), out) : OUT_OF_MEMORY;
}

/* ---- what this library keeps itself ---- */

gme_type_t gme_type(Music_Emu const *emu) { return emu->type; }
void gme_set_user_data(Music_Emu *emu, void *user_data) { emu->user_data = user_data; }
void *gme_user_data(Music_Emu const *emu) { return emu->user_data; }
void gme_set_user_cleanup(Music_Emu *emu, gme_user_cleanup_t cleanup) { emu->cleanup = cleanup; }

enum { TEXTS = 16 };

/* A copy whose texts follow it in one block of malloc: some players release it by free() instead of gme_free_info. */
static gme_info_t *in_one_block(const gme_info_t *info) {
    const char *texts[TEXTS];
    size_t lengths[TEXTS], whole = sizeof *info;
    gme_info_t *copy;
    char *place;
    int i;
    memcpy(texts, (const char *)info + offsetof(gme_info_t, system), sizeof texts);
    for (i = 0; i < TEXTS; i++) whole += lengths[i] = strlen(texts[i]) + 1;
    copy = malloc(whole);
    if (!copy) return NULL;
    *copy = *info;
    place = (char *)(copy + 1);
    for (i = 0; i < TEXTS; i++) {
        memcpy(place, texts[i], lengths[i]);
        texts[i] = place;
        place += lengths[i];
    }
    memcpy((char *)copy + offsetof(gme_info_t, system), texts, sizeof texts);
    return copy;
}

gme_err_t gme_track_info(Music_Emu const *emu, gme_info_t **out, int track) {
    gme_info_t *inner = NULL;
    gme_err_t error = emu->calls->gme_track_info(emu->inner, &inner, track);
    *out = NULL;
    if (error) return error;
    *out = in_one_block(inner);
    emu->calls->gme_free_info(inner);
    return *out ? NULL : OUT_OF_MEMORY;
}

void gme_free_info(gme_info_t *info) { free(info); }

/* ---- what is handed on ---- */

gme_err_t gme_load_file(Music_Emu *emu, const char path[]) { return emu->calls->gme_load_file(emu->inner, path); }
gme_err_t gme_load_data(Music_Emu *emu, void const *data, long size) { return emu->calls->gme_load_data(emu->inner, data, size); }
gme_err_t gme_load_custom(Music_Emu *emu, gme_reader_t reader, long size, void *your_data) {
    return emu->calls->gme_load_custom(emu->inner, reader, size, your_data);
}
gme_err_t gme_load_m3u(Music_Emu *emu, const char path[]) { return emu->calls->gme_load_m3u(emu->inner, path); }
gme_err_t gme_load_m3u_data(Music_Emu *emu, void const *data, long size) { return emu->calls->gme_load_m3u_data(emu->inner, data, size); }
void gme_clear_playlist(Music_Emu *emu) { emu->calls->gme_clear_playlist(emu->inner); }

gme_err_t gme_start_track(Music_Emu *emu, int track) { return emu->calls->gme_start_track(emu->inner, track); }
gme_err_t gme_play(Music_Emu *emu, int count, short out[]) { return emu->calls->gme_play(emu->inner, count, out); }
int gme_track_ended(Music_Emu const *emu) { return emu->calls->gme_track_ended(emu->inner); }
int gme_tell(Music_Emu const *emu) { return emu->calls->gme_tell(emu->inner); }
int gme_tell_samples(Music_Emu const *emu) { return emu->calls->gme_tell_samples(emu->inner); }
gme_err_t gme_seek(Music_Emu *emu, int milliseconds) { return emu->calls->gme_seek(emu->inner, milliseconds); }
gme_err_t gme_seek_samples(Music_Emu *emu, int samples) { return emu->calls->gme_seek_samples(emu->inner, samples); }

void gme_set_fade(Music_Emu *emu, int start) { emu->calls->gme_set_fade(emu->inner, start); }
void gme_set_autoload_playback_limit(Music_Emu *emu, int limit) { emu->calls->gme_set_autoload_playback_limit(emu->inner, limit); }
int gme_autoload_playback_limit(Music_Emu const *emu) { return emu->calls->gme_autoload_playback_limit(emu->inner); }
void gme_ignore_silence(Music_Emu *emu, int ignore) { emu->calls->gme_ignore_silence(emu->inner, ignore); }
void gme_mute_voice(Music_Emu *emu, int voice, int mute) { emu->calls->gme_mute_voice(emu->inner, voice, mute); }
void gme_mute_voices(Music_Emu *emu, int voices) { emu->calls->gme_mute_voices(emu->inner, voices); }
void gme_set_tempo(Music_Emu *emu, double tempo) { emu->calls->gme_set_tempo(emu->inner, tempo); }
void gme_set_stereo_depth(Music_Emu *emu, double depth) { emu->calls->gme_set_stereo_depth(emu->inner, depth); }
void gme_enable_accuracy(Music_Emu *emu, int enabled) { emu->calls->gme_enable_accuracy(emu->inner, enabled); }
void gme_equalizer(Music_Emu const *emu, gme_equalizer_t *out) { emu->calls->gme_equalizer(emu->inner, out); }
void gme_set_equalizer(Music_Emu *emu, gme_equalizer_t const *equalizer) { emu->calls->gme_set_equalizer(emu->inner, equalizer); }

int gme_track_count(Music_Emu const *emu) { return emu->calls->gme_track_count(emu->inner); }
const char *gme_warning(Music_Emu *emu) { return emu->calls->gme_warning(emu->inner); }
int gme_voice_count(Music_Emu const *emu) { return emu->calls->gme_voice_count(emu->inner); }
const char *gme_voice_name(Music_Emu const *emu, int voice) { return emu->calls->gme_voice_name(emu->inner, voice); }
int gme_multi_channel(Music_Emu const *emu) { return emu->calls->gme_multi_channel(emu->inner); }
