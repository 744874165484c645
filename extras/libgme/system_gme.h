/* system_gme.h: the calls of a libgme, and the system's own one, which plays all formats but SPC. */
#ifndef SYSTEM_GME_H
#define SYSTEM_GME_H

#include <gme/gme.h>

/* The calls that this library hands on. Each stands once: the table's members, and the names that are looked up, are made of this list. */
#define GME_CALLS(each) \
    each(gme_new_emu) each(gme_new_emu_multi_channel) each(gme_delete) \
    each(gme_load_file) each(gme_load_data) each(gme_load_custom) each(gme_load_m3u) each(gme_load_m3u_data) each(gme_clear_playlist) \
    each(gme_start_track) each(gme_play) each(gme_track_ended) each(gme_tell) each(gme_tell_samples) each(gme_seek) each(gme_seek_samples) \
    each(gme_set_fade) each(gme_set_autoload_playback_limit) each(gme_autoload_playback_limit) each(gme_ignore_silence) \
    each(gme_mute_voice) each(gme_mute_voices) each(gme_set_tempo) each(gme_set_stereo_depth) each(gme_enable_accuracy) \
    each(gme_equalizer) each(gme_set_equalizer) \
    each(gme_track_count) each(gme_track_info) each(gme_free_info) each(gme_warning) \
    each(gme_voice_count) each(gme_voice_name) each(gme_multi_channel)

#define GME_MEMBER(name) __typeof__(name) *name;
struct gme_calls { GME_CALLS(GME_MEMBER) };
#undef GME_MEMBER

/* The system's calls; NULL where it has no libgme, or one that lacks a name. SPCWAVE_SYSTEM_GME in the environment names its file where it doesn't lie
 * where Debian or others have it; where that is empty there is none. */
const struct gme_calls *system_gme(void);

/* The system's type of an extension in small letters, such as "nsf"; NULL where it has none. */
gme_type_t system_type(const char *extension);

#endif
