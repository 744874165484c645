/* spc_calls.h: libgme's calls for SPC files. Each does what gme.h says of the call of its name. */
#ifndef SPC_CALLS_H
#define SPC_CALLS_H

#include <gme/gme.h>

void spc_delete(Music_Emu *emu);
gme_err_t spc_load_file(Music_Emu *emu, const char path[]);
gme_err_t spc_load_data(Music_Emu *emu, void const *data, long size);
gme_err_t spc_load_custom(Music_Emu *emu, gme_reader_t reader, long size, void *your_data);
gme_err_t spc_start_track(Music_Emu *emu, int track);
gme_err_t spc_play(Music_Emu *emu, int count, short out[]);
int spc_track_ended(Music_Emu const *emu);
int spc_tell(Music_Emu const *emu);
int spc_tell_samples(Music_Emu const *emu);
gme_err_t spc_seek(Music_Emu *emu, int milliseconds);
gme_err_t spc_seek_samples(Music_Emu *emu, int samples);
void spc_set_fade(Music_Emu *emu, int start);
void spc_set_autoload_playback_limit(Music_Emu *emu, int limit);
int spc_autoload_playback_limit(Music_Emu const *emu);
void spc_ignore_silence(Music_Emu *emu, int ignore);
void spc_mute_voice(Music_Emu *emu, int voice, int mute);
void spc_mute_voices(Music_Emu *emu, int voices);
void spc_set_tempo(Music_Emu *emu, double tempo);
void spc_set_stereo_depth(Music_Emu *emu, double depth);
void spc_enable_accuracy(Music_Emu *emu, int enabled);
void spc_equalizer(Music_Emu const *emu, gme_equalizer_t *out);
void spc_set_equalizer(Music_Emu *emu, gme_equalizer_t const *equalizer);
int spc_track_count(Music_Emu const *emu);
gme_err_t spc_track_info(Music_Emu const *emu, gme_info_t **out, int track);
void spc_free_info(gme_info_t *info);
const char *spc_warning(Music_Emu *emu);
int spc_voice_count(Music_Emu const *emu);
const char *spc_voice_name(Music_Emu const *emu, int voice);

#endif
