/* spc_load.c: SPC files are loaded, and their tags are read. */
#include <stdlib.h>
#include <string.h>

#include "emulator.h"
#include "errors.h"
#include "file_bytes.h"
#include "spc_calls.h"

enum { LONGEST_FILE = 1048576, WHOLE_FILE = 0x10200 };

static gme_err_t error_of(uint32_t status) {
    switch (status) {
    case SPCWAVE_OK: return NULL;
    case SPCWAVE_SPC_LENGTH:
    case SPCWAVE_SPC_SIGNATURE: return gme_wrong_file_type;
    case SPCWAVE_OUT_OF_MEMORY: return OUT_OF_MEMORY;
    default: return spcwave_status_text(status);
    }
}

/* What gme_track_info returns: -1 for each number that isn't known. */
static void fill_info(spc_tune *tune) {
    gme_info_t *info = &tune->info;
    const spc_tags *tags = &tune->tags;
    int length = (int)(tags->frames / (SPCWAVE_RATE / 1000));
    *info = (gme_info_t){.length = tags->timed ? length : -1, .intro_length = -1, .loop_length = -1, .play_length = length};
    info->i4 = info->i5 = info->i6 = info->i7 = info->i8 = info->i9 = info->i10 = info->i11 = info->i12 = info->i13 = info->i14 = info->i15 = -1;
    info->s7 = info->s8 = info->s9 = info->s10 = info->s11 = info->s12 = info->s13 = info->s14 = info->s15 = "";
    info->system = gme_type_system(gme_spc_type);
    info->song = tags->song;
    info->game = tags->game;
    info->author = tags->author;
    info->copyright = tags->copyright;
    info->comment = tags->comment;
    info->dumper = tags->dumper;
}

gme_err_t load_spc(spc_tune *tune, const uint8_t *file, size_t size) {
    uint32_t status;
    unload_spc(tune);
    if (size > LONGEST_FILE) size = LONGEST_FILE;
    status = read_tags(&tune->tags, file, size);
    if (status == SPCWAVE_OK && tune->rate > 0) status = open_run(&tune->run, file, size, tune->muted);
    if (status != SPCWAVE_OK) return error_of(status);
    fill_info(tune);
    tune->loaded = true;
    tune->warning = size < WHOLE_FILE ? "SPC file is cut off" : NULL;
    return NULL;
}

void unload_spc(spc_tune *tune) {
    close_run(&tune->run);
    close_resampled(tune->resampled);
    tune->resampled = NULL;
    tune->loaded = tune->started = false;
}

void spc_delete(Music_Emu *emu) { unload_spc(&emu->spc); }

gme_err_t spc_load_data(Music_Emu *emu, void const *data, long size) {
    return size < 0 ? gme_wrong_file_type : load_spc(&emu->spc, data, (size_t)size);
}

gme_err_t spc_load_file(Music_Emu *emu, const char path[]) {
    uint8_t *bytes;
    size_t size;
    gme_err_t error = read_whole(path, LONGEST_FILE, &bytes, &size);
    if (error) return error;
    error = load_spc(&emu->spc, bytes, size);
    free(bytes);
    return error;
}

gme_err_t spc_load_custom(Music_Emu *emu, gme_reader_t reader, long size, void *your_data) {
    int wanted = size < LONGEST_FILE ? (int)size : LONGEST_FILE;
    uint8_t *bytes;
    gme_err_t error;
    if (size < 0) return gme_wrong_file_type;
    bytes = malloc((size_t)wanted + 1);
    if (!bytes) return OUT_OF_MEMORY;
    error = reader(your_data, bytes, wanted);
    if (!error) error = load_spc(&emu->spc, bytes, (size_t)wanted);
    free(bytes);
    return error;
}

int spc_track_count(Music_Emu const *emu) { return emu->spc.loaded; }

gme_err_t spc_track_info(Music_Emu const *emu, gme_info_t **out, int track) {
    if (!emu->spc.loaded) return NOT_LOADED;
    if (track != 0) return INVALID_TRACK;
    *out = (gme_info_t *)&emu->spc.info;
    return NULL;
}

void spc_free_info(gme_info_t *info) { (void)info; }

const char *spc_warning(Music_Emu *emu) {
    const char *warning = emu->spc.warning;
    emu->spc.warning = NULL;
    return warning;
}

int spc_voice_count(Music_Emu const *emu) { return (void)emu, 8; }

const char *spc_voice_name(Music_Emu const *emu, int voice) {
    static const char *const names[8] = {"DSP 1", "DSP 2", "DSP 3", "DSP 4", "DSP 5", "DSP 6", "DSP 7", "DSP 8"};
    (void)emu;
    return voice >= 0 && voice < 8 ? names[voice] : "";
}
