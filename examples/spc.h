/* spc.h: the function names of blargg's snes_spc over libspcwave, so that a player written for that library can be built with this one:
 *     cc player.c -I examples -lspcwave
 * A frame is two samples, left first, and counts are of samples, as there. What differs:
 *  - spc_load_spc takes the memory, not spc_new, and plays each file as it is: spc_clear_echo does nothing, and silence at the head stays;
 *  - spc_skip is exact, and takes as long as playing; with marks in between (spcwave_mark) it would be quick;
 *  - spc_mute_voices plays from the start to the position again, since a muted voice is missing in the echo too; a loaded file begins with all voices;
 *  - an hour is the most that is played: behind it spc_play gives zeros and an error, and spc_skip an error, and stays;
 *  - the filter (spc_filter_*) leaves samples as they are, which are those that the console's chip hands on.
 * Without an equal, and left out, so that a player which uses them doesn't compile:
 *  - emulator use: spc_init_rom, spc_rom_size, spc_set_output, spc_sample_count, spc_reset, spc_soft_reset, spc_time_t, spc_port_count, spc_read_port,
 *    spc_write_port, spc_end_frame;
 *  - sound control: spc_disable_surround, spc_set_tempo, spc_tempo_unit;
 *  - saved states: spc_copy_state, spc_state_size, spc_copy_func_t, spc_init_header, spc_save_spc, spc_check_kon.
 */
#ifndef SPC_H
#define SPC_H
#include <stdlib.h>
#include <string.h>
#include "spcwave.h"
#include "spcwave_table.h"

enum { spc_sample_rate = 32000, spc_clock_rate = 1024000, spc_clocks_per_sample = 32, spc_file_size = 0x10200, spc_voice_count = 8 };
enum { spc_filter_gain_unit = 0x100, spc_filter_bass_none = 0, spc_filter_bass_norm = 8, spc_filter_bass_max = 31 };

typedef short spc_sample_t;
typedef const char *spc_err_t; /* NULL where all is well */

typedef struct SNES_SPC {
    spcwave_player *player; /* NULL where no file is loaded */
    uint8_t table[1024];
} SNES_SPC;

static inline SNES_SPC *spc_new(void) {
    SNES_SPC *spc = (SNES_SPC *)calloc(1, sizeof *spc);
    if (spc) spcwave_console_table(spc->table);
    return spc;
}

static inline void spc_unload(SNES_SPC *spc) {
    spcwave_close(&spc->player);
}

static inline void spc_delete(SNES_SPC *spc) {
    if (spc) spc_unload(spc);
    free(spc);
}

static inline spc_err_t spc_status_text(uint32_t status) {
    switch (status) {
    case SPCWAVE_OK: return NULL;
    case SPCWAVE_SPC_LENGTH:
    case SPCWAVE_SPC_SIGNATURE: return "Not an SPC file";
    case SPCWAVE_OUT_OF_MEMORY: return "Out of memory";
    default: return "Out of range";
    }
}

static inline spc_err_t spc_load_spc(SNES_SPC *spc, const void *data, long size) {
    const spcwave_options options = SPCWAVE_OPTIONS;
    spc_unload(spc);
    return spc_status_text(spcwave_open(&spc->player, (const uint8_t *)data, size < 0 ? 0 : (size_t)size, spc->table, sizeof spc->table, &options));
}

static inline void spc_clear_echo(SNES_SPC *spc) { (void)spc; }

static inline void spc_mute_voices(SNES_SPC *spc, int mask) {
    if (spc->player) spcwave_mute(spc->player, (uint8_t)mask);
}

/* Skips `count` samples, an even number. */
static inline spc_err_t spc_skip(SNES_SPC *spc, int count) {
    if (!spc->player) return "No SPC file is loaded";
    return spc_status_text(spcwave_seek(spc->player, spcwave_position(spc->player) + (uint32_t)count / 2));
}

/* Plays `count` samples, an even number, into `out`; where `out` is NULL they are skipped. */
static inline spc_err_t spc_play(SNES_SPC *spc, int count, short *out) {
    size_t wanted = (size_t)count / 2, given;
    if (!out) return spc_skip(spc, count);
    if (!spc->player) return "No SPC file is loaded";
    given = spcwave_play(spc->player, (spcwave_frame *)out, wanted);
    memset(out + 2 * given, 0, 4 * (wanted - given));
    return given == wanted ? NULL : "No more frames";
}

typedef struct SPC_Filter { int unused; } SPC_Filter;

static inline SPC_Filter *spc_filter_new(void) { return (SPC_Filter *)calloc(1, sizeof(SPC_Filter)); }
static inline void spc_filter_delete(SPC_Filter *filter) { free(filter); }
static inline void spc_filter_run(SPC_Filter *filter, spc_sample_t *io, int count) { (void)filter, (void)io, (void)count; }
static inline void spc_filter_clear(SPC_Filter *filter) { (void)filter; }
static inline void spc_filter_set_gain(SPC_Filter *filter, int gain) { (void)filter, (void)gain; }
static inline void spc_filter_set_bass(SPC_Filter *filter, int bass) { (void)filter, (void)bass; }
#endif
