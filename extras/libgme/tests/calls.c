/* calls.c: random calls on four emulators, for valgrind and for sanitizers.
 *     calls TUNE OTHER CALLS SEED
 * TUNE is an SPC file, and OTHER a file of another format, which is left out where it can't be opened. */
#include <gme/gme.h>
#include <stdint.h>
#include <stdio.h>
#include <stdlib.h>
#include <string.h>

enum { PLACES = 4, LONGEST = 1 << 20, WHOLE = 0x10200 };

typedef struct place {
    Music_Emu *emu;
    int is_spc, is_started;
} place;

static uint8_t tune[LONGEST], other[LONGEST], damaged[LONGEST];
static long tune_size, other_size;
static const char *tune_path, *other_path;

static uint32_t seed;
static uint32_t below(uint32_t bound) {
    seed = seed * 1664525u + 1013904223u;
    return (uint32_t)(((uint64_t)seed * bound) >> 32);
}

static long load(const char *path, uint8_t *bytes) {
    FILE *in = fopen(path, "rb");
    long size;
    if (!in) exit(2);
    size = (long)fread(bytes, 1, LONGEST, in);
    fclose(in);
    return size;
}

static gme_err_t give(void *bytes, void *out, int count) {
    memcpy(out, bytes, (size_t)count);
    return NULL;
}

/* A tune with other bytes in its head, and with extended tags of random bytes. */
static long damage_tune(void) {
    static const char signature[] = "SNES-SPC700 Sound File Data";
    long size = WHOLE + 4 + (long)below(300), i;
    memcpy(damaged, tune, WHOLE);
    for (i = 0; i < 20; i++) damaged[below(0x200)] = (uint8_t)below(256);
    memcpy(damaged, signature, sizeof signature - 1);
    memcpy(damaged + WHOLE, "xid6", 4);
    for (i = WHOLE + 4; i < size; i++) damaged[i] = (uint8_t)(below(3) ? below(8) : below(256));
    return size;
}

static gme_err_t open_spc(Music_Emu **emu, int rate) {
    switch (below(4)) {
    case 0: return gme_open_data(damaged, damage_tune(), emu, rate);
    case 1: return gme_open_data(tune, (long)below(70000), emu, rate);
    case 2:
        *emu = gme_new_emu(gme_spc_type, rate);
        return *emu ? gme_load_custom(*emu, give, tune_size, tune) : "none";
    default: return gme_open_file(tune_path, emu, rate);
    }
}

static void open_place(place *it) {
    static const int rates[] = {32000, 44100, 48000, 11025, 96000, gme_info_only};
    int rate = rates[below(6)];
    gme_err_t error;
    it->is_spc = below(4) != 0;
    error = it->is_spc ? open_spc(&it->emu, rate) : below(2) ? gme_open_data(other, other_size, &it->emu, rate) : gme_open_file(other_path, &it->emu, rate);
    if (error) gme_delete(it->emu), it->emu = NULL;
    it->is_started = it->emu && rate > 0 && !gme_start_track(it->emu, 0);
}

static void ask(Music_Emu *emu) {
    gme_info_t *info;
    gme_warning(emu), gme_track_count(emu), gme_type(emu), gme_user_data(emu), gme_multi_channel(emu);
    if (gme_voice_count(emu) > 0) gme_voice_name(emu, 0);
    if (gme_track_info(emu, &info, 0)) return;
    if (below(2)) gme_free_info(info);
    else free(info);
}

static void call_started(place *it) {
    static short out[20000];
    switch (below(9)) {
    case 0: gme_seek(it->emu, (int)below(3000)); break;
    case 1: gme_seek_samples(it->emu, 2 * (int)below(40000)); break;
    case 2: if (it->is_spc) gme_mute_voices(it->emu, (int)below(256)); break;
    case 3: gme_set_fade(it->emu, (int)below(4000)); break;
    case 4: gme_track_ended(it->emu), gme_tell(it->emu), gme_tell_samples(it->emu); break;
    case 5: gme_start_track(it->emu, 0); break;
    default: gme_play(it->emu, 2 * (int)below(5000), out);
    }
}

static void call(place *it) {
    switch (below(16)) {
    case 0: gme_delete(it->emu), it->emu = NULL; break;
    case 1: case 2: ask(it->emu); break;
    case 3: gme_ignore_silence(it->emu, (int)below(2)), gme_set_autoload_playback_limit(it->emu, (int)below(2)); break;
    case 4: if (it->is_spc) it->is_started = 0, gme_load_data(it->emu, tune, tune_size); break;
    default: if (it->is_started) call_started(it);
    }
}

int main(int argc, char **argv) {
    place places[PLACES] = {{NULL, 0, 0}};
    int calls, i;
    if (argc != 5) return 2;
    tune_path = argv[1], other_path = argv[2];
    tune_size = load(tune_path, tune), other_size = load(other_path, other);
    calls = atoi(argv[3]);
    seed = (uint32_t)atoi(argv[4]);
    for (i = 0; i < calls; i++) {
        place *it = &places[below(PLACES)];
        if (it->emu) call(it);
        else open_place(it);
    }
    for (i = 0; i < PLACES; i++) gme_delete(places[i].emu);
    printf("%d calls\n", calls);
    return 0;
}
