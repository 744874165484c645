/* seeks.c: plays a tune at a rate, seeks in it 300 times, and mutes voices while it plays.
 *     seeks TUNE FRAMES RATE
 * FRAMES holds the frames of `spcwave render`, without the head of the WAV file. At 32,000 the tune has to be these; at another rate it has to be what
 * libsoxr makes of them in one go, to the last but one bit. Each row says whether it held; the status is 1 where one didn't. */
#include <gme/gme.h>
#include <soxr.h>
#include <stdint.h>
#include <stdio.h>
#include <stdlib.h>
#include <string.h>

enum { AT_ONCE = 1024, SEEKS = 300, LONGEST_PIECE = 4096, VOICES = 0x5A };

static int failed;

static void row(int holds, const char *what, int rate) {
    printf("%s  %s at %d\n", holds ? "holds" : "FAILS", what, rate);
    failed |= !holds;
}

static uint32_t seed = 1;
static uint32_t below(uint32_t bound) {
    seed = seed * 1664525u + 1013904223u;
    return (uint32_t)(((uint64_t)seed * bound) >> 32);
}

static void must(gme_err_t error) {
    if (!error) return;
    fprintf(stderr, "seeks: %s\n", error);
    exit(2);
}

/* The frames of a file, two numbers each. */
static short *frames_of(const char *path, long *count) {
    FILE *in = fopen(path, "rb");
    short *frames;
    if (!in) exit(2);
    fseek(in, 0, SEEK_END);
    *count = ftell(in) / 4;
    rewind(in);
    frames = malloc((size_t)*count * 4);
    if (!frames || fread(frames, 4, (size_t)*count, in) != (size_t)*count) exit(2);
    fclose(in);
    return frames;
}

/* Plays from the position to the end. */
static long play_whole(Music_Emu *emu, short *frames, long room) {
    long played = 0;
    while (!gme_track_ended(emu) && played + AT_ONCE <= room) {
        must(gme_play(emu, 2 * AT_ONCE, frames + 2 * played));
        played += AT_ONCE;
    }
    return played;
}

/* What libsoxr makes of all frames, and of silence behind them. */
static short *resampled_at_once(const short *frames, long count, int rate, long *made) {
    long whole = count + 32000;
    short *in = calloc((size_t)whole, 4), *out;
    size_t room = (size_t)((double)whole * rate / 32000) + 100, done;
    soxr_io_spec_t samples = soxr_io_spec(SOXR_INT16_I, SOXR_INT16_I);
    soxr_quality_spec_t quality = soxr_quality_spec(SOXR_HQ, 0);
    samples.flags = SOXR_NO_DITHER;
    memcpy(in, frames, (size_t)count * 4);
    out = malloc(room * 4);
    if (soxr_oneshot(32000, rate, 2, in, (size_t)whole, NULL, out, room, &done, &samples, &quality, NULL)) exit(2);
    free(in);
    *made = (long)done;
    return out;
}

static int differ_by(const short *a, const short *b, long frames) {
    int most = 0;
    long i;
    for (i = 0; i < 2 * frames; i++)
        if (abs(a[i] - b[i]) > most) most = abs(a[i] - b[i]);
    return most;
}

static void compare_whole(const short *played, long count, const short *wanted, long length, int rate) {
    if (rate == 32000) {
        row(count >= length && count < length + AT_ONCE && !memcmp(played, wanted, (size_t)length * 4), "the frames of spcwave render", rate);
    } else {
        long made, some;
        short *whole = resampled_at_once(wanted, length, rate, &made);
        some = made < count ? made : count;
        row(count - (long)((double)length * rate / 32000) < AT_ONCE + 1 && differ_by(played, whole, some) <= 1, "the frames of libsoxr, off by 1 at most", rate);
        free(whole);
    }
}

static void seek_around(Music_Emu *emu, const short *whole, long count, int rate) {
    static short piece[2 * LONGEST_PIECE];
    int placed = 1, exact = 1, i;
    for (i = 0; i < SEEKS; i++) {
        long at = below((uint32_t)(count - LONGEST_PIECE)), some = 1 + below(LONGEST_PIECE - 1);
        if (i % 3 == 0) {
            int milliseconds = (int)(at * 1000 / rate);
            must(gme_seek(emu, milliseconds));
            at = (long)milliseconds * rate / 1000;
        } else {
            must(gme_seek_samples(emu, (int)(2 * at)));
        }
        placed &= gme_tell_samples(emu) == 2 * at && gme_tell(emu) == at * 1000 / rate;
        must(gme_play(emu, (int)(2 * some), piece));
        exact &= !memcmp(piece, whole + 2 * at, (size_t)some * 4);
    }
    row(placed && exact, "300 seeks, each exact", rate);
}

/* Muting while it plays gives what a tune gives whose voices were muted from its beginning. */
static void mute_amid(Music_Emu *emu, const char *path, const short *whole, int rate) {
    static short heard[2 * 8000], wanted[2 * 8000];
    Music_Emu *muted;
    int at = 20 * rate;
    must(gme_open_file(path, &muted, rate));
    gme_mute_voices(muted, VOICES);
    must(gme_start_track(muted, 0));
    must(gme_seek_samples(muted, 2 * at));
    must(gme_play(muted, 2 * 8000, wanted));
    must(gme_seek_samples(emu, 2 * (at - 1000)));
    must(gme_play(emu, 2 * 1000, heard));
    gme_mute_voices(emu, VOICES);
    must(gme_play(emu, 2 * 8000, heard));
    row(!memcmp(heard, wanted, sizeof wanted) && memcmp(wanted, whole + 2 * at, sizeof wanted), "voices muted while it plays", rate);
    gme_delete(muted);
}

int main(int argc, char **argv) {
    Music_Emu *emu;
    short *wanted, *whole;
    long length, room, count;
    int rate;
    if (argc != 4) return 2;
    rate = atoi(argv[3]);
    wanted = frames_of(argv[2], &length);
    room = (long)((double)length * rate / 32000) + rate;
    whole = malloc((size_t)room * 4);
    must(gme_open_file(argv[1], &emu, rate));
    must(gme_start_track(emu, 0));
    count = play_whole(emu, whole, room);
    compare_whole(whole, count, wanted, length, rate);
    seek_around(emu, whole, count, rate);
    mute_amid(emu, argv[1], whole, rate);
    gme_delete(emu);
    free(wanted);
    free(whole);
    return failed;
}
