/* Rows of the library beside the sound file of the program: rows TUNE.spc TABLE TUNE.wav [SEEKS]. Status 0 where all hold. */
#include <pthread.h>
#include <stdio.h>
#include <stdlib.h>
#include <string.h>
#include <time.h>
#include "spcwave.h"

static uint8_t *whole(const char *name, size_t *length) {
    FILE *in = fopen(name, "rb");
    uint8_t *bytes;
    if (!in) { perror(name); exit(2); }
    fseek(in, 0, SEEK_END);
    *length = (size_t)ftell(in);
    rewind(in);
    bytes = malloc(*length + 1);
    if (fread(bytes, 1, *length, in) != *length) exit(2);
    fclose(in);
    return bytes;
}

static int failures, rows;
static void row(int holds, const char *what) {
    rows++;
    if (!holds) { failures++; printf("FAILS: %s\n", what); }
}
static double now(void) { struct timespec t; clock_gettime(CLOCK_MONOTONIC, &t); return (double)t.tv_sec + 1e-9 * (double)t.tv_nsec; }
static double least_of(double one, double other) { return one < other ? one : other; }
static uint64_t seed = 1;
static uint32_t below(uint32_t n) { seed = seed * 6364136223846793005u + 1442695040888963407u; return (uint32_t)((seed >> 33) % n); }

/* A second player, which is opened, played and closed in a thread of its own. */
struct second { const uint8_t *spc, *table; size_t spc_length; const spcwave_frame *wanted; uint32_t count; int same; };
static void *play_second(void *given) {
    struct second *it = given;
    const spcwave_options options = { sizeof options, 256, 0, 0 };
    spcwave_player *player = NULL;
    spcwave_frame *got = malloc(sizeof *got * it->count);
    it->same = spcwave_open(&player, it->spc, it->spc_length, it->table, 1024, &options) == SPCWAVE_OK
        && spcwave_play(player, got, it->count) == it->count && memcmp(got, it->wanted, sizeof *got * it->count) == 0;
    if (player) spcwave_close(&player);
    free(got);
    return NULL;
}

/* A handle that was opened in one thread plays in another. */
struct handed { spcwave_player *player; const spcwave_frame *wanted; uint32_t count; int same; };
static void *play_handed(void *given) {
    struct handed *it = given;
    spcwave_frame *got = malloc(sizeof *got * it->count);
    it->same = spcwave_seek(it->player, 0) == SPCWAVE_OK && spcwave_play(it->player, got, it->count) == it->count
        && memcmp(got, it->wanted, sizeof *got * it->count) == 0;
    free(got);
    return NULL;
}

/* Each status has a text of its own, and other numbers have one for all of them. */
static void try_texts(void) {
    static const uint32_t statuses[] = {0, 4, 5, 6, 7, 17, 18}, others[] = {1, 3, 8, 16, 19, UINT32_MAX};
    size_t i, j;
    for (i = 0; i < sizeof statuses / sizeof *statuses; i++) {
        const char *text = spcwave_status_text(statuses[i]);
        row(text[0] != 0 && strcmp(text, "unknown status") != 0, "a status has a text");
        for (j = 0; j < i; j++) row(strcmp(text, spcwave_status_text(statuses[j])) != 0, "of its own");
    }
    for (i = 0; i < sizeof others / sizeof *others; i++) row(strcmp(spcwave_status_text(others[i]), "unknown status") == 0, "another number has none");
}

/* Files with these tags: byte 23h, the seconds and the milliseconds of the fade; and the length and the fade that they give, in frames. */
static const struct tagged { uint8_t mark; const char *seconds, *fade; uint32_t frames, fade_frames; bool timed; } lengths[] = {
    {0x1A, "2", "500", 80000, 16000, true}, {0x1A, "2", "", 64000, 0, true}, {0x1A, "", "500", 5760000, 0, false},
    {0x1A, "0", "500", 5760000, 0, false}, {0x1A, "2s", "500", 5760000, 0, false}, {0x1B, "2", "500", 5760000, 0, false},
};

/* Whether a tune with such tags has their length, before it is opened and afterwards. */
static int has_length(const struct tagged *it, uint8_t *spc, size_t spc_length, const uint8_t *table) {
    const spcwave_options options = { sizeof options, 256, 0, 0 };
    spcwave_player *player = NULL;
    spcwave_info info = SPCWAVE_INFO;
    uint32_t frames, fade;
    int same;
    spc[0x23] = it->mark;
    memset(spc + 0xA9, 0, 8);
    memcpy(spc + 0xA9, it->seconds, strlen(it->seconds));
    memcpy(spc + 0xAC, it->fade, strlen(it->fade));
    same = spcwave_inspect(spc, spc_length, &info) == SPCWAVE_OK && info.frames == it->frames && info.fade == it->fade_frames
        && info.timed == it->timed && info.tagged == (it->mark == 0x1A);
    if (spcwave_open(&player, spc, spc_length, table, 1024, &options) != SPCWAVE_OK) return 0;
    spcwave_length(player, &frames, &fade);
    same = same && frames == it->frames && fade == it->fade_frames && spcwave_tagged(player) == (it->mark == 0x1A);
    spcwave_close(&player);
    return same;
}

int main(int argc, char **argv) {
    size_t spc_length, table_length, wave_length, i;
    uint8_t *spc = whole(argv[1], &spc_length), *table = whole(argv[2], &table_length), *wave = whole(argv[3], &wave_length);
    const spcwave_frame *ref = (const spcwave_frame *)(wave + 44);
    uint32_t count = (uint32_t)((wave_length - 44) / 4), length, fade, steady;
    int seeks = argc > 4 ? atoi(argv[4]) : 1000, n, marks;
    char text[SPCWAVE_TAG_SIZE];
    spcwave_player *player = NULL, *other = NULL;
    spcwave_frame *got = malloc(sizeof *got * (count + 8));
    spcwave_options options = SPCWAVE_OPTIONS, few = { sizeof few, 255, 0, 0 }, many = { sizeof many, 65537, 0, 0 };
    spcwave_options seldom = { sizeof seldom, 4096, 3601, 0 }, small = { sizeof small - 4, 4096, 0, 0 }, large = { sizeof large + 4, 4096, 0, 0 };
    spcwave_info info = SPCWAVE_INFO, kept;
    uint8_t registers[128];
    unsigned char bits[sizeof player];
    spcwave_voice_shown voice;

    row(spcwave_version() == SPCWAVE_VERSION, "the header is that of the library");
    try_texts();
    /* refusals */
    row(spcwave_open(&player, spc, 65919, table, 1024, &options) == SPCWAVE_SPC_LENGTH, "too short");
    row(spcwave_open(&player, spc, 0, table, 1024, &options) == SPCWAVE_SPC_LENGTH, "empty");
    row(spcwave_open(&player, wave, 65920, table, 1024, &options) == SPCWAVE_SPC_SIGNATURE, "no signature");
    row(spcwave_open(&player, spc, spc_length, table, 1023, &options) == SPCWAVE_TABLE_LENGTH, "short table");
    row(spcwave_open(&player, spc, spc_length, table, 1024, &few) == SPCWAVE_OUT_OF_RANGE, "few pages");
    row(spcwave_open(&player, spc, spc_length, table, 1024, &many) == SPCWAVE_OUT_OF_RANGE, "many pages");
    row(spcwave_open(&player, spc, spc_length, table, 1024, &seldom) == SPCWAVE_OUT_OF_RANGE, "marks too seldom");
    row(spcwave_open(&player, spc, spc_length, table, 1024, &small) == SPCWAVE_OUT_OF_RANGE, "options of a smaller size");
    row(spcwave_open(&player, spc, spc_length, table, 1024, &large) == SPCWAVE_OUT_OF_RANGE, "options of a larger size");
    row(spcwave_open(&player, NULL, 0, table, 1024, &options) == SPCWAVE_SPC_LENGTH, "no bytes at all");
    row(spcwave_open(&player, spc, spc_length, NULL, 0, &options) == SPCWAVE_TABLE_LENGTH, "no table at all");
    row(player == NULL, "refusals give no player");
    spcwave_close(&player);
    row(player == NULL, "and closing none does nothing");
    /* what the bytes say */
    memset(&info, 0x55, sizeof info);
    kept = info;
    row(spcwave_inspect(spc, spc_length, &info) == SPCWAVE_OUT_OF_RANGE && memcmp(&info, &kept, sizeof info) == 0, "an inspection without a size");
    info.size = sizeof info;
    kept = info;
    row(spcwave_inspect(spc, 65919, &info) == SPCWAVE_SPC_LENGTH && memcmp(&info, &kept, sizeof info) == 0, "of a file that is too short");
    row(spcwave_inspect(NULL, 0, &info) == SPCWAVE_SPC_LENGTH && memcmp(&info, &kept, sizeof info) == 0, "of no bytes at all");
    row(spcwave_inspect(wave, 65920, &info) == SPCWAVE_SPC_SIGNATURE && memcmp(&info, &kept, sizeof info) == 0, "of another file");
    row(spcwave_inspect(spc, spc_length, &info) == SPCWAVE_OK && info.frames == count && info.tagged && info.timed && info.size == sizeof info, "of the tune");
    uint8_t *other_tags = malloc(spc_length);
    memcpy(other_tags, spc, spc_length);
    for (i = 0; i < sizeof lengths / sizeof *lengths; i++) row(has_length(&lengths[i], other_tags, spc_length, table), "of the tune with other tags");
    free(other_tags);
    /* bits that are no handle: spcwave_open leaves them where it is refused, and else writes over them; no other call may be given them */
    memset(&other, 0xA5, sizeof other);
    memset(bits, 0xA5, sizeof bits);
    row(spcwave_open(&other, wave, 65920, table, 1024, &options) == SPCWAVE_SPC_SIGNATURE && memcmp(&other, bits, sizeof bits) == 0, "a wrong file over bits");
    row(spcwave_open(&other, spc, spc_length, table, 0, &options) == SPCWAVE_TABLE_LENGTH && memcmp(&other, bits, sizeof bits) == 0, "a wrong table over bits");
    row(spcwave_open(&other, spc, spc_length, table, 1024, &few) == SPCWAVE_OUT_OF_RANGE && memcmp(&other, bits, sizeof bits) == 0, "few pages over bits");
    row(spcwave_open(&other, spc, spc_length, table, 1024, &options) == SPCWAVE_OK && spcwave_position(other) == 0, "opens over bits");
    row(spcwave_play(other, got, count / 8) == count / 8 && memcmp(got, ref, count / 8 * sizeof *got) == 0, "and plays");
    spcwave_close(&other);
    row(other == NULL, "a closed player is NULL");
    memcpy(bits, &other, sizeof bits);
    row(spcwave_open(&other, wave, 65920, table, 1024, &options) == SPCWAVE_SPC_SIGNATURE && memcmp(&other, bits, sizeof bits) == 0, "a wrong file over a closed one");
    row(spcwave_open(&other, spc, spc_length, table, 1024, &options) == SPCWAVE_OK && spcwave_position(other) == 0, "opens over a closed one");
    spcwave_close(&other);
    /* the whole tune */
    row(spcwave_open(&player, spc, spc_length, table, table_length, &options) == SPCWAVE_OK, "opens");
    spcwave_length(player, &length, &fade);
    row(length == count && fade == info.fade, "its length is that of the sound file");
    steady = length - fade;
    /* its tags, which stand in the file's bytes from 2Eh on, and byte 23h says whether there are any */
    row(spcwave_tagged(player) == (spc[0x23] == 0x1A), "whether it has tags");
    for (i = 0; i < 32 && spc[0x2E + i]; i++) {}
    row(spcwave_tag(player, SPCWAVE_TITLE, text, sizeof text) == i && memcmp(text, spc + 0x2E, i) == 0 && text[i] == 0, "its title");
    for (i = 0; i < 32 && spc[0xB1 + i]; i++) {}
    row(spcwave_tag(player, SPCWAVE_ARTIST, text, sizeof text) == i && memcmp(text, spc + 0xB1, i) == 0 && text[i] == 0, "its artist");
    memset(text, 0x55, sizeof text);
    n = (int)spcwave_tag(player, SPCWAVE_TITLE, text, 4);
    row(n < 3 || (memcmp(text, spc + 0x2E, 3) == 0 && text[3] == 0 && text[4] == 0x55), "cut off with a zero byte");
    row(spcwave_tag(player, SPCWAVE_TITLE, text, 0) == (size_t)n && (n < 1 || text[0] == (char)spc[0x2E]), "no room, and nothing written");
    for (n = 0; n < SPCWAVE_TAGS; n++) {
        row(spcwave_tag(player, (uint32_t)n, text, sizeof text) == info.tags[n].length && memcmp(text, spc + info.tags[n].offset, info.tags[n].length) == 0,
            "a text is where the inspection found it");
    }
    row(spcwave_tag(player, SPCWAVE_TITLE, NULL, 0) == info.tags[0].length, "no room at all");
    row(spcwave_tag(player, 8, text, sizeof text) == 0 && text[0] == 0, "no tag has number 8");
    row(spcwave_free_pages(player) == 4096 - 256, "the mark of frame 0 has 256 pages");
    row(spcwave_position(player) == 0, "stands at 0");
    double least, t = now();
    row(spcwave_play(player, got, count) == count, "plays all in one call");
    t = now() - t;
    printf("played %u frames in %.3f s, %.1f ns a frame\n", count, t, 1e9 * t / count);
    row(memcmp(got, ref, steady * sizeof *got) == 0, "and they are those of the sound file");
    row(spcwave_position(player) == count, "stands at the end");
    spcwave_frame *mine = malloc(sizeof *mine * (count + 8));
    memcpy(mine, got, sizeof *mine * count);
    /* in odd pieces, beside a second player */
    options.pages = 256;
    row(spcwave_open(&other, spc, spc_length, table, table_length, &options) == SPCWAVE_OK, "a second player");
    row(spcwave_seek(player, 0) == SPCWAVE_OK && spcwave_position(player) == 0, "back to 0");
    uint32_t at = 0;
    int same = 1;
    while (at < count / 4) {
        uint32_t piece = 1 + below(700);
        row(spcwave_play(player, got, piece) == piece, "a piece");
        same &= memcmp(got, mine + at, piece * sizeof *got) == 0;
        row(spcwave_play(other, got, piece) == piece, "a piece of the other");
        same &= memcmp(got, mine + at, piece * sizeof *got) == 0;
        at += piece;
    }
    row(same, "pieces of both are those of the tune");
    spcwave_close(&other);
    /* in a thread of its own, while this one plays */
    struct second second = {spc, table, spc_length, mine, count / 4, 0};
    pthread_t thread;
    row(pthread_create(&thread, NULL, play_second, &second) == 0, "a second thread");
    spcwave_seek(player, count / 8);
    row(spcwave_play(player, got, count / 8) == count / 8 && memcmp(got, mine + count / 8, count / 8 * sizeof *got) == 0, "frames beside a second thread");
    row(pthread_join(thread, NULL) == 0 && second.same, "and those of its player");
    struct handed handed = {player, mine, count / 8, 0};
    row(pthread_create(&thread, NULL, play_handed, &handed) == 0 && pthread_join(thread, NULL) == 0 && handed.same, "a handle that goes to another thread");
    row(spcwave_position(player) == count / 8, "and comes back");
    /* with the fade */
    spcwave_seek(player, 0);
    row(spcwave_play_faded(player, got, count + 8) == count && memcmp(got, ref, count * sizeof *got) == 0, "with the fade they are the whole sound file");
    row(spcwave_play_faded(player, got, 8) == 0 && spcwave_position(player) == count, "and no more");
    /* from a mark, which keeps the seeks short */
    spcwave_seek(player, steady - 64);
    spcwave_mark(player);
    for (n = 0, same = 1; n < 100; n++) {
        uint32_t to = steady - 64 + below(fade + 64);
        size_t wanted = count - to < 64 ? count - to : 64;
        spcwave_seek(player, to);
        same &= spcwave_play_faded(player, got, 64) == wanted && memcmp(got, ref + to, wanted * sizeof *got) == 0;
    }
    row(same, "wherever it begins");
    /* what shows */
    spcwave_registers(player, registers);
    for (n = 0, same = 1; n < 8; n++) {
        row(spcwave_voice(player, (uint32_t)n, &voice) == SPCWAVE_OK, "a voice");
        same &= voice.source == registers[16 * n + 4] && voice.pitch == (registers[16 * n + 2] + 256 * registers[16 * n + 3]) % 0x4000;
        same &= voice.output == (int8_t)registers[16 * n + 9] && voice.level / 16 == registers[16 * n + 8];
    }
    row(same, "and voices are those of the registers");
    row(spcwave_voice(player, 8, &voice) == SPCWAVE_OUT_OF_RANGE, "there is no voice 8");
    /* frames behind those given are left */
    spcwave_seek(player, 10);
    memset(got, 0x55, sizeof *got * 8);
    row(spcwave_play(player, got, 3) == 3 && memcmp(got, mine + 10, 12) == 0 && ((uint8_t *)got)[12] == 0x55, "frames behind are left");
    row(spcwave_play(player, NULL, 0) == 0 && spcwave_play_faded(player, NULL, 0) == 0 && spcwave_position(player) == 13, "none are none");
    /* past the hour's end */
    row(spcwave_seek(player, SPCWAVE_MAX_FRAMES + 1) == SPCWAVE_OUT_OF_RANGE && spcwave_position(player) == 13, "past the hour");
    row(spcwave_seek_some(player, SPCWAVE_MAX_FRAMES + 1, 1) == SPCWAVE_OUT_OF_RANGE && spcwave_seek_some(player, 9, 0) == SPCWAVE_OUT_OF_RANGE
        && spcwave_position(player) == 13, "in parts too, and in parts of none");
    row(spcwave_set_end(player, SPCWAVE_MAX_FRAMES + 1, 0) == SPCWAVE_OUT_OF_RANGE && spcwave_set_end(player, 9, 10) == SPCWAVE_OUT_OF_RANGE, "an end past the hour, a fade past it");
    spcwave_seek(player, count - 8);
    row(spcwave_play_faded(player, got, 16) == 8, "and the end is that of the tags still");
    row(spcwave_set_end(player, SPCWAVE_MAX_FRAMES, SPCWAVE_MAX_FRAMES) == SPCWAVE_OK && spcwave_play_faded(player, got, 16) == 16, "an end at the hour");
    row(spcwave_set_end(player, 0, 0) == SPCWAVE_OK && spcwave_play_faded(player, got, 16) == 0, "an end at the start");
    spcwave_length(player, &length, &fade);
    row(length == count && fade == info.fade && spcwave_set_end(player, length, fade) == SPCWAVE_OK, "the tags' length is still reported, and set again");
    /* seeks */
    for (marks = 0; marks < 3; marks++) {
        static const char *how[] = {"without marks", "with marks", "with marks each second"};
        double worst = 0, all = 0, each;
        options.pages = 65536 / 8;
        options.mark_seconds = marks == 2;
        spcwave_close(&player);
        row(spcwave_open(&player, spc, spc_length, table, table_length, &options) == SPCWAVE_OK, "opens again");
        if (marks == 2) {
            for (at = 0; at < count; at += 1000) spcwave_play(player, got, 1000);
            n = (int)spcwave_free_pages(player);
            options.mark_seconds = 0;
            row(spcwave_open(&other, spc, spc_length, table, table_length, &options) == SPCWAVE_OK, "a player beside it");
            for (at = 32000; at <= count; at += 32000) {
                spcwave_seek(other, at);
                spcwave_mark(other);
            }
            row((int)spcwave_free_pages(other) == n, "marks of its own are those that another one takes there");
            spcwave_close(&other);
        }
        if (marks == 1) {
            t = now();
            for (i = 1; i < 64; i++) {
                spcwave_seek(player, (uint32_t)(count * i / 64));
                spcwave_mark(player);
            }
            printf("63 marks in %.3f s\n", now() - t);
        }
        for (n = 0, same = 1; n < seeks; n++) {
            uint32_t to = below(count - 64), want = 1 + below(64);
            t = now();
            spcwave_seek(player, to);
            each = now() - t;
            all += each;
            if (each > worst) worst = each;
            spcwave_play(player, got, want);
            if (memcmp(got, mine + to, want * sizeof *got)) same = 0;
        }
        row(same, "seeks give slices");
        printf("%d seeks %s: %.3f ms each, %.3f ms at most\n", seeks, how[marks], 1e3 * all / seeks, 1e3 * worst);
        spcwave_seek(player, count / 2);
        spcwave_mark(player);
        for (n = 0, all = 0; n < 100; n++) {
            spcwave_play(player, got, 64);
            t = now();
            spcwave_seek(player, count / 2);
            all += now() - t;
        }
        printf("back to a mark: %.1f us\n", 1e4 * all);
    }
    options.pages = 4096;
    options.mark_seconds = 0;
    for (n = 0, least = 1; n < 100; n++) {
        t = now();
        spcwave_close(&player);
        spcwave_open(&player, spc, spc_length, table, table_length, &options);
        least = least_of(least, now() - t);
    }
    printf("close and open: %.1f us at least\n", 1e6 * least);
    for (n = 0, least = 60; n < 10 && count > 640000; n++) {
        spcwave_seek(player, 640000);
        t = now();
        spcwave_mute(player, n % 2);
        least = least_of(least, now() - t);
    }
    if (n > 0) printf("a voice muted at 20 s: %.1f ms at least\n", 1e3 * least);
    spcwave_close(&player);
    free(got); free(mine); free(spc); free(table); free(wave);
    printf("%d rows, %d fail\n", rows, failures);
    return failures != 0;
}
