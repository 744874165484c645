/* Each allocation of spcwave_open refused in turn, that what it has to refuse is refused without memory, and that no other call allocates:
 * memory TUNE.spc TABLE. Link with -Wl,--wrap=malloc,--wrap=realloc,--wrap=free. */
#include <stdio.h>
#include <stdlib.h>
#include "spcwave.h"

void *__real_malloc(size_t n);
void *__real_realloc(void *p, size_t n);
void __real_free(void *p);
static long calls, refused = -1, live, bytes, most, frees;
void *__wrap_malloc(size_t n) {
    if (calls++ == refused) return NULL;
    size_t *p = __real_malloc(n + 16);
    if (!p) return NULL;
    p[0] = n; live++; bytes += (long)n;
    if (bytes > most) most = bytes;
    return p + 2;
}
void __wrap_free(void *p) { if (p) { size_t *q = (size_t *)p - 2; live--; frees++; bytes -= (long)q[0]; __real_free(q); } }
void *__wrap_realloc(void *p, size_t n) {
    void *q;
    if (!p) return __wrap_malloc(n);
    if (calls++ == refused) return NULL;
    q = __real_realloc((size_t *)p - 2, n + 16);
    if (!q) return NULL;
    bytes += (long)n - (long)((size_t *)q)[0]; ((size_t *)q)[0] = n;
    if (bytes > most) most = bytes;
    return (size_t *)q + 2;
}
static uint8_t spc[1048577], table[1024], zeros[1048577];
int main(int argc, char **argv) {
    FILE *in = fopen(argv[argc - 2], "rb");
    size_t n = fread(spc, 1, sizeof spc, in);
    fclose(in);
    in = fopen(argv[argc - 1], "rb");
    if (fread(table, 1, 1024, in) != 1024) return 2;
    fclose(in);
    const spcwave_options options = { sizeof options, 4096, 1, 0 }, few = { sizeof few, 255, 1, 0 }, small = { 12, 4096, 1, 0 };
    spcwave_info info = SPCWAVE_INFO;
    uint8_t registers[128];
    char text[SPCWAVE_TAG_SIZE];
    spcwave_voice_shown voice;
    spcwave_player *player = NULL;
    static spcwave_frame frames[1000];
    uint32_t length, fade, status;
    long before, i, all;
    calls = bytes = most = live = 0;
    if (spcwave_open(&player, spc, n, table, 1024, &options)) return 3;
    all = calls;
    printf("open: %ld calls of malloc and realloc, %ld blocks live, %ld bytes, %ld at most\n", all, live, bytes, most);
    before = calls; frees = 0;
    for (i = 0; i < 100; i++) {
        if (spcwave_play(player, frames, 1000) != 1000) return 4;
        if (spcwave_play_faded(player, frames, 1000) != 1000) return 4;
        spcwave_registers(player, registers);
        if (spcwave_voice(player, (uint32_t)(i % 8), &voice)) return 6;
        spcwave_mark(player);
        if (i % 20 == 0) spcwave_mute(player, (uint8_t)i);
        while ((status = spcwave_seek_some(player, (uint32_t)(i * 7919), 5000)) == SPCWAVE_NOT_YET) {}
        if (status || spcwave_seek(player, (uint32_t)(i * 7919))) return 5;
        if (spcwave_position(player) != (uint32_t)(i * 7919) || spcwave_free_pages(player) > 4096 - 256) return 7;
        spcwave_length(player, &length, &fade);
        if (length < fade || spcwave_set_end(player, length, fade) || spcwave_inspect(spc, n, &info)) return 8;
        if (spcwave_tagged(player) != (spc[0x23] == 0x1A) || spcwave_tag(player, (uint32_t)(i % 9), text, sizeof text) >= sizeof text) return 9;
        if (spcwave_version() != SPCWAVE_VERSION) return 10;
        /* and refused */
        if (!spcwave_voice(player, 8, &voice) || !spcwave_seek(player, SPCWAVE_MAX_FRAMES + 1)) return 11;
        if (!spcwave_set_end(player, 0, 1) || !spcwave_seek_some(player, 0, 0) || !spcwave_inspect(spc, 0, &info)) return 11;
    }
    printf("all other calls: %ld allocations, %ld frees\n", calls - before, frees);
    before = calls;
    spcwave_close(&player);
    if (player) return 13;
    spcwave_close(&player);
    printf("close: %ld allocations, %ld blocks live, %ld bytes\n", calls - before, live, bytes);
    if (calls != before || live) return 12;
    for (i = 0; i < all; i++) {
        calls = 0; refused = i;
        status = spcwave_open(&player, spc, n, table, 1024, &options);
        if (status != SPCWAVE_OUT_OF_MEMORY || player || live) {
            printf("FAILS at %ld: status %u, %ld live\n", i, (unsigned)status, live);
            return 1;
        }
    }
    calls = refused = 0;     /* there is no memory at all, and none is asked for */
    for (i = 0; i < 100; i++) {
        if (spcwave_open(&player, spc, 65919, table, 1024, &options) != SPCWAVE_SPC_LENGTH || live || bytes) return 14;
        if (spcwave_open(&player, zeros, n, table, 1024, &options) != SPCWAVE_SPC_SIGNATURE || live || bytes) return 15;
        if (spcwave_open(&player, spc, n, table, 1023, &options) != SPCWAVE_TABLE_LENGTH || live || bytes) return 16;
        if (spcwave_open(&player, spc, n, table, 1024, &few) != SPCWAVE_OUT_OF_RANGE || live || bytes) return 17;
        if (spcwave_open(&player, spc, n, table, 1024, &small) != SPCWAVE_OUT_OF_RANGE || live || bytes || player) return 18;
    }
    if (calls) return 19;
    printf("each of %ld calls refused, and 500 opens for other reasons, without memory: none open, nothing left\n", all);
    return 0;
}
