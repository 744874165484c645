/* spcwave_open in a thread with a stack of 128 KB, and each other call in one of 32 KB: stacks TUNE.spc TABLE. Status 0 where all hold. */
#include <pthread.h>
#include <stdio.h>
#include "spcwave.h"

enum { AT_ONCE = 1000 };
static uint8_t spc[1048577], table[1024], registers[128];
static size_t spc_length;
static spcwave_frame frames[AT_ONCE];
static spcwave_player *player;
static int failed;

static void *opens(void *unused) {
    const spcwave_options options = {sizeof options, 4096, 1, 0};
    failed |= spcwave_open(&player, spc, spc_length, table, sizeof table, &options) != SPCWAVE_OK;
    return unused;
}

static void *others(void *unused) {
    spcwave_voice_shown voice;
    uint32_t length, fade, n;
    char text[SPCWAVE_TAG_SIZE];
    spcwave_info info = SPCWAVE_INFO;
    failed |= spcwave_version() != SPCWAVE_VERSION || spcwave_inspect(spc, spc_length, &info) != SPCWAVE_OK;
    spcwave_length(player, &length, &fade);
    failed |= length != info.frames || spcwave_set_end(player, length, fade) != SPCWAVE_OK;
    for (n = 0; n < 40; n++) failed |= spcwave_play(player, frames, AT_ONCE) != AT_ONCE;
    failed |= spcwave_play_faded(player, frames, AT_ONCE) != AT_ONCE;
    spcwave_mark(player);
    failed |= spcwave_seek(player, 500) != SPCWAVE_OK || spcwave_position(player) != 500;
    failed |= spcwave_seek(player, 41500) != SPCWAVE_OK || spcwave_play(player, frames, AT_ONCE) != AT_ONCE;
    failed |= spcwave_free_pages(player) == 0;
    spcwave_registers(player, registers);
    spcwave_mute(player, 0x55);
    failed |= spcwave_position(player) != 42500 || spcwave_seek_some(player, 45000, 2499) != SPCWAVE_NOT_YET || spcwave_seek_some(player, 45000, 2499) != SPCWAVE_OK;
    failed |= !spcwave_tagged(player);
    for (n = 0; n < 8; n++) failed |= spcwave_voice(player, n, &voice) != SPCWAVE_OK || spcwave_tag(player, n, text, sizeof text) >= sizeof text;
    spcwave_close(&player);
    return unused;
}

/* Runs one of them in a thread with a stack of so many bytes. */
static int run(void *(*it)(void *), size_t stack) {
    pthread_attr_t attributes;
    pthread_t thread;
    if (pthread_attr_init(&attributes) || pthread_attr_setstacksize(&attributes, stack)) return 0;
    return pthread_create(&thread, &attributes, it, NULL) == 0 && pthread_join(thread, NULL) == 0 && !failed;
}

int main(int argc, char **argv) {
    FILE *in = fopen(argv[argc - 2], "rb");
    spc_length = fread(spc, 1, sizeof spc, in);
    fclose(in);
    in = fopen(argv[argc - 1], "rb");
    if (fread(table, 1, sizeof table, in) != sizeof table) return 2;
    fclose(in);
    return !(run(opens, 128 * 1024) && run(others, 32 * 1024));
}
