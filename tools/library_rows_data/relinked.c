/* A player as one is written for blargg's snes_spc: skips some seconds, and plays some to standard output. relinked TUNE.spc SKIPPED PLAYED */
#include <stdio.h>
#include <stdlib.h>
#include "spc.h"

static void check(spc_err_t error) {
    if (error) {
        fprintf(stderr, "%s\n", error);
        exit(1);
    }
}

int main(int argc, char **argv) {
    static unsigned char file[0x20000];
    static short samples[2048];
    FILE *in = argc == 4 ? fopen(argv[1], "rb") : NULL;
    SNES_SPC *spc = spc_new();
    SPC_Filter *filter = spc_filter_new();
    long size, left;

    if (!in || !spc || !filter) return 2;
    size = (long)fread(file, 1, sizeof file, in);
    fclose(in);
    if (spc_play(spc, 2, samples) == NULL || spc_load_spc(spc, file, 100) == NULL) return 3;
    check(spc_load_spc(spc, file, size));
    spc_clear_echo(spc);
    spc_filter_clear(filter);
    spc_mute_voices(spc, 0xFF);
    check(spc_skip(spc, 2 * spc_sample_rate * atoi(argv[2])));
    spc_mute_voices(spc, 0);
    for (left = 2L * spc_sample_rate * atoi(argv[3]); left > 0; left -= 2048) {
        int count = left < 2048 ? (int)left : 2048;
        check(spc_play(spc, count, samples));
        spc_filter_run(filter, samples, count);
        if (fwrite(samples, 2, (size_t)count, stdout) != (size_t)count) return 4;
    }
    spc_filter_delete(filter);
    spc_delete(spc);
    return 0;
}
