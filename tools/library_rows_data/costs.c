/* What calls cost, for a tool that counts a program's instructions: costs TUNE.spc TABLE PART does the parts up to this one, of which each adds
 * one thing. A is nothing, B opens, C plays 32,000 frames, D plays as many again, E takes a mark, F plays 6,400 frames, G goes back to the mark. */
#include <stdio.h>
#include "spcwave.h"

enum { SECOND = 32000, LITTLE = 6400 };

int main(int argc, char **argv) {
    static uint8_t spc[1048577], table[1024];
    static spcwave_frame frames[SECOND];
    const spcwave_options options = SPCWAVE_OPTIONS;
    spcwave_player *player;
    FILE *in = argc == 4 ? fopen(argv[1], "rb") : NULL;
    size_t length;
    char part;

    if (!in) return 2;
    part = argv[3][0];
    length = fread(spc, 1, sizeof spc, in);
    fclose(in);
    in = fopen(argv[2], "rb");
    if (!in || fread(table, 1, sizeof table, in) != sizeof table) return 2;
    fclose(in);
    if (part < 'B') return 0;
    if (spcwave_open(&player, spc, length, table, sizeof table, &options) != SPCWAVE_OK) return 1;
    if (part < 'C') return 0;
    if (spcwave_play(player, frames, SECOND) != SECOND) return 1;
    if (part < 'D') return 0;
    if (spcwave_play(player, frames, SECOND) != SECOND) return 1;
    if (part < 'E') return 0;
    spcwave_mark(player);
    if (part < 'F') return 0;
    if (spcwave_play(player, frames, LITTLE) != LITTLE) return 1;
    if (part < 'G') return 0;
    return spcwave_seek(player, 2 * SECOND) != SPCWAVE_OK;
}
