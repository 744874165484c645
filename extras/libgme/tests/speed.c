/* Plays a tune as ffmpeg has libgme play it, 128 frames a call: speed TUNE RATE SECONDS. It prints the processor time of these calls, in seconds. */
#include <stdio.h>
#include <stdlib.h>
#include <time.h>
#include <gme/gme.h>

enum { SAMPLES = 256 };

static double processor_seconds(void) { return (double)clock() / CLOCKS_PER_SEC; }

int main(int argc, char **argv) {
    int rate = argc == 4 ? atoi(argv[2]) : 0;
    long left = argc == 4 ? atol(argv[3]) * rate * 2 : 0;
    Music_Emu *tune = NULL;
    short samples[SAMPLES];
    double begun;

    if (argc != 4 || gme_open_file(argv[1], &tune, rate) || gme_start_track(tune, 0)) return 1;
    for (begun = processor_seconds(); left > 0; left -= SAMPLES)
        if (gme_play(tune, SAMPLES, samples)) return 1;
    printf("%.6f\n", processor_seconds() - begun);
    gme_delete(tune);
    return 0;
}
