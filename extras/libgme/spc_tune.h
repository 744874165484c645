/* spc_tune.h: an SPC file as libgme's calls play it. */
#ifndef SPC_TUNE_H
#define SPC_TUNE_H

#include <gme/gme.h>
#include <stdbool.h>
#include <stdint.h>

#include "resampled.h"
#include "spc_run.h"
#include "spc_tags.h"

typedef struct spc_tune {
    int rate;               /* gme_info_only, where nothing is played */
    bool loaded, started;
    bool unlimited;         /* the tags' length doesn't end it */
    bool ignores_silence;
    uint8_t muted;
    spc_tags tags;
    gme_info_t info;        /* its texts are those of `tags` */
    spc_run run;            /* opened where something is to be played */
    resampled *resampled;   /* of a started tune whose rate isn't 32,000 */
    int64_t at;             /* the position, in frames of the rate */
    const char *warning;
    gme_equalizer_t equalizer;
} spc_tune;

/* Takes a file's bytes, which aren't needed afterwards. */
gme_err_t load_spc(spc_tune *tune, const uint8_t *file, size_t size);

/* Gives back what it holds. */
void unload_spc(spc_tune *tune);

#endif
