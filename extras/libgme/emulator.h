/* emulator.h: what a player holds of this library, and the errors that it gets. */
#ifndef EMULATOR_H
#define EMULATOR_H

#include <gme/gme.h>

#include "spc_tune.h"
#include "system_gme.h"

struct Music_Emu {
    const struct gme_calls *calls;  /* what plays it: spc_calls, or the system's libgme */
    Music_Emu *inner;               /* what these calls take: itself, or the system's emulator */
    gme_type_t type;                /* of this library's types */
    void *user_data;
    gme_user_cleanup_t cleanup;
    spc_tune spc;                   /* of an SPC file only */
};

/* The calls that play SPC files, by libspcwave. */
extern const struct gme_calls spc_calls;

#endif
