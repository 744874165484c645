/* types.h: the types of music files, as far as gme.h doesn't declare them. */
#ifndef TYPES_H
#define TYPES_H

#include <gme/gme.h>
#include <stdbool.h>

bool is_spc(gme_type_t type);

/* Whether files of a type can be played here; not of NULL. */
bool is_played(gme_type_t type);

/* The same type in the system's libgme; NULL where it has none. */
gme_type_t type_of_system(gme_type_t type);

#endif
