/* errors.h: the errors that more than one file answers with. */
#ifndef ERRORS_H
#define ERRORS_H

#include <gme/gme.h>

static const char OUT_OF_MEMORY[] = "Out of memory", NOT_LOADED[] = "No file is loaded", INVALID_TRACK[] = "Invalid track",
                  CANNOT_OPEN[] = "Couldn't open file";

#endif
