/* file_bytes.c: reads files by zlib, which passes through what isn't compressed. */
#include "file_bytes.h"

#include <stdlib.h>
#include <string.h>
#include <zlib.h>

#include "errors.h"

static const char CANNOT_READ[] = "Couldn't read from file";

gme_err_t read_head(const char *path, char *head, unsigned size) {
    gzFile in = gzopen(path, "rb");
    int got;
    if (!in) return CANNOT_OPEN;
    memset(head, 0, size);
    got = gzread(in, head, size);
    gzclose(in);
    return got < 0 ? CANNOT_READ : NULL;
}

gme_err_t read_whole(const char *path, size_t most, uint8_t **bytes, size_t *size) {
    gzFile in = gzopen(path, "rb");
    uint8_t *all;
    int got;
    if (!in) return CANNOT_OPEN;
    all = malloc(most);
    got = all ? gzread(in, all, (unsigned)most) : 0;
    gzclose(in);
    if (!all) return OUT_OF_MEMORY;
    if (got < 0) {
        free(all);
        return CANNOT_READ;
    }
    *bytes = all;
    *size = (size_t)got;
    return NULL;
}
