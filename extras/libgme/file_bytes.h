/* file_bytes.h: reads files, compressed by gzip or not. */
#ifndef FILE_BYTES_H
#define FILE_BYTES_H

#include <gme/gme.h>
#include <stddef.h>
#include <stdint.h>

/* The first bytes of a file; zeros behind its end. */
gme_err_t read_head(const char *path, char *head, unsigned size);

/* The whole file up to `most` bytes, which free() takes back. */
gme_err_t read_whole(const char *path, size_t most, uint8_t **bytes, size_t *size);

#endif
