/* spc_tags.h: the tags of an SPC file as libgme's users are shown them.
 *
 * The proved parts of spcwave read ID666 tags in text form. Here, in C, those in binary form and the extended ones (xid6) are read too: what these
 * say stands in place of the others. */
#ifndef SPC_TAGS_H
#define SPC_TAGS_H

#include <stdbool.h>
#include <stddef.h>
#include <stdint.h>

enum { TEXT_SIZE = 256 };

typedef struct spc_tags {
    char song[TEXT_SIZE], game[TEXT_SIZE], author[TEXT_SIZE], copyright[TEXT_SIZE], comment[TEXT_SIZE], dumper[TEXT_SIZE];
    bool timed;             /* they give the length; else it is three minutes */
    uint32_t frames, fade;  /* the length, fade included, and the fade, in frames of 32,000 a second */
} spc_tags;

/* The tags of a file, or the status by which libspcwave refuses it. */
uint32_t read_tags(spc_tags *tags, const uint8_t *file, size_t size);

#endif
