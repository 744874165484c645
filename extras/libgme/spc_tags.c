/* spc_tags.c: reads ID666 tags, in text and in binary form, and extended tags. */
#define _POSIX_C_SOURCE 200809L
#include "spc_tags.h"

#include <stdio.h>
#include <string.h>

#include "spcwave.h"

/* Where a file's head has them. The fade has five digits in text form, and behind them comes the author; in binary form it has four bytes. */
enum { SONG = 0x2E, GAME = 0x4E, DUMPER = 0x6E, COMMENT = 0x7E, SECONDS = 0xA9, FADE = 0xAC, AUTHOR = 0xB0, EXTENDED = 0x10200 };
enum { LONGEST_SECONDS = 0x1FFE, LONGEST_FADE = 99999 };

/* The kinds of extended tags that are shown. */
enum { X_SONG = 1, X_GAME = 2, X_AUTHOR = 3, X_DUMPER = 4, X_COMMENT = 7, X_PUBLISHER = 0x13, X_YEAR = 0x14 };

static uint32_t number_at(const uint8_t *bytes, int count) {
    uint32_t number = 0;
    while (count--) number = number << 8 | bytes[count];
    return number;
}

/* Copies a text without the blanks at both ends. Some writers put question marks where they know nothing. */
static void copy_text(char out[TEXT_SIZE], const uint8_t *in, size_t most) {
    size_t length = strnlen((const char *)in, most);
    for (; length && *in <= ' '; length--) in++;
    while (length && in[length - 1] <= ' ') length--;
    if (length > TEXT_SIZE - 1) length = TEXT_SIZE - 1;
    memcpy(out, in, length);
    out[length] = 0;
    if (!strcmp(out, "?") || !strcmp(out, "<?>") || !strcmp(out, "< ? >")) out[0] = 0;
}

static bool is_digit(uint8_t byte) { return byte >= '0' && byte <= '9'; }

/* Whether the author begins where a fade in text form has its fifth digit. */
static bool has_early_author(const uint8_t *file) { return file[AUTHOR] > ' ' && !is_digit(file[AUTHOR]); }

/* Whether tags have the binary form: in text form these fields hold digits, blanks and zero bytes. */
static bool are_binary(const uint8_t *file) {
    int place;
    for (place = SECONDS; place < AUTHOR; place++)
        if (file[place] && file[place] != ' ' && !is_digit(file[place])) return true;
    return has_early_author(file);
}

static void read_binary_length(spc_tags *tags, const uint8_t *file) {
    uint32_t seconds = number_at(file + SECONDS, 3), fade = number_at(file + FADE, 4);
    if (seconds == 0 || seconds > LONGEST_SECONDS) return;
    tags->timed = true;
    tags->fade = fade <= LONGEST_FADE ? SPCWAVE_RATE / 1000 * fade : 0;
    tags->frames = SPCWAVE_RATE * seconds + tags->fade;
    if (tags->frames > SPCWAVE_MAX_FRAMES) tags->frames = SPCWAVE_MAX_FRAMES;
}

static char *text_of_kind(spc_tags *tags, uint8_t kind) {
    switch (kind) {
    case X_SONG: return tags->song;
    case X_GAME: return tags->game;
    case X_AUTHOR: return tags->author;
    case X_DUMPER: return tags->dumper;
    case X_COMMENT: return tags->comment;
    case X_PUBLISHER: return tags->copyright;
    default: return NULL;
    }
}

/* Writes the year before the publisher. */
static void put_year(spc_tags *tags, uint32_t year) {
    char with_year[TEXT_SIZE + 8];
    snprintf(with_year, sizeof with_year, "%u %s", (unsigned)year, tags->copyright);
    copy_text(tags->copyright, (const uint8_t *)with_year, sizeof with_year);
}

/* What follows a tag is filled up with zero bytes to a multiple of four, but not by all writers. */
static const uint8_t *after_filling(const uint8_t *in, const uint8_t *begin, const uint8_t *end) {
    const uint8_t *next = in;
    while ((next - begin) % 4 && next < end)
        if (*next++) return in;
    return next;
}

/* Extended tags: each has a kind, a form (0: its number is all; else it is the length of what follows), and a number of two bytes. */
static void read_extended(spc_tags *tags, const uint8_t *begin, const uint8_t *end) {
    const uint8_t *in = begin;
    uint32_t year = 0;
    while (end - in >= 4) {
        uint8_t kind = in[0], form = in[1];
        uint32_t number = number_at(in + 2, 2), length = form ? number : 0;
        char *text = text_of_kind(tags, kind);
        in += 4;
        if (length > (size_t)(end - in)) break;
        if (text && length) copy_text(text, in, length);
        if (kind == X_YEAR && !form) year = number;
        in = after_filling(in + length, begin, end);
    }
    if (year) put_year(tags, year);
}

static void find_extended(spc_tags *tags, const uint8_t *file, size_t size) {
    const uint8_t *head = file + EXTENDED, *end = file + size;
    uint32_t length;
    if (size < EXTENDED + 8 || memcmp(head, "xid6", 4)) return;
    length = number_at(head + 4, 4);
    if (length < (size_t)(end - head - 8)) end = head + 8 + length;
    read_extended(tags, head + 8, end);
}

uint32_t read_tags(spc_tags *tags, const uint8_t *file, size_t size) {
    spcwave_info info = SPCWAVE_INFO;
    uint32_t status = spcwave_inspect(file, size, &info);
    if (status != SPCWAVE_OK) return status;
    memset(tags, 0, sizeof *tags);
    copy_text(tags->song, file + SONG, 32);
    copy_text(tags->game, file + GAME, 32);
    copy_text(tags->dumper, file + DUMPER, 16);
    copy_text(tags->comment, file + COMMENT, 32);
    copy_text(tags->author, file + AUTHOR + !has_early_author(file), 32);
    tags->timed = info.timed;
    tags->frames = info.frames;
    tags->fade = info.fade;
    if (info.tagged && are_binary(file)) read_binary_length(tags, file);
    find_extended(tags, file, size);
    return SPCWAVE_OK;
}
