/* spcwave.h: plays SPC music files of the Super Nintendo's sound unit, 16-bit stereo at 32,000 frames a second.
 *
 *     uint8_t table[1024];
 *     spcwave_player *player = NULL;
 *     spcwave_options options = SPCWAVE_OPTIONS;
 *     spcwave_console_table(table);                                    (spcwave_table.h)
 *     if (spcwave_open(&player, spc, spc_length, table, sizeof table, &options) == SPCWAVE_OK) {
 *         while ((count = spcwave_play_faded(player, frames, 1024)) > 0) ..
 *     }
 *     spcwave_close(&player);
 *
 * What you hear is the run of the console's machine from the state in the file: processor and S-DSP in lock step, without the muted voices. Frame
 * n is the same whatever was played, sought, marked or muted before. It depends on the file, on the table and on the voices that are muted now.
 * That of spcwave_play_faded depends on the end and the fade too. The contract of every exported call is proved. As long as you keep the rules,
 * what it returns, what it writes and what it leaves as it was are what stands below. Only tested are what a null pointer does, that the stack
 * below is enough, what stands under Memory, that this header declares what the library exports, spcwave_status_text, and that
 * SPCWAVE_OUT_OF_MEMORY is returned for want of memory alone. That two players share nothing holds by the language of the library's sources, and
 * from which level a voice sounds is seen by reading.
 *
 * The rules. None of them is checked:
 *  - A player that is passed to a call was opened by spcwave_open and isn't closed yet.
 *  - One call at a time uses a player; this holds for the calls that take a const player too. A player may go from one thread to another by a lock,
 *    by the start or the end of a thread, or by a sequentially consistent atomic. Two players share nothing: each may be used in a thread of its
 *    own.
 *  - A pointer points to as many bytes as the call says. During the call no other thread writes them, or reads those that the call may write. So two
 *    threads may open players from the same file and table. Two pointers of one call point to different bytes. A null pointer is fine where its
 *    length, count or size is 0, and only there.
 *  - malloc, realloc and free are of one allocator, and malloc and realloc align a block to each power of two up to 16 that divides its size.
 *  - No call is made from a signal handler, or from a forked child of a process with threads.
 *  - 128 KB of stack are free in spcwave_open, and 32 KB in every other call.
 *
 * Memory. Only spcwave_open allocates any: 562 KB, and 260 bytes a page. spcwave_close frees all of it, and so does spcwave_open itself where it
 * doesn't return OK. How much is allocated and freed is tested, not proved.
 */
#ifndef SPCWAVE_H
#define SPCWAVE_H

#include <stdbool.h>
#include <stddef.h>
#include <stdint.h>

#ifdef __cplusplus
extern "C" {
#endif

/* What the library exports. Define it before the header is included to give the declarations another attribute. */
#ifndef SPCWAVE_API
#if defined(__GNUC__)
#define SPCWAVE_API __attribute__((visibility("default")))
#else
#define SPCWAVE_API
#endif
#endif

#define SPCWAVE_VERSION 0x010200u       /* of this header: 1.2.0, a byte for each of its numbers */
#define SPCWAVE_RATE 32000              /* frames a second */
#define SPCWAVE_MAX_FRAMES 115200000u   /* the last position: an hour */
#define SPCWAVE_PAGES 4096u             /* a good number of pages for marks: 1 MB */
#define SPCWAVE_TAG_SIZE 33             /* bytes that the text of any tag fits in, with its zero byte */
#define SPCWAVE_TAGS 8                  /* the number of tags */

/* What calls return. */
enum spcwave_status {
    SPCWAVE_OK = 0,
    SPCWAVE_SPC_LENGTH = 4,     /* the file hasn't 65,920 to 1,048,576 bytes */
    SPCWAVE_SPC_SIGNATURE = 5,  /* it doesn't begin with "SNES-SPC700 Sound File Data" */
    SPCWAVE_TABLE_LENGTH = 6,   /* the table hasn't 1,024 bytes */
    SPCWAVE_OUT_OF_MEMORY = 7,
    SPCWAVE_OUT_OF_RANGE = 17,  /* a number is out of its range */
    SPCWAVE_NOT_YET = 18        /* spcwave_seek_some isn't at its frame yet: call it again */
};

/* The tags of a file. */
enum spcwave_tags {
    SPCWAVE_TITLE,
    SPCWAVE_GAME,
    SPCWAVE_ARTIST,     /* who wrote the tune */
    SPCWAVE_DUMPER,     /* who made the file */
    SPCWAVE_COMMENTS,
    SPCWAVE_DATE,       /* the day on which the file was made */
    SPCWAVE_SECONDS,    /* the length before the fade, in digits */
    SPCWAVE_FADE        /* the length of the fade in milliseconds, in digits */
};

/* A player. */
typedef struct spcwave_player spcwave_player;

/* One stereo frame. An array of n of them is an int16_t[2 * n], left first. */
typedef struct spcwave_frame {
    int16_t left, right;
} spcwave_frame;

/* The options of a player: begin with SPCWAVE_OPTIONS and change what you want. */
typedef struct spcwave_options {
    uint32_t size;          /* sizeof(spcwave_options) */
    uint32_t pages;         /* 256 to 65,536 pages of 256 bytes for marks. The mark of frame 0 takes 256, each other as many as differ from
                               those of the newest mark that stands */
    uint32_t mark_seconds;  /* spcwave_play and spcwave_play_faded take a mark each so many seconds, 1 to 3,600; 0 for none */
    uint8_t muted;          /* voices that aren't heard: bit v is voice v */
} spcwave_options;

#define SPCWAVE_OPTIONS { sizeof(spcwave_options), SPCWAVE_PAGES, 0, 0 }

/* A text in the bytes of a file: `length` bytes from spc[offset] on. It need not end in a zero byte. */
typedef struct spcwave_text {
    uint32_t offset, length;
} spcwave_text;

/* What the bytes of a file say: begin with SPCWAVE_INFO. */
typedef struct spcwave_info {
    uint32_t size;                      /* sizeof(spcwave_info) */
    uint32_t frames, fade;              /* as spcwave_length gives them */
    bool tagged;                        /* as spcwave_tagged gives it */
    bool timed;                         /* whether the tags give a length; else three minutes are assumed */
    spcwave_text tags[SPCWAVE_TAGS];    /* by enum spcwave_tags */
} spcwave_info;

#define SPCWAVE_INFO { sizeof(spcwave_info), 0, 0, false, false, { { 0, 0 } } }

/* What is shown of a voice at the position. */
typedef struct spcwave_voice_shown {
    uint16_t level;   /* of its envelope, 0 to 2,047: that at which its next sample sounds; but right after the sample in which it was keyed
                         on, the level from before the key-on */
    uint16_t pitch;   /* of its registers, 0 to 16,383: at 4,096 it plays 32,000 numbers of its sample a second */
    int16_t output;   /* its register OUTX, -128 to 127: the high byte of its output, unless the program wrote there since; at frame 0 the byte
                         of the file */
    uint16_t source;  /* the number of its sample in the directory, 0 to 255 */
} spcwave_voice_shown;

/* Returns the version of the library, as SPCWAVE_VERSION is that of the header. */
SPCWAVE_API uint32_t spcwave_version(void);

/* Inspects the bytes of a file without opening it, and allocates nothing. Returns OK, and writes `*info`; OUT_OF_RANGE where info->size isn't
 * sizeof(spcwave_info); or SPC_LENGTH or SPC_SIGNATURE, as spcwave_open does. Unless it is OK `*info` stays as it was. */
SPCWAVE_API uint32_t spcwave_inspect(const uint8_t *spc, size_t spc_length, spcwave_info *info);

/* Opens a player at frame 0 of a tune. `table` is the table of 512 weights by which voices interpolate, 16 bits each, low byte first:
 * spcwave_table.h has the console's. Returns OUT_OF_RANGE where an option is out of its range, or options->size isn't sizeof(spcwave_options); else
 * SPC_LENGTH or SPC_SIGNATURE where the bytes are no SPC file; else TABLE_LENGTH where the table has another length. It returns each of these also
 * where memory is short. Else it returns OK, and writes the player to `*player`; or OUT_OF_MEMORY. Unless it is OK `*player` stays as it was. Before
 * the call `*player` may hold anything but an open player: close that one first. Afterwards the file, the table and the options aren't needed any
 * more. */
SPCWAVE_API uint32_t spcwave_open(spcwave_player **player, const uint8_t *spc, size_t spc_length, const uint8_t *table, size_t table_length,
                                  const spcwave_options *options);

/* Frees the memory of a player, and sets `*player` to NULL. Where `*player` is NULL already it stays NULL. */
SPCWAVE_API void spcwave_close(spcwave_player **player);

/* Plays: writes the next frames to `frames`, as many as `count`, but none after SPCWAVE_MAX_FRAMES, and returns how many. The position moves on by
 * as many. The rest of `frames` stays as it was. At each multiple of the options' mark_seconds that the position comes to, it takes a mark. It
 * goes on past the length of the tune, and fades nothing. */
SPCWAVE_API size_t spcwave_play(spcwave_player *player, spcwave_frame *frames, size_t count);

/* Plays as spcwave_play does, but to the end of the tune, over the last frames of which the sound fades out: in a straight line, to nothing at the
 * last frame, as `spcwave render` writes it. Returns 0 from the end on. The end and the fade are those that spcwave_length gives, until
 * spcwave_set_end sets others. */
SPCWAVE_API size_t spcwave_play_faded(spcwave_player *player, spcwave_frame *frames, size_t count);

/* Sets the end of the tune for spcwave_play_faded: `frames` is its length from frame 0 on, 0 to SPCWAVE_MAX_FRAMES, and its last `fade` frames fade
 * out, at most `frames` of them. Returns OK; or OUT_OF_RANGE, and nothing has changed. The position stays where it is. */
SPCWAVE_API uint32_t spcwave_set_end(spcwave_player *player, uint32_t frames, uint32_t fade);

/* Goes to a frame, 0 to SPCWAVE_MAX_FRAMES. It runs the machine from the position or from a mark, whichever is the nearest at or before the frame:
 * that takes as long as to play the frames between. Returns OK; or OUT_OF_RANGE, and nothing has changed. */
SPCWAVE_API uint32_t spcwave_seek(spcwave_player *player, uint32_t frame);

/* Goes towards a frame by running at most `max` frames, 1 or more. Returns OK when it is there; NOT_YET when more are left: then the position is
 * where it has come, and the same call goes on from there. All calls together run as many frames as one spcwave_seek would. Returns
 * OUT_OF_RANGE where `frame` is above SPCWAVE_MAX_FRAMES or `max` is 0, and nothing has changed. */
SPCWAVE_API uint32_t spcwave_seek_some(spcwave_player *player, uint32_t frame, uint32_t max);

/* Mutes these voices and no others from now on: bit v is voice v. The player becomes as one that was opened with them and sought to its
 * position, since a muted voice is missing in the echo too; only the end that spcwave_set_end set stays. So it runs the frames up to the position
 * again, and all marks but that of frame 0 are gone. At frame 0 it runs none: where no call may take long, seek to frame 0 first, mute, and
 * come back by spcwave_seek_some. A tune that reads, runs or decodes in the echo buffer may run otherwise with other voices. */
SPCWAVE_API void spcwave_mute(spcwave_player *player, uint8_t voices);

/* Takes a mark at the position, so that seeks to it or a little after it are quick. There are at most 64 marks, that of frame 0 among them, which
 * always stays; where pages or places run short the oldest others go. If too few are free even then, none is taken. */
SPCWAVE_API void spcwave_mark(spcwave_player *player);

/* Returns the position: how many frames stand before it. */
SPCWAVE_API uint32_t spcwave_position(const spcwave_player *player);

/* Returns how many pages are free for marks. */
SPCWAVE_API uint32_t spcwave_free_pages(const spcwave_player *player);

/* Writes the length of the tune by its tags, and how many of its last frames fade out, in frames; 180 seconds and no fade where the tags give no
 * length. spcwave_set_end changes neither. */
SPCWAVE_API void spcwave_length(const spcwave_player *player, uint32_t *frames, uint32_t *fade);

/* Returns whether the file says that it has tags. spcwave_tag gives their texts either way. */
SPCWAVE_API bool spcwave_tagged(const spcwave_player *player);

/* Writes the text of a tag and a zero byte to `text`, which has `size` bytes: the text is cut off where they are too few, and nothing is written
 * where there are none. Returns the length of the whole text, without the zero byte. The text is whatever bytes the file has there, up to the
 * first zero byte; it is empty where `tag` is none of enum spcwave_tags. */
SPCWAVE_API size_t spcwave_tag(const spcwave_player *player, uint32_t tag, char *text, size_t size);

/* Copies the 128 registers of the S-DSP at the position: as they stand after the processor's step in which the frame before the position was made;
 * at frame 0 those of the file. */
SPCWAVE_API void spcwave_registers(const spcwave_player *player, uint8_t registers[128]);

/* Writes what is shown of voice 0 to 7. Returns OK; or OUT_OF_RANGE for another number, and `*voice` stays as it was. */
SPCWAVE_API uint32_t spcwave_voice(const spcwave_player *player, uint32_t number, spcwave_voice_shown *voice);

/* Returns a short English text for a status, in static memory; "unknown status" for any other number. */
static inline const char *spcwave_status_text(uint32_t status) {
    switch (status) {
    case SPCWAVE_OK: return "no error";
    case SPCWAVE_SPC_LENGTH: return "not the length of an SPC file";
    case SPCWAVE_SPC_SIGNATURE: return "not an SPC file";
    case SPCWAVE_TABLE_LENGTH: return "not the length of a table of weights";
    case SPCWAVE_OUT_OF_MEMORY: return "out of memory";
    case SPCWAVE_OUT_OF_RANGE: return "number out of range";
    case SPCWAVE_NOT_YET: return "seek not finished yet";
    default: return "unknown status";
    }
}

#ifdef __cplusplus
}
#endif
#endif
