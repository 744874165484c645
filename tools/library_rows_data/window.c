/* window.c: the player of examples/sdl_player.c without its window: its thread seeks by slices and mutes voices as keys and mouse would ask it to, and what
 * is heard then is compared with a player that was opened with these voices muted and sought there.
 *     window TUNE */
#define SDL_MAIN_HANDLED
#define main main_of_player
#include "sdl_player.c"
#undef main
#include <stdlib.h>
#include <string.h>

enum { ASKED = 25 };

static uint8_t bytes[MAX_BYTES], table[1024];
static size_t size;

static void read_tune(const char *name) {
    FILE *in = fopen(name, "rb");
    if (!in) exit(2);
    size = fread(bytes, 1, sizeof bytes, in);
    fclose(in);
    spcwave_console_table(table);
}

/* Whether the next frames of the player are those of a tune with these muted voices at a frame. */
static bool hears(tune *it, uint32_t frame, uint8_t muted) {
    static spcwave_frame heard[AT_ONCE], wanted[AT_ONCE];
    spcwave_options options = SPCWAVE_OPTIONS;
    spcwave_player *player;
    options.muted = muted;
    memset(wanted, 0, sizeof wanted);
    if (spcwave_open(&player, bytes, size, table, sizeof table, &options) != SPCWAVE_OK) return false;
    spcwave_seek(player, frame);
    spcwave_play_faded(player, wanted, AT_ONCE);
    spcwave_close(&player);
    play(it, (Uint8 *)heard, sizeof heard);
    return memcmp(heard, wanted, sizeof heard) == 0;
}

/* Asks for a seek, or for another muted voice where the tune is, and hears what comes once that is done. */
static bool asks(tune *it, int number) {
    bool is_mute = number % 5 == 4;
    int64_t place = is_mute ? place_of(it) : rand() % it->length;
    ask(it, place, is_mute ? 1 << number % 8 : 0);
    while (SDL_AtomicGet(&it->is_seeking)) SDL_Delay(1);
    return place_of(it) == place && hears(it, (uint32_t)place, it->wanted);
}

int main(int argc, char **argv) {
    static tune it;
    SDL_Thread *seeker;
    int number;
    bool holds = true;
    if (argc != 2 || open_tune(&it, argv[1]) != SPCWAVE_OK) return 2;
    read_tune(argv[1]);
    it.lock = SDL_CreateMutex();
    it.work = SDL_CreateSemaphore(0);
    seeker = SDL_CreateThread(seek, "seek", &it);
    for (number = 0; number < ASKED; number++) holds = asks(&it, number) && holds;
    SDL_LockMutex(it.lock);
    it.has_ended = true;
    SDL_UnlockMutex(it.lock);
    SDL_SemPost(it.work);
    SDL_WaitThread(seeker, NULL);
    spcwave_close(&it.player);
    return !holds;
}
