/* Plays an SPC file in a window: a bar of where it is, and a box for each voice, as bright as it is loud.
 *     cc sdl_player.c $(pkg-config --cflags --libs spcwave sdl2) -o sdl_player && ./sdl_player tune.spc
 * A click on the bar seeks there, and the arrow keys seek by five seconds; 1 to 8 mute voices, the space bar stops and goes on, Escape ends.
 * A thread seeks by slices of a tenth of a second, so that the thread of the sound never waits for more than one of them. */
#include <SDL.h>
#include <stdio.h>
#include "spcwave.h"
#include "spcwave_table.h"

enum { WIDTH = 640, HEIGHT = 100, BAR = 30, BOX = WIDTH / 8, MAX_BYTES = 1048577, AT_ONCE = 1024, SLICE = 3200, STEP = 5 * SPCWAVE_RATE };

/* What the threads share: all but `work` and `is_seeking` under the lock, and so every call that takes the player. */
typedef struct tune {
    SDL_mutex *lock;
    SDL_sem *work;              /* posted where there is something to seek, and at the end */
    SDL_atomic_t is_seeking;    /* a seek is under way: the sound is silent */
    spcwave_player *player;
    uint32_t length, fade, goal;
    uint8_t muted, wanted;      /* the muted voices, and those that are to be */
    bool has_ended;
} tune;

static void SDLCALL play(void *data, Uint8 *bytes, int size) {
    tune *it = data;
    size_t wanted = (size_t)size / sizeof(spcwave_frame), played = 0;
    if (!SDL_AtomicGet(&it->is_seeking)) {
        SDL_LockMutex(it->lock);
        played = spcwave_play_faded(it->player, (spcwave_frame *)bytes, wanted);
        SDL_UnlockMutex(it->lock);
    }
    SDL_memset(bytes + played * sizeof(spcwave_frame), 0, (wanted - played) * sizeof(spcwave_frame));
}

/* Does a slice of a seek's work, and returns whether there is more. Voices are muted at frame 0, where that costs nothing; the way back is sought. */
static bool do_slice(tune *it) {
    bool is_seeking;
    SDL_LockMutex(it->lock);
    is_seeking = SDL_AtomicGet(&it->is_seeking) && !it->has_ended;
    if (is_seeking && it->muted != it->wanted && spcwave_seek_some(it->player, 0, SLICE) == SPCWAVE_OK)
        spcwave_mute(it->player, it->muted = it->wanted);
    if (is_seeking && it->muted == it->wanted) is_seeking = spcwave_seek_some(it->player, it->goal, SLICE) == SPCWAVE_NOT_YET;
    SDL_AtomicSet(&it->is_seeking, is_seeking);
    SDL_UnlockMutex(it->lock);
    return is_seeking;
}

static int SDLCALL seek(void *data) {
    tune *it = data;
    bool has_ended = false;
    while (!has_ended && SDL_SemWait(it->work) == 0) {
        while (do_slice(it)) continue;
        SDL_LockMutex(it->lock);
        has_ended = it->has_ended;
        SDL_UnlockMutex(it->lock);
    }
    return 0;
}

/* Where it is, or is to be once a seek is done. */
static int64_t place_of(tune *it) {
    int64_t place;
    SDL_LockMutex(it->lock);
    place = SDL_AtomicGet(&it->is_seeking) ? it->goal : spcwave_position(it->player);
    SDL_UnlockMutex(it->lock);
    return place;
}

/* Asks for a seek, and for a change of the muted voices. */
static void ask(tune *it, int64_t place, int changed) {
    SDL_LockMutex(it->lock);
    it->goal = place < 0 ? 0 : place > it->length ? it->length : (uint32_t)place;
    it->wanted ^= changed;
    SDL_AtomicSet(&it->is_seeking, true);
    SDL_UnlockMutex(it->lock);
    SDL_SemPost(it->work);
}

static void draw(tune *it, SDL_Renderer *to) {
    SDL_Rect bar = {0, 0, 0, BAR};
    spcwave_voice_shown voice;
    uint32_t number;
    SDL_SetRenderDrawColor(to, 20, 20, 30, 255);
    SDL_RenderClear(to);
    SDL_LockMutex(it->lock);
    bar.w = it->length ? (int)((int64_t)WIDTH * spcwave_position(it->player) / it->length) : 0;
    SDL_SetRenderDrawColor(to, 90, 160, 250, 255);
    SDL_RenderFillRect(to, &bar);
    for (number = 0; number < 8; number++) {
        SDL_Rect box = {(int)number * BOX + 5, BAR + 10, BOX - 10, HEIGHT - BAR - 20};
        spcwave_voice(it->player, number, &voice);
        SDL_SetRenderDrawColor(to, it->wanted >> number & 1 ? 120 : 30, (Uint8)(40 + voice.level / 10), 60, 255);
        SDL_RenderFillRect(to, &box);
    }
    SDL_UnlockMutex(it->lock);
    SDL_RenderPresent(to);
}

/* Opens the file that is named. Answers a status of the library, or SPCWAVE_OUT_OF_RANGE where it can't be read. */
static uint32_t open_tune(tune *it, const char *name) {
    static uint8_t bytes[MAX_BYTES], table[1024];
    spcwave_options options = SPCWAVE_OPTIONS;
    FILE *in = fopen(name, "rb");
    size_t size;
    uint32_t status;
    if (!in) return SPCWAVE_OUT_OF_RANGE;
    size = fread(bytes, 1, sizeof bytes, in);
    fclose(in);
    options.mark_seconds = 5;
    spcwave_console_table(table);
    status = spcwave_open(&it->player, bytes, size, table, sizeof table, &options);
    if (status == SPCWAVE_OK) spcwave_length(it->player, &it->length, &it->fade);
    return status;
}

/* Does what a key or the mouse asks for, and returns whether that was to end. */
static bool obey(tune *it, const SDL_Event *event, SDL_AudioDeviceID device) {
    SDL_Keycode key = event->type == SDL_KEYDOWN ? event->key.keysym.sym : SDLK_UNKNOWN;
    if (key == SDLK_LEFT) ask(it, place_of(it) - STEP, 0);
    if (key == SDLK_RIGHT) ask(it, place_of(it) + STEP, 0);
    if (key >= SDLK_1 && key <= SDLK_8) ask(it, place_of(it), 1 << (key - SDLK_1));
    if (key == SDLK_SPACE) SDL_PauseAudioDevice(device, SDL_GetAudioDeviceStatus(device) == SDL_AUDIO_PLAYING);
    if (event->type == SDL_MOUSEBUTTONDOWN && event->button.y < BAR) ask(it, (int64_t)it->length * event->button.x / WIDTH, 0);
    return event->type == SDL_QUIT || key == SDLK_ESCAPE;
}

/* Draws, and does what is asked for, until that is to end. */
static void show(tune *it, SDL_AudioDeviceID device, SDL_Renderer *to) {
    SDL_Event event;
    bool has_ended = false;
    while (!has_ended) {
        while (SDL_PollEvent(&event)) has_ended |= obey(it, &event, device);
        draw(it, to);
        SDL_Delay(20);
    }
    SDL_LockMutex(it->lock);
    it->has_ended = true;
    SDL_UnlockMutex(it->lock);
    SDL_SemPost(it->work);
}

int main(int argc, char **argv) {
    static tune it;
    SDL_AudioSpec sound = {.freq = SPCWAVE_RATE, .format = AUDIO_S16SYS, .channels = 2, .samples = AT_ONCE, .callback = play, .userdata = &it};
    SDL_AudioDeviceID device;
    SDL_Window *window;
    SDL_Renderer *renderer;
    SDL_Thread *seeker;
    uint32_t status = argc == 2 ? open_tune(&it, argv[1]) : SPCWAVE_OUT_OF_RANGE;
    if (status != SPCWAVE_OK) return fprintf(stderr, "usage: sdl_player TUNE.spc: %s\n", spcwave_status_text(status)), 2;
    it.lock = SDL_CreateMutex();
    it.work = SDL_CreateSemaphore(0);
    if (SDL_Init(SDL_INIT_AUDIO | SDL_INIT_VIDEO) || SDL_CreateWindowAndRenderer(WIDTH, HEIGHT, 0, &window, &renderer) ||
        !(device = SDL_OpenAudioDevice(NULL, 0, &sound, NULL, 0)) || !(seeker = SDL_CreateThread(seek, "seek", &it)))
        return fprintf(stderr, "sdl_player: %s\n", SDL_GetError()), 1;
    SDL_SetWindowTitle(window, argv[1]);
    SDL_PauseAudioDevice(device, 0);
    show(&it, device, renderer);
    SDL_WaitThread(seeker, NULL);
    SDL_CloseAudioDevice(device);
    spcwave_close(&it.player);
    SDL_Quit();
    return 0;
}
