/* system_gme.c: finds the system's libgme. */
#define _GNU_SOURCE
#include "system_gme.h"

#include <dlfcn.h>
#include <pthread.h>
#include <stdbool.h>
#include <stdio.h>
#include <stdlib.h>

/* Distinguishes a copy of this library from the system's. */
extern const int spcwave_drop_in;
const int spcwave_drop_in = 1;

static void *library;
static struct gme_calls calls;
static bool has_all;

/* The system's library calls its own functions through names that this library has too. With RTLD_DEEPBIND it finds its own first. */
static void *open_at(const char *path) {
    void *opened = dlopen(path, RTLD_NOW | RTLD_LOCAL | RTLD_DEEPBIND);
    if (opened && dlsym(opened, "spcwave_drop_in")) {
        dlclose(opened);
        opened = NULL;
    }
    return opened;
}

static void *open_library(void) {
    static const char *const places[] = {"/usr/lib/x86_64-linux-gnu/libgme.so.0", "/usr/lib64/libgme.so.0", "/usr/lib/libgme.so.0"};
    const char *named = getenv("SPCWAVE_SYSTEM_GME");
    void *opened = NULL;
    size_t i;
    if (named) return *named ? open_at(named) : NULL;
    for (i = 0; !opened && i < sizeof places / sizeof *places; i++) opened = open_at(places[i]);
    return opened;
}

/* libgme 0.6.3 declares this call, but doesn't give its name to programs. */
static int always_limits(Music_Emu const *emu) { return (void)emu, 1; }

/* Fills the table. POSIX lets a function's address be taken from dlsym in this way. */
static void find_calls(void) {
    library = open_library();
    if (!library) return;
#define FIND(name) *(void **)&calls.name = dlsym(library, #name);
    GME_CALLS(FIND)
#undef FIND
    if (!calls.gme_autoload_playback_limit) calls.gme_autoload_playback_limit = always_limits;
    has_all = true;
#define HAS(name) has_all = has_all && calls.name;
    GME_CALLS(HAS)
#undef HAS
}

const struct gme_calls *system_gme(void) {
    static pthread_once_t once = PTHREAD_ONCE_INIT;
    pthread_once(&once, find_calls);
    return has_all ? &calls : NULL;
}

gme_type_t system_type(const char *extension) {
    char name[32];
    gme_type_t const *found;
    if (!system_gme()) return NULL;
    snprintf(name, sizeof name, "gme_%s_type", extension);
    found = (gme_type_t const *)dlsym(library, name);
    return found ? *found : NULL;
}
