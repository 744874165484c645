/* types.c: the types of music files, and which of them a file has. */
#define _POSIX_C_SOURCE 200809L
#include <ctype.h>
#include <string.h>
#include <strings.h>

#include "errors.h"
#include "file_bytes.h"
#include "system_gme.h"
#include "types.h"

/* As libgme lays a type out; what makes its emulators is not shown here. */
struct gme_type_t_ {
    const char *system;
    int tracks; /* 1 where each file has one, else 0 or the number */
    void *make, *make_information;
    const char *extension;
    int flags;
};

#define TYPE(name, extension, system, tracks) \
    static const struct gme_type_t_ name##_type = {system, tracks, NULL, NULL, extension, 0}; \
    const gme_type_t gme_##name##_type = &name##_type;
TYPE(ay, "AY", "ZX Spectrum", 0)
TYPE(gbs, "GBS", "Game Boy", 0)
TYPE(gym, "GYM", "Sega Genesis", 1)
TYPE(hes, "HES", "PC Engine", 256)
TYPE(kss, "KSS", "MSX", 256)
TYPE(nsf, "NSF", "Nintendo NES", 0)
TYPE(nsfe, "NSFE", "Nintendo NES", 0)
TYPE(sap, "SAP", "Atari XL", 0)
TYPE(spc, "SPC", "Super Nintendo", 1)
TYPE(vgm, "VGM", "Sega SMS/Genesis", 1)
TYPE(vgz, "VGZ", "Sega SMS/Genesis", 1)

static const gme_type_t all_types[] = {&ay_type,  &gbs_type, &gym_type, &hes_type, &kss_type, &nsf_type,
                                       &nsfe_type, &sap_type, &spc_type, &vgm_type, &vgz_type, NULL};
static const gme_type_t spc_alone[] = {&spc_type, NULL};

/* The first four bytes of a file of a type. */
static const struct {
    char head[4];
    gme_type_t type;
} heads[] = {{{'Z', 'X', 'A', 'Y'}, &ay_type},   {{'G', 'B', 'S', 1}, &gbs_type},     {{'G', 'Y', 'M', 'X'}, &gym_type},
             {{'H', 'E', 'S', 'M'}, &hes_type},  {{'K', 'S', 'C', 'C'}, &kss_type},   {{'K', 'S', 'S', 'X'}, &kss_type},
             {{'N', 'E', 'S', 'M'}, &nsf_type},  {{'N', 'S', 'F', 'E'}, &nsfe_type},  {{'S', 'A', 'P', '\r'}, &sap_type},
             {{'S', 'N', 'E', 'S'}, &spc_type},  {{'V', 'g', 'm', ' '}, &vgm_type},   {{'\x1f', '\x8b', 8, 0}, &vgz_type}};

bool is_spc(gme_type_t type) { return type == &spc_type; }

gme_type_t type_of_system(gme_type_t type) {
    char small[8];
    size_t i;
    for (i = 0; type->extension[i]; i++) small[i] = (char)tolower((unsigned char)type->extension[i]);
    small[i] = 0;
    return system_type(small);
}

bool is_played(gme_type_t type) { return type && (is_spc(type) || type_of_system(type)); }

gme_type_t const *gme_type_list(void) { return system_gme() ? all_types : spc_alone; }
const char *gme_type_system(gme_type_t type) { return type->system; }
int gme_type_multitrack(gme_type_t type) { return type->tracks != 1; }
const char *gme_type_extension(gme_type_t type) { return type ? type->extension : ""; }

const char *gme_identify_header(void const *header) {
    size_t i;
    for (i = 0; i < sizeof heads / sizeof *heads; i++)
        if (!memcmp(header, heads[i].head, sizeof heads[i].head)) return is_played(heads[i].type) ? heads[i].type->extension : "";
    return "";
}

gme_type_t gme_identify_extension(const char path_or_extension[]) {
    const char *dot = strrchr(path_or_extension, '.'), *extension = dot ? dot + 1 : path_or_extension;
    gme_type_t const *type;
    for (type = gme_type_list(); *type; type++)
        if (!strcasecmp((*type)->extension, extension)) return *type;
    return NULL;
}

gme_err_t gme_identify_file(const char path[], gme_type_t *type) {
    char head[4];
    gme_err_t error;
    *type = gme_identify_extension(path);
    if (*type) return NULL;
    error = read_head(path, head, sizeof head);
    if (!error) *type = gme_identify_extension(gme_identify_header(head));
    return error;
}
