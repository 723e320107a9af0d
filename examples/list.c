/*
 * Lists the sections, devices and disks of a snapshot, or says why it is refused:
 *
 *     tools/install PREFIX
 *     cc examples/list.c -o list $(PKG_CONFIG_PATH=PREFIX/lib/pkgconfig pkg-config --cflags --libs cimbrolau)
 *     ./list samples/panel.aerosnap
 */
#include <cimbrolau.h>
#include <inttypes.h>
#include <stdio.h>
#include <stdlib.h>

/* The most bytes that are read: a file one byte longer than a snapshot may be is refused as that. */
#define MOST (((size_t)1024 << 20) + 1)

/* All of a file, and its length; null where it cannot be read. */
static uint8_t *read_all(const char *name, size_t *length) {
    FILE *file = fopen(name, "rb");
    uint8_t *bytes = NULL;
    size_t room = 0;
    *length = 0;
    while (file && *length < MOST) {
        if (*length == room) {
            uint8_t *more = realloc(bytes, room = room ? 2 * room : 4096);
            if (!more) break;
            bytes = more;
        }
        size_t got = fread(bytes + *length, 1, (room < MOST ? room : MOST) - *length, file);
        if (got == 0) break;
        *length += got;
    }
    if (!file || ferror(file) || !(feof(file) || *length == MOST)) {
        free(bytes);
        bytes = NULL;
    }
    if (file) fclose(file);
    return bytes;
}

/* Says a refusal, and answers whether there is one. */
static int refused(struct cimbrolau_answer answer) {
    if (answer.number == CIMBROLAU_TAKEN) return 0;
    fprintf(stderr, "refused %" PRIu32 " %s at %" PRIu64 "\n", answer.number, cimbrolau_name(answer.number), answer.place);
    return 1;
}

/* The tables are lent as arrays of structs; the place of a table that is taken is its length in bytes. */
static struct cimbrolau_section sections[CIMBROLAU_MOST_SECTIONS];
static struct cimbrolau_device devices[CIMBROLAU_MOST_DEVICES];
static struct cimbrolau_disk disks[CIMBROLAU_MOST_DISKS];

int main(int count, char **words) {
    size_t length;
    uint8_t *file = count == 2 ? read_all(words[1], &length) : NULL;
    if (!file) {
        fprintf(stderr, "usage: list FILE, which can be read\n");
        return 2;
    }
    struct cimbrolau_answer answer = cimbrolau_sections(file, length, (uint8_t *)sections, sizeof sections);
    if (refused(answer)) {
        free(file);
        return 1;
    }
    for (size_t i = 0; i < answer.place / sizeof *sections; i++)
        printf("section %" PRIu32 ": %" PRIu64 " bytes at %" PRIu64 "\n", sections[i].id, sections[i].length, sections[i].offset);
    answer = cimbrolau_devices(file, length, (uint8_t *)devices, sizeof devices);
    for (size_t i = 0; i < answer.place / sizeof *devices; i++)
        printf("device %" PRIu32 ", version %u, flags %u: %" PRIu64 " bytes at %" PRIu64 "\n", devices[i].id, devices[i].version, devices[i].flags, devices[i].length, devices[i].offset);
    answer = cimbrolau_disks(file, length, (uint8_t *)disks, sizeof disks);
    for (size_t i = 0; i < answer.place / sizeof *disks; i++)
        printf("disk %" PRIu32 ": %.*s\n", disks[i].id, (int)disks[i].base_length, (const char *)file + disks[i].base_offset);
    free(file);
    return 0;
}
