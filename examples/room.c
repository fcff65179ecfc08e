/* A gateway in small: a room that goes on after a restart.
 *
 *     cc room.c $(pkg-config --cflags --libs volkjarp) -o room && ./room FILE
 *
 * The first time it begins a room, calibrates it while no one is there and watches it. The room's memory
 * is then kept in FILE; the next time it goes on from there. The radio here is made up. */
#include <stdio.h>
#include <stdlib.h>
#include <string.h>

#include "volkjarp.h"

enum { FRAMES_A_SECOND = 50, WINDOW = 10, CALIBRATED = 3, WATCHED = 15 };

/* Sample number k of a radio: someone walks about from number 10 on. */
static struct volkjarp_sample radio(uint64_t k)
{
    struct volkjarp_sample s;
    size_t entry;
    memset(&s, 0, sizeof s);
    s.tag = VOLKJARP_TAG_HTLTF_20MHZ;
    s.rssi = -50;
    s.channel = 6;
    s.at = k * (1000000 / FRAMES_A_SECOND);
    for (entry = 0; entry < VOLKJARP_IQ_LEN; entry++)
        s.iq[entry] = (int8_t)(20 + entry % 40 + (k < 10 ? 0 : k * (entry + 3) % 9));
    return s;
}

static void print_rate(const char *name, struct volkjarp_rate r)
{
    if (r.state == VOLKJARP_ACCEPTED)
        printf(", %s %u.%u a minute", name, r.x10 / 10u, r.x10 % 10u);
}

static void print(struct volkjarp_answer a)
{
    static const char *const verdicts[] = {"warming", "absent", "present"};
    switch (a.kind) {
    case VOLKJARP_ANSWER_CALIBRATED:
        printf("calibrated: frames %lu, mean %lu", (unsigned long)a.frames, (unsigned long)a.mean);
        break;
    case VOLKJARP_ANSWER_WATCHED:
        printf("%s: motion %u, wander %u permille and %lu ppm, distance %u permille",
               verdicts[a.verdict], a.motion, a.permille, (unsigned long)a.ppm, a.distance);
        print_rate("breathing", a.breathing);
        print_rate("heart", a.heart);
        if (a.fall)
            printf(", a fall is suspected");
        break;
    case VOLKJARP_ANSWER_REFUSED:
        printf("refused: %u", a.refusal);
        break;
    default:
        printf("reset");
    }
    printf("\n");
}

/* One record in, one answer out. */
static void give(uint8_t *memory, size_t len, uint8_t kind, struct volkjarp_sample s)
{
    uint8_t record[VOLKJARP_RECORD_LEN], answer[VOLKJARP_ANSWER_LEN];
    volkjarp_record(kind, &s, record);
    if (room_run(memory, len, record, sizeof record, answer, sizeof answer).answers == 1)
        print(volkjarp_answer_from(answer));
}

/* Whether FILE has the memory of a room with these settings, as a run left it. */
static int load(const char *file, const uint8_t *settings, uint8_t *memory, size_t len)
{
    FILE *f = fopen(file, "rb");
    uint8_t none = 0;
    size_t read;
    if (f == NULL)
        return 0;
    read = fread(memory, 1, len, f);
    fclose(f);
    return read == len && memcmp(memory, settings, VOLKJARP_SETTINGS_LEN) == 0 &&
           room_run(memory, len, &none, 0, &none, 0).refusal == VOLKJARP_ACCEPT;
}

/* A new file takes the old one's place whole: a save that is cut short leaves the old one. */
static int save(const char *file, const uint8_t *memory, size_t len)
{
    char fresh[4096];
    FILE *f;
    size_t written;
    int fits = snprintf(fresh, sizeof fresh, "%s.new", file) < (int)sizeof fresh;
    if (!fits || (f = fopen(fresh, "wb")) == NULL)
        return 0;
    written = fwrite(memory, 1, len, f);
    return fclose(f) == 0 && written == len && rename(fresh, file) == 0;
}

/* The number of the next sample: of a room that goes on, or of one that is begun and calibrated. */
static uint64_t start(const char *file, const uint8_t *settings, uint8_t *memory, size_t len)
{
    uint64_t k;
    if (load(file, settings, memory, len)) {
        printf("going on from %s\n", file);
        return CALIBRATED + WATCHED;
    }
    printf("a new room\n");
    if (room_begin(settings, VOLKJARP_SETTINGS_LEN, memory, len) != VOLKJARP_ACCEPT)
        exit(1);
    for (k = 0; k < CALIBRATED; k++)
        give(memory, len, VOLKJARP_CALIBRATE, radio(k));
    return k;
}

int main(int words, char **word)
{
    struct volkjarp_settings s = volkjarp_presets(FRAMES_A_SECOND);
    uint8_t settings[VOLKJARP_SETTINGS_LEN];
    struct volkjarp_memory_len need;
    uint8_t *memory;
    uint64_t k, end;

    if (words != 2) {
        fprintf(stderr, "name the file that keeps the room\n");
        return 2;
    }
    s.window = WINDOW;
    volkjarp_settings_to(&s, settings);
    need = room_memory_len(settings, sizeof settings);
    if (need.refusal != VOLKJARP_ACCEPT || (memory = (uint8_t *)malloc(need.len)) == NULL)
        return 1;
    k = start(word[1], settings, memory, need.len);
    for (end = k + WATCHED; k < end; k++)
        give(memory, need.len, VOLKJARP_WATCH, radio(k));
    if (!save(word[1], memory, need.len)) {
        fprintf(stderr, "%s cannot be written\n", word[1]);
        return 1;
    }
    free(memory);
    return 0;
}
