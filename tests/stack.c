/* How deep the room's calls go into the stack: what stands below the caller is filled, and counted after
 * the call. 32 KB are enough for any. And the count of chance falls, for which 128 KB are enough. */
#define _POSIX_C_SOURCE 200112L
#include <pthread.h>
#include <stdio.h>
#include <stdlib.h>
#include <string.h>

#include "volkjarp.h"

/* NEAR: left alone below the caller, and counted as used. */
enum { STACK = 1 << 20, FILL = 0xA5, NEAR = 512, MOST = 1 << 15, MOST_OF_CHANCE = 1 << 17 };

/* A run of records, with estimates due, in memory of its own. */
struct room {
    struct volkjarp_settings settings;
    uint8_t *memory;
    size_t len;
    uint8_t *records;
    size_t count;
    uint8_t *answers;
};

static void run(const struct room *r)
{
    room_run(r->memory, r->len, r->records, r->count * VOLKJARP_RECORD_LEN, r->answers,
             r->count * VOLKJARP_ANSWER_LEN);
}

static void begin(const struct room *r)
{
    room_begin(r->memory, VOLKJARP_SETTINGS_LEN, r->memory + r->len, r->len);
}

/* Takes no room. */
static void chance(const struct room *none)
{
    static const uint16_t choices[] = {30, 31, 32, 232};
    (void)none;
    chance_count(volkjarp_presets(50).fall, choices, VOLKJARP_CHANCE_CHOICES, 1000000,
                 VOLKJARP_CHANCE_FRAMES);
}

static uint8_t stack[STACK] __attribute__((aligned(4096)));

struct called {
    void (*call)(const struct room *);
    const struct room *room;
    size_t depth;
};

static void *fill_and_call(void *what)
{
    struct called *c = (struct called *)what;
    volatile uint8_t here = 0;
    const size_t above = (size_t)((const uint8_t *)&here - stack);
    size_t untouched = 0;
    memset(stack, FILL, above - NEAR);
    c->call(c->room);
    while (untouched < above - NEAR && stack[untouched] == FILL)
        untouched++;
    c->depth = above - untouched;
    return NULL;
}

static size_t depth(void (*call)(const struct room *), const struct room *r)
{
    struct called c;
    pthread_attr_t how;
    pthread_t thread;
    c.call = call;
    c.room = r;
    if (pthread_attr_init(&how) != 0 || pthread_attr_setstack(&how, stack, sizeof stack) != 0 ||
        pthread_create(&thread, &how, fill_and_call, &c) != 0 || pthread_join(thread, NULL) != 0)
        exit(2);
    return c.depth;
}

static struct room made(uint16_t window, uint16_t blocks, size_t count)
{
    struct room r;
    struct volkjarp_sample s;
    uint8_t settings[VOLKJARP_SETTINGS_LEN];
    size_t k, entry;
    r.settings = volkjarp_presets(50);
    r.settings.window = window;
    r.settings.blocks = blocks;
    r.settings.breathing.decim = r.settings.heart.decim = 1;
    volkjarp_settings_to(&r.settings, settings);
    r.len = room_memory_len(settings, sizeof settings).len;
    r.count = count;
    /* twice: a room, and space to begin another in */
    r.memory = (uint8_t *)calloc(2, r.len);
    r.records = (uint8_t *)calloc(count, VOLKJARP_RECORD_LEN);
    r.answers = (uint8_t *)calloc(count, VOLKJARP_ANSWER_LEN);
    if (r.memory == NULL || r.records == NULL || r.answers == NULL ||
        room_begin(settings, sizeof settings, r.memory, r.len) != VOLKJARP_ACCEPT)
        exit(2);
    memset(&s, 0, sizeof s);
    s.tag = VOLKJARP_TAG_DENSE_64;
    for (k = 0; k < count; k++) {
        s.at = k * 20000;
        for (entry = 0; entry < VOLKJARP_IQ_LEN; entry++)
            s.iq[entry] = (int8_t)((entry * 7 + k * (entry + 3)) % 100);
        volkjarp_record(k < 3 ? VOLKJARP_CALIBRATE : VOLKJARP_WATCH, &s,
                        r.records + k * VOLKJARP_RECORD_LEN);
    }
    return r;
}

static void dropped(struct room r)
{
    free(r.memory);
    free(r.records);
    free(r.answers);
}

static int measured(uint16_t window, uint16_t blocks, size_t count)
{
    const struct room r = made(window, blocks, count);
    const size_t begun = depth(begin, &r), ran = depth(run, &r);
    printf("stack at W %u, N %u: room_begin at most %lu bytes, room_run %lu bytes\n", window, blocks,
           (unsigned long)begun, (unsigned long)ran);
    dropped(r);
    return begun < MOST && ran < MOST;
}

static int measured_chance(void)
{
    const size_t counted = depth(chance, NULL);
    printf("stack of chance_count: %lu bytes\n", (unsigned long)counted);
    return counted < MOST_OF_CHANCE;
}

int main(void)
{
    const int small = measured(50, 128, 700), large = measured(8192, 512, 9000);
    const int counted = measured_chance();
    return small && large && counted ? 0 : 1;
}
