/* A window has no order: pushed into detectors with a past, and in another order into new ones, its
 * frames give the same wander, each counted as often as it occurs. */
#include <stdlib.h>
#include <string.h>

#include "check.h"
#include "volkjarp.h"

enum { W = 12, PAST = 17, SEEDS = 64, HZ = 50 };

struct wanders {
    uint32_t permille, ppm;
};

/* Of new detectors, pushed these frames; a number of them is an amplitude, and the bits of a phase. */
static struct wanders pushed(uint16_t (*frames)[VOLKJARP_COLUMNS], const size_t *order, size_t len)
{
    const struct volkjarp_settings s = volkjarp_presets(HZ);
    uint8_t rows[VOLKJARP_ROWS_LEN(W)], phase_rows[VOLKJARP_ROWS_LEN(W)];
    const struct volkjarp_presence_begun b = presence_new(rows, sizeof rows, W);
    const struct volkjarp_phase_begun c = phase_detector_new(phase_rows, sizeof phase_rows, W);
    struct volkjarp_presence_pushed p = {b.refusal, 0, 0, b.state, b.sums};
    struct volkjarp_phase_pushed q = {c.refusal, 0, 0, c.state, c.sums};
    struct volkjarp_amplitudes amplitudes = {{0}, VOLKJARP_COLUMNS, 0};
    struct volkjarp_phase_frame phases = {{0}, VOLKJARP_COLUMNS, 0};
    struct wanders found;
    size_t k;
    for (k = 0; k < len; k++) {
        memcpy(amplitudes.amplitude, frames[order[k]], sizeof amplitudes.amplitude);
        memcpy(phases.phase, frames[order[k]], sizeof phases.phase);
        p = presence_push(rows, sizeof rows, W, s.presence, p.state, p.sums, amplitudes);
        q = phase_detector_push(phase_rows, sizeof phase_rows, W, s.phase, q.state, q.sums, phases);
        CHECK(p.refusal == VOLKJARP_ACCEPT && q.refusal == VOLKJARP_ACCEPT);
    }
    found.permille = p.state.wander;
    found.ppm = q.state.wander;
    return found;
}

static void shuffle(size_t *items, size_t len)
{
    size_t last;
    for (last = len - 1; last > 0; last--) {
        const size_t other = (size_t)rand() % (last + 1), item = items[last];
        items[last] = items[other];
        items[other] = item;
    }
}

static void two_orders(unsigned seed)
{
    uint16_t frames[PAST + W][VOLKJARP_COLUMNS];
    size_t order[PAST + W], other[W], k;
    struct wanders one, two;

    srand(seed);
    for (k = 0; k < sizeof frames; k++)
        ((uint8_t *)frames)[k] = (uint8_t)(rand() & 0xFF);
    for (k = 0; k < PAST + W; k++)
        order[k] = k;
    /* one frame three times */
    order[PAST + 1] = order[PAST + 2] = order[PAST];
    memcpy(other, order + PAST, sizeof other);
    shuffle(other, W);
    CHECK(memcmp(other, order + PAST, sizeof other) != 0);

    one = pushed(frames, order, PAST + W);
    two = pushed(frames, other, W);
    CHECK(one.permille == two.permille && one.permille > 0);
    CHECK(one.ppm == two.ppm && one.ppm > 0);
}

int main(void)
{
    unsigned seed;
    for (seed = 1; seed <= SEEDS; seed++)
        two_orders(seed);
    return failures == 0 ? 0 : 1;
}
