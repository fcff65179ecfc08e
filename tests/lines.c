/* The lines of the records on standard input, in the form of roomlines, by way of the header's presets
 * and structs. */
#include <stdio.h>
#include <stdlib.h>

#include "volkjarp.h"

static void rate(struct volkjarp_rate r)
{
    if (r.state == VOLKJARP_ACCEPTED)
        printf(" %u", r.x10);
    else
        printf(r.state == VOLKJARP_NOT_DUE ? " -" : " ~");
}

static void line(struct volkjarp_answer a)
{
    static const char *const verdicts[] = {"warming", "absent", "present"};
    switch (a.kind) {
    case VOLKJARP_ANSWER_RESET:
        printf("reset");
        break;
    case VOLKJARP_ANSWER_CALIBRATED:
        printf("calibrate %lu %lu", (unsigned long)a.frames, (unsigned long)a.mean);
        break;
    case VOLKJARP_ANSWER_REFUSED:
        printf("refused %u at %llu", a.refusal, (unsigned long long)a.position);
        break;
    default:
        printf("watch %s %u %u %lu", verdicts[a.verdict], a.motion, a.permille, (unsigned long)a.ppm);
        rate(a.breathing);
        rate(a.heart);
        printf(" %s %u", a.fall ? "fall" : "-", a.distance);
    }
    printf("\n");
}

int main(void)
{
    static uint8_t records[1 << 20], answers[sizeof records / VOLKJARP_RECORD_LEN * VOLKJARP_ANSWER_LEN];
    const size_t read = fread(records, 1, sizeof records, stdin);
    const struct volkjarp_settings s = volkjarp_presets(50);
    uint8_t settings[VOLKJARP_SETTINGS_LEN];
    struct volkjarp_memory_len need;
    struct volkjarp_ran ran;
    uint8_t *memory;
    size_t k;

    volkjarp_settings_to(&s, settings);
    need = room_memory_len(settings, sizeof settings);
    memory = (uint8_t *)malloc(need.len);
    if (memory == NULL || room_begin(settings, sizeof settings, memory, need.len) != VOLKJARP_ACCEPT)
        return 2;
    ran = room_run(memory, need.len, records, read, answers, sizeof answers);
    for (k = 0; k < ran.answers; k++)
        line(volkjarp_answer_from(answers + k * VOLKJARP_ANSWER_LEN));
    free(memory);
    return ran.refusal;
}
