/* Room sensing from Wi-Fi channel samples. Link with libvolkjarp.a (x86-64 Linux).
 *
 * The room unit (room_..) is what a gateway needs: records in, answers out, all state in memory that
 * the caller lends. What it is made of can be called by itself.
 *
 * - A slice is a pointer and a length. The pointer is not null even where the length is 0. Slices of
 *   one call do not overlap.
 * - A call keeps no pointer, allocates nothing, has no state of its own, and reads and writes within
 *   the lengths, whatever bytes stand there. Calls on different memory may run at the same time.
 * - A call that refuses says so by a number (VOLKJARP_REFUSE_..) and changes nothing that was lent.
 * - Numbers in bytes stand low byte first. Times are in microseconds; a clock that goes back counts as
 *   no time.
 *
 * C99 and C++11. */
#ifndef VOLKJARP_H
#define VOLKJARP_H

#include <stddef.h>
#include <stdint.h>

#ifdef __cplusplus
extern "C" {
#endif

/* ---- Version ---------------------------------------------------------------------------------- */

/* Of this header. */
#define VOLKJARP_VERSION "0.1.0"

/* Of the library that is linked. */
extern const char volkjarp_version_text[];
static inline const char *volkjarp_version(void)
{
    return volkjarp_version_text;
}

/* ---- Refusals --------------------------------------------------------------------------------- */

#define VOLKJARP_ACCEPT 0          /* none */
#define VOLKJARP_REFUSE_SETTINGS 1 /* a setting out of its range, or another length */
#define VOLKJARP_REFUSE_MEMORY 2   /* memory or a state: another length, out of range, or other sums */
#define VOLKJARP_REFUSE_FORM 3     /* not the bytes of a sample */
#define VOLKJARP_REFUSE_TAG 4      /* an unknown layout */
#define VOLKJARP_REFUSE_IQ 5       /* too few I/Q bytes */
#define VOLKJARP_REFUSE_SPACE 6    /* no space for the answer */
#define VOLKJARP_REFUSE_COUNT 7    /* hand-made features or angles with a count out of range */
#define VOLKJARP_REFUSE_FULL 8     /* the baseline takes no more frames */
#define VOLKJARP_REFUSE_RECORD 9   /* an unknown kind, or cut short: ends the run */
#define VOLKJARP_REFUSE_CHANCE 13  /* sequences: number of choices, length or spacing out of range */

/* ---- Settings of the parts -------------------------------------------------------------------- */

/* Presence: from the wander `on_permille` on someone is there; at or below `off_permille`, `hold`
 * after the last motion, no one is. */
struct volkjarp_presence_config {
    uint16_t on_permille, off_permille;
    uint64_t hold;
};

/* The same for phases, in parts per million. */
struct volkjarp_phase_config {
    uint32_t on_ppm, off_ppm;
    uint64_t hold;
};

/* From and to, in millihertz, each at least 1. */
struct volkjarp_band {
    uint32_t lo_mhz, hi_mhz;
};

/* Breathing or heart: frames of a block (0 to 32,767; 0 counts as 1), blocks a second (1 to 1,000),
 * the band, blocks from one estimate to the next, the confidence from which on a rate is accepted,
 * and the blocks of the moving average that is taken off (0: none). */
struct volkjarp_vitals_config {
    uint16_t decim;
    uint32_t rate_hz;
    struct volkjarp_band band;
    uint16_t update_every, accept_permille, highpass;
};

/* Falls: the wander of motion, of a burst and of stillness; the shortest motion before a burst, the
 * quiet that may interrupt it, how long a burst may take to settle, how long stillness must last, and
 * how long nothing is said after a fall. */
struct volkjarp_fall_config {
    uint16_t active_permille, burst_permille, still_permille;
    uint64_t min_active, quiet_grace, settle, still_for, refractory;
};

/* The settings for amplitudes divided by their frame's mean. */
struct volkjarp_presence_config presence_normalised_default(void);

/* The presets of breathing (9 to 33 a minute) and heart (42 to 132), for so many frames a second: a
 * multiple of 50, or the rates are off. */
struct volkjarp_vitals_config vitals_breathing(uint32_t frame_hz);
struct volkjarp_vitals_config vitals_heart(uint32_t frame_hz);

/* ---- The sample ------------------------------------------------------------------------------- */

/* Where its fields stand. Byte 12 is the number of I/Q bytes: at most 128, in a record always 128. */
#define VOLKJARP_SAMPLE_VERSION 1
#define VOLKJARP_IQ_LEN 128
#define VOLKJARP_SAMPLE_LEN 141
#define VOLKJARP_AT_SAMPLE_VERSION 0
#define VOLKJARP_AT_SAMPLE_TAG 1
#define VOLKJARP_AT_SAMPLE_RSSI 2
#define VOLKJARP_AT_SAMPLE_CHANNEL 3
#define VOLKJARP_AT_SAMPLE_TIME 4 /* 8 */
#define VOLKJARP_AT_SAMPLE_IQ_LEN 12
#define VOLKJARP_AT_SAMPLE_IQ 13  /* 128: 64 pairs of signed bytes, imaginary before real */

/* The layout tag: which of the 64 pairs are subcarriers (first to last), and how many. */
#define VOLKJARP_TAG_LLTF_20MHZ 1      /* 1 to 26, 38 to 63: 52 */
#define VOLKJARP_TAG_HTLTF_20MHZ 2     /* 1 to 28, 36 to 63: 56 */
#define VOLKJARP_TAG_C6_HT20_NATURAL 3 /* 4 to 31, 33 to 60: 56 */
#define VOLKJARP_TAG_DENSE_64 4        /* 0 to 63: 64 */

/* The refusal (0, 3 or 6), and the bytes written; 6: those needed. */
struct volkjarp_encoded {
    uint64_t refusal;
    uint64_t bytes;
};

/* Decodes a sample: 0 or 3. If 0, its I/Q are the `iq_len` bytes from byte 13 on; if 3, the numbers are
 * as they were. Any tag decodes. */
uint64_t csi_decode(const uint8_t *bytes, size_t bytes_len, uint64_t *at, int8_t *rssi,
                    uint8_t *channel, uint8_t *tag, uint8_t *iq_len);

/* Encodes a sample of at most 128 I/Q bytes to the front of `out`. */
struct volkjarp_encoded csi_encode(uint64_t at, int8_t rssi, uint8_t channel, uint8_t tag,
                                   const uint8_t *iq, size_t iq_len, uint8_t *out, size_t out_len);

/* A sample of the radio. */
struct volkjarp_sample {
    uint8_t tag; /* VOLKJARP_TAG_.. */
    int8_t rssi;
    uint8_t channel;
    uint64_t at; /* when it was taken */
    int8_t iq[VOLKJARP_IQ_LEN];
};

/* ---- The room unit ---------------------------------------------------------------------------- */

/* Lengths in bytes. */
#define VOLKJARP_SETTINGS_LEN 118
#define VOLKJARP_RECORD_LEN 142
#define VOLKJARP_RESET_LEN 1
#define VOLKJARP_ANSWER_LEN 24

/* The refusal (0 or 1), and the length of memory that the settings need (0 if refused). */
struct volkjarp_memory_len {
    uint8_t refusal;
    size_t len;
};

/* The refusal (0, 2 or 6), the space that an answer needs (0 unless 6), the answers written and the
 * bytes of records used. After 6 go on with the records from `used`. */
struct volkjarp_ran {
    uint8_t refusal;
    size_t need;
    size_t answers;
    size_t used;
};

/* How much memory these settings need: 1,994 bytes, 256 for each frame of the window and 256 for each
 * block. */
struct volkjarp_memory_len room_memory_len(const uint8_t *settings, size_t settings_len);

/* Begins a unit in memory of that length, whatever stands in it: 0, 1 or 2. If not 0, nothing is
 * written. */
uint8_t room_begin(const uint8_t *settings, size_t settings_len, uint8_t *memory, size_t memory_len);

/* Takes the records in order and writes an answer for each. If 2, nothing is written. Nothing else is
 * to write the memory between calls; it may be kept in a file. Refusals 3, 4, 5, 8 and 9 belong to a
 * record and stand in its answer; 9 ends the run. */
struct volkjarp_ran room_run(uint8_t *memory, size_t memory_len, const uint8_t *records,
                             size_t records_len, uint8_t *answers, size_t answers_len);

/* Settings: where each number stands, and its bytes. */
#define VOLKJARP_AT_WINDOW 0                /* 2: frames of a window, 1 to 8,192 */
#define VOLKJARP_AT_BLOCKS 2                /* 2: blocks of breathing and heart, 4 to 512 */
#define VOLKJARP_AT_PRESENCE_ON_PERMILLE 4  /* 2 */
#define VOLKJARP_AT_PRESENCE_OFF_PERMILLE 6 /* 2 */
#define VOLKJARP_AT_PRESENCE_HOLD 8         /* 8 */
#define VOLKJARP_AT_PHASE_ON_PPM 16         /* 4 */
#define VOLKJARP_AT_PHASE_OFF_PPM 20        /* 4 */
#define VOLKJARP_AT_PHASE_HOLD 24           /* 8 */
#define VOLKJARP_AT_BREATHING 32            /* 20: as below */
#define VOLKJARP_AT_HEART 52                /* 20: as below */
#define VOLKJARP_AT_FALL_ACTIVE_PERMILLE 72 /* 2 */
#define VOLKJARP_AT_FALL_BURST_PERMILLE 74  /* 2 */
#define VOLKJARP_AT_FALL_STILL_PERMILLE 76  /* 2 */
#define VOLKJARP_AT_FALL_MIN_ACTIVE 78      /* 8 */
#define VOLKJARP_AT_FALL_QUIET_GRACE 86     /* 8 */
#define VOLKJARP_AT_FALL_SETTLE 94          /* 8 */
#define VOLKJARP_AT_FALL_STILL_FOR 102      /* 8 */
#define VOLKJARP_AT_FALL_REFRACTORY 110     /* 8 */
/* Breathing and heart, from their first byte on. */
#define VOLKJARP_AT_VITALS_DECIM 0            /* 2 */
#define VOLKJARP_AT_VITALS_RATE_HZ 2          /* 4 */
#define VOLKJARP_AT_VITALS_LO_MHZ 6           /* 4 */
#define VOLKJARP_AT_VITALS_HI_MHZ 10          /* 4 */
#define VOLKJARP_AT_VITALS_UPDATE_EVERY 14    /* 2 */
#define VOLKJARP_AT_VITALS_ACCEPT_PERMILLE 16 /* 2 */
#define VOLKJARP_AT_VITALS_HIGHPASS 18        /* 2 */

/* A record: its kind, then a sample unless it is a reset. */
#define VOLKJARP_WATCH 1
#define VOLKJARP_CALIBRATE 2
#define VOLKJARP_RESET 3
#define VOLKJARP_AT_RECORD_KIND 0
#define VOLKJARP_AT_RECORD_SAMPLE 1

/* An answer: its kind, then what the kind says, then zeros. */
#define VOLKJARP_ANSWER_REFUSED 0
#define VOLKJARP_ANSWER_WATCHED 1
#define VOLKJARP_ANSWER_CALIBRATED 2
#define VOLKJARP_ANSWER_RESET 3
#define VOLKJARP_AT_ANSWER_KIND 0
#define VOLKJARP_AT_REFUSED_NUMBER 1
#define VOLKJARP_AT_REFUSED_POSITION 2   /* 8: of the record in its run */
#define VOLKJARP_AT_CALIBRATED_FRAMES 1  /* 4 */
#define VOLKJARP_AT_CALIBRATED_MEAN 5    /* 4 */
#define VOLKJARP_AT_WATCHED_VERDICT 1
#define VOLKJARP_AT_WATCHED_MOTION 2
#define VOLKJARP_AT_WATCHED_FALL 3
#define VOLKJARP_AT_WATCHED_PERMILLE 4   /* 2 */
#define VOLKJARP_AT_WATCHED_DISTANCE 6   /* 2 */
#define VOLKJARP_AT_WATCHED_PPM 8        /* 4 */
#define VOLKJARP_AT_WATCHED_BREATHING 12 /* 1: VOLKJARP_NOT_DUE ..; then 2 */
#define VOLKJARP_AT_WATCHED_HEART 15     /* the same */

/* Verdicts. */
#define VOLKJARP_WARMING 0
#define VOLKJARP_ABSENT 1
#define VOLKJARP_PRESENT 2

/* Rates. */
#define VOLKJARP_NOT_DUE 0
#define VOLKJARP_NOT_ACCEPTED 1
#define VOLKJARP_ACCEPTED 2

/* All that a room is begun with. */
struct volkjarp_settings {
    uint16_t window, blocks;
    struct volkjarp_presence_config presence;
    struct volkjarp_phase_config phase;
    struct volkjarp_vitals_config breathing, heart;
    struct volkjarp_fall_config fall;
};

/* A rate: whether it is due and accepted, and ten times the rate a minute, 0 unless accepted. */
struct volkjarp_rate {
    uint8_t state;
    uint16_t x10;
};

/* An answer. Fields that its kind does not have are 0. */
struct volkjarp_answer {
    uint8_t kind; /* VOLKJARP_ANSWER_.. */
    /* refused */
    uint8_t refusal;
    uint64_t position; /* of the record in its run */
    /* calibrated */
    uint32_t frames, mean;
    /* watched */
    uint8_t verdict; /* VOLKJARP_WARMING .. */
    uint8_t motion;
    uint8_t fall;      /* 1: one is suspected */
    uint16_t permille; /* wander of the amplitudes of the last W samples, in any order */
    uint32_t ppm;      /* wander of their phases, in any order too */
    struct volkjarp_rate breathing, heart;
    uint16_t distance; /* from the calibrated room, permille */
};

static inline void volkjarp_put(uint8_t *bytes, size_t at, size_t size, uint64_t value)
{
    size_t k;
    for (k = 0; k < size; k++)
        bytes[at + k] = (uint8_t)(value >> (8 * k) & 0xFF);
}

static inline uint64_t volkjarp_get(const uint8_t *bytes, size_t at, size_t size)
{
    uint64_t value = 0;
    size_t k;
    for (k = 0; k < size; k++)
        value |= (uint64_t)bytes[at + k] << (8 * k);
    return value;
}

static inline uint16_t volkjarp_get16(const uint8_t *bytes, size_t at)
{
    return (uint16_t)volkjarp_get(bytes, at, 2);
}

static inline uint32_t volkjarp_get32(const uint8_t *bytes, size_t at)
{
    return (uint32_t)volkjarp_get(bytes, at, 4);
}

/* The presets, for so many frames a second: a multiple of 50. A window of 50 frames, 128 blocks. */
static inline struct volkjarp_settings volkjarp_presets(uint32_t frame_hz)
{
    const uint64_t second = 1000000;
    struct volkjarp_settings s;
    s.window = 50;
    s.blocks = 128;
    s.presence = presence_normalised_default();
    s.phase.on_ppm = 380;
    s.phase.off_ppm = 260;
    s.phase.hold = 3 * second;
    s.breathing = vitals_breathing(frame_hz);
    s.heart = vitals_heart(frame_hz);
    s.fall.active_permille = 32;
    s.fall.burst_permille = 232;
    s.fall.still_permille = 30;
    s.fall.min_active = 2 * second;
    s.fall.quiet_grace = 3 * second;
    s.fall.settle = 3 * second;
    s.fall.still_for = 10 * second;
    s.fall.refractory = 60 * second;
    return s;
}

static inline void volkjarp_put_vitals(uint8_t *bytes, const struct volkjarp_vitals_config *v)
{
    volkjarp_put(bytes, VOLKJARP_AT_VITALS_DECIM, 2, v->decim);
    volkjarp_put(bytes, VOLKJARP_AT_VITALS_RATE_HZ, 4, v->rate_hz);
    volkjarp_put(bytes, VOLKJARP_AT_VITALS_LO_MHZ, 4, v->band.lo_mhz);
    volkjarp_put(bytes, VOLKJARP_AT_VITALS_HI_MHZ, 4, v->band.hi_mhz);
    volkjarp_put(bytes, VOLKJARP_AT_VITALS_UPDATE_EVERY, 2, v->update_every);
    volkjarp_put(bytes, VOLKJARP_AT_VITALS_ACCEPT_PERMILLE, 2, v->accept_permille);
    volkjarp_put(bytes, VOLKJARP_AT_VITALS_HIGHPASS, 2, v->highpass);
}

static inline struct volkjarp_vitals_config volkjarp_get_vitals(const uint8_t *bytes)
{
    struct volkjarp_vitals_config v;
    v.decim = volkjarp_get16(bytes, VOLKJARP_AT_VITALS_DECIM);
    v.rate_hz = volkjarp_get32(bytes, VOLKJARP_AT_VITALS_RATE_HZ);
    v.band.lo_mhz = volkjarp_get32(bytes, VOLKJARP_AT_VITALS_LO_MHZ);
    v.band.hi_mhz = volkjarp_get32(bytes, VOLKJARP_AT_VITALS_HI_MHZ);
    v.update_every = volkjarp_get16(bytes, VOLKJARP_AT_VITALS_UPDATE_EVERY);
    v.accept_permille = volkjarp_get16(bytes, VOLKJARP_AT_VITALS_ACCEPT_PERMILLE);
    v.highpass = volkjarp_get16(bytes, VOLKJARP_AT_VITALS_HIGHPASS);
    return v;
}

/* The bytes of settings. */
static inline void volkjarp_settings_to(const struct volkjarp_settings *s,
                                        uint8_t bytes[VOLKJARP_SETTINGS_LEN])
{
    volkjarp_put(bytes, VOLKJARP_AT_WINDOW, 2, s->window);
    volkjarp_put(bytes, VOLKJARP_AT_BLOCKS, 2, s->blocks);
    volkjarp_put(bytes, VOLKJARP_AT_PRESENCE_ON_PERMILLE, 2, s->presence.on_permille);
    volkjarp_put(bytes, VOLKJARP_AT_PRESENCE_OFF_PERMILLE, 2, s->presence.off_permille);
    volkjarp_put(bytes, VOLKJARP_AT_PRESENCE_HOLD, 8, s->presence.hold);
    volkjarp_put(bytes, VOLKJARP_AT_PHASE_ON_PPM, 4, s->phase.on_ppm);
    volkjarp_put(bytes, VOLKJARP_AT_PHASE_OFF_PPM, 4, s->phase.off_ppm);
    volkjarp_put(bytes, VOLKJARP_AT_PHASE_HOLD, 8, s->phase.hold);
    volkjarp_put_vitals(bytes + VOLKJARP_AT_BREATHING, &s->breathing);
    volkjarp_put_vitals(bytes + VOLKJARP_AT_HEART, &s->heart);
    volkjarp_put(bytes, VOLKJARP_AT_FALL_ACTIVE_PERMILLE, 2, s->fall.active_permille);
    volkjarp_put(bytes, VOLKJARP_AT_FALL_BURST_PERMILLE, 2, s->fall.burst_permille);
    volkjarp_put(bytes, VOLKJARP_AT_FALL_STILL_PERMILLE, 2, s->fall.still_permille);
    volkjarp_put(bytes, VOLKJARP_AT_FALL_MIN_ACTIVE, 8, s->fall.min_active);
    volkjarp_put(bytes, VOLKJARP_AT_FALL_QUIET_GRACE, 8, s->fall.quiet_grace);
    volkjarp_put(bytes, VOLKJARP_AT_FALL_SETTLE, 8, s->fall.settle);
    volkjarp_put(bytes, VOLKJARP_AT_FALL_STILL_FOR, 8, s->fall.still_for);
    volkjarp_put(bytes, VOLKJARP_AT_FALL_REFRACTORY, 8, s->fall.refractory);
}

/* The settings of these bytes. A unit's memory begins with its settings. */
static inline struct volkjarp_settings volkjarp_settings_from(const uint8_t *bytes)
{
    struct volkjarp_settings s;
    s.window = volkjarp_get16(bytes, VOLKJARP_AT_WINDOW);
    s.blocks = volkjarp_get16(bytes, VOLKJARP_AT_BLOCKS);
    s.presence.on_permille = volkjarp_get16(bytes, VOLKJARP_AT_PRESENCE_ON_PERMILLE);
    s.presence.off_permille = volkjarp_get16(bytes, VOLKJARP_AT_PRESENCE_OFF_PERMILLE);
    s.presence.hold = volkjarp_get(bytes, VOLKJARP_AT_PRESENCE_HOLD, 8);
    s.phase.on_ppm = volkjarp_get32(bytes, VOLKJARP_AT_PHASE_ON_PPM);
    s.phase.off_ppm = volkjarp_get32(bytes, VOLKJARP_AT_PHASE_OFF_PPM);
    s.phase.hold = volkjarp_get(bytes, VOLKJARP_AT_PHASE_HOLD, 8);
    s.breathing = volkjarp_get_vitals(bytes + VOLKJARP_AT_BREATHING);
    s.heart = volkjarp_get_vitals(bytes + VOLKJARP_AT_HEART);
    s.fall.active_permille = volkjarp_get16(bytes, VOLKJARP_AT_FALL_ACTIVE_PERMILLE);
    s.fall.burst_permille = volkjarp_get16(bytes, VOLKJARP_AT_FALL_BURST_PERMILLE);
    s.fall.still_permille = volkjarp_get16(bytes, VOLKJARP_AT_FALL_STILL_PERMILLE);
    s.fall.min_active = volkjarp_get(bytes, VOLKJARP_AT_FALL_MIN_ACTIVE, 8);
    s.fall.quiet_grace = volkjarp_get(bytes, VOLKJARP_AT_FALL_QUIET_GRACE, 8);
    s.fall.settle = volkjarp_get(bytes, VOLKJARP_AT_FALL_SETTLE, 8);
    s.fall.still_for = volkjarp_get(bytes, VOLKJARP_AT_FALL_STILL_FOR, 8);
    s.fall.refractory = volkjarp_get(bytes, VOLKJARP_AT_FALL_REFRACTORY, 8);
    return s;
}

/* The record that watches (VOLKJARP_WATCH) a sample or calibrates (VOLKJARP_CALIBRATE) with it. Where
 * the sensor sends the bytes of a sample, they follow the kind as they are. */
static inline void volkjarp_record(uint8_t kind, const struct volkjarp_sample *s,
                                   uint8_t bytes[VOLKJARP_RECORD_LEN])
{
    bytes[VOLKJARP_AT_RECORD_KIND] = kind;
    csi_encode(s->at, s->rssi, s->channel, s->tag, (const uint8_t *)s->iq, VOLKJARP_IQ_LEN,
               bytes + VOLKJARP_AT_RECORD_SAMPLE, VOLKJARP_SAMPLE_LEN);
}

static inline struct volkjarp_rate volkjarp_get_rate(const uint8_t *bytes)
{
    struct volkjarp_rate r;
    r.state = bytes[0];
    r.x10 = volkjarp_get16(bytes, 1);
    return r;
}

/* The answer that stands in these bytes. */
static inline struct volkjarp_answer volkjarp_answer_from(const uint8_t *bytes)
{
    static const uint8_t none[VOLKJARP_ANSWER_LEN] = {0};
    const uint8_t kind = bytes[VOLKJARP_AT_ANSWER_KIND];
    const uint8_t *refused = kind == VOLKJARP_ANSWER_REFUSED ? bytes : none;
    const uint8_t *calibrated = kind == VOLKJARP_ANSWER_CALIBRATED ? bytes : none;
    const uint8_t *watched = kind == VOLKJARP_ANSWER_WATCHED ? bytes : none;
    struct volkjarp_answer a;
    a.kind = kind;
    a.refusal = refused[VOLKJARP_AT_REFUSED_NUMBER];
    a.position = volkjarp_get(refused, VOLKJARP_AT_REFUSED_POSITION, 8);
    a.frames = volkjarp_get32(calibrated, VOLKJARP_AT_CALIBRATED_FRAMES);
    a.mean = volkjarp_get32(calibrated, VOLKJARP_AT_CALIBRATED_MEAN);
    a.verdict = watched[VOLKJARP_AT_WATCHED_VERDICT];
    a.motion = watched[VOLKJARP_AT_WATCHED_MOTION];
    a.fall = watched[VOLKJARP_AT_WATCHED_FALL];
    a.permille = volkjarp_get16(watched, VOLKJARP_AT_WATCHED_PERMILLE);
    a.distance = volkjarp_get16(watched, VOLKJARP_AT_WATCHED_DISTANCE);
    a.ppm = volkjarp_get32(watched, VOLKJARP_AT_WATCHED_PPM);
    a.breathing = volkjarp_get_rate(watched + VOLKJARP_AT_WATCHED_BREATHING);
    a.heart = volkjarp_get_rate(watched + VOLKJARP_AT_WATCHED_HEART);
    return a;
}

/* ---- Amplitudes ------------------------------------------------------------------------------- */

/* Subcarriers at most. */
#define VOLKJARP_COLUMNS 64

/* The amplitudes of the subcarriers in use, the first `count`; their mean and variance. */
struct volkjarp_features {
    uint16_t amplitude[VOLKJARP_COLUMNS];
    uint8_t count;
    uint16_t mean;
    uint32_t variance;
};

/* The refusal; the features, all 0 if refused. */
struct volkjarp_measured {
    uint8_t refusal;
    struct volkjarp_features features;
};

/* Of I/Q bytes and a tag: 0, 4 or 5. */
struct volkjarp_measured csi_features(const uint8_t *iq, size_t iq_len, uint8_t tag);

/* Of a sample's bytes: 0, 3, 4 or 5. */
struct volkjarp_measured csi_sample_features(const uint8_t *bytes, size_t bytes_len);

/* Scaled to a mean of about 1,024: 0 or 7. */
struct volkjarp_measured csi_normalised(struct volkjarp_features features);

/* Of I/Q bytes and a tag, and scaled, as the room takes them: 0, 4 or 5. */
struct volkjarp_measured csi_watched(const uint8_t *iq, size_t iq_len, uint8_t tag);

/* ---- The fingerprint of a room ---------------------------------------------------------------- */

/* The sum of the calibrated variances, and how many (at most 65,535). Both 0: a new one. */
struct volkjarp_baseline {
    uint64_t sum;
    uint32_t frames;
};

/* The refusal; the baseline, as it was if refused. */
struct volkjarp_calibrated {
    uint8_t refusal;
    struct volkjarp_baseline baseline;
};

/* The refusal; the number, 0 if refused. */
struct volkjarp_number {
    uint8_t refusal;
    uint32_t value;
};

/* One frame more: 0, 2, 7 or 8. */
struct volkjarp_calibrated fingerprint_calibrate(struct volkjarp_baseline baseline,
                                                 struct volkjarp_features features);

/* The mean of the variances, 0 without frames: 0 or 2. */
struct volkjarp_number fingerprint_mean(struct volkjarp_baseline baseline);

/* How far a frame is from the mean, in permille: 0, 2 or 7. */
struct volkjarp_number fingerprint_distance(struct volkjarp_baseline baseline,
                                            struct volkjarp_features features);

/* ---- Presence --------------------------------------------------------------------------------- */

/* The bytes that a window of `w` frames (1 to 8,192), or `n` blocks (4 to 512), is lent. */
#define VOLKJARP_ROWS_LEN(w) ((size_t)2 * VOLKJARP_COLUMNS * (w))

/* Where a detector stands: the subcarriers, the rows in the window, the slot to write next, the last
 * wander, whether someone is present (0 or 1), and the time of the last motion. */
struct volkjarp_detector {
    size_t count, filled, next;
    uint32_t wander;
    uint8_t present;
    uint64_t last_motion;
};

struct volkjarp_presence_sums {
    uint32_t sum[VOLKJARP_COLUMNS];
    uint64_t sumsq[VOLKJARP_COLUMNS];
};

/* The first `count` amplitudes, taken at `time`. A count of 0 repeats the verdict. */
struct volkjarp_amplitudes {
    uint16_t amplitude[VOLKJARP_COLUMNS];
    size_t count;
    uint64_t time;
};

struct volkjarp_presence_begun {
    uint8_t refusal;
    struct volkjarp_detector state;
    struct volkjarp_presence_sums sums;
};

struct volkjarp_presence_pushed {
    uint8_t refusal, verdict, motion;
    struct volkjarp_detector state;
    struct volkjarp_presence_sums sums;
};

/* A new detector over the rows, which it clears: 0, 1 or 2. State and sums go into the next call. */
struct volkjarp_presence_begun presence_new(uint8_t *rows, size_t rows_len, size_t w);

/* One frame: 0, 1, 2 or 7. If not 0, state and sums come back as they were. */
struct volkjarp_presence_pushed presence_push(uint8_t *rows, size_t rows_len, size_t w,
                                              struct volkjarp_presence_config config,
                                              struct volkjarp_detector state,
                                              struct volkjarp_presence_sums sums,
                                              struct volkjarp_amplitudes frame);

/* Forgets the window: 0, 1 or 2. */
struct volkjarp_presence_begun presence_reset(const uint8_t *rows, size_t rows_len, size_t w,
                                              struct volkjarp_detector state,
                                              struct volkjarp_presence_sums sums);

/* ---- Phases ----------------------------------------------------------------------------------- */

/* Angles by subcarrier, the first `count` (2 to 64); 65,536 are a turn. */
struct volkjarp_angles {
    int16_t angle[VOLKJARP_COLUMNS];
    uint8_t count;
};

/* What is left of the angles where the straight line through them is taken off. */
struct volkjarp_phases {
    int16_t phase[VOLKJARP_COLUMNS];
    uint8_t count;
};

/* The refusal; the phases, all 0 if refused. */
struct volkjarp_measured_phases {
    uint8_t refusal;
    struct volkjarp_phases phases;
};

/* The angle of a point, -32,768 to 32,767; 0 at (0, 0). Within 21 units, 0.12 degrees, of the true one. */
int16_t phase_atan2_brad(int8_t y, int8_t x);

/* Of I/Q bytes and a tag: 0, 4 or 5. */
struct volkjarp_measured_phases phase_phases(const uint8_t *iq, size_t iq_len, uint8_t tag);

/* Of angles: 0 or 7. */
struct volkjarp_measured_phases phase_of_angles(struct volkjarp_angles angles);

struct volkjarp_phase_sums {
    int32_t cos[VOLKJARP_COLUMNS];
    int32_t sin[VOLKJARP_COLUMNS];
};

/* The first `count` phases, taken at `time`. A count of 0 repeats the verdict. */
struct volkjarp_phase_frame {
    int16_t phase[VOLKJARP_COLUMNS];
    size_t count;
    uint64_t time;
};

struct volkjarp_phase_begun {
    uint8_t refusal;
    struct volkjarp_detector state;
    struct volkjarp_phase_sums sums;
};

struct volkjarp_phase_pushed {
    uint8_t refusal, verdict, motion;
    struct volkjarp_detector state;
    struct volkjarp_phase_sums sums;
};

/* As for presence. */
struct volkjarp_phase_begun phase_detector_new(uint8_t *rows, size_t rows_len, size_t w);

struct volkjarp_phase_pushed phase_detector_push(uint8_t *rows, size_t rows_len, size_t w,
                                                 struct volkjarp_phase_config config,
                                                 struct volkjarp_detector state,
                                                 struct volkjarp_phase_sums sums,
                                                 struct volkjarp_phase_frame frame);

struct volkjarp_phase_begun phase_detector_reset(const uint8_t *rows, size_t rows_len, size_t w,
                                                 struct volkjarp_detector state,
                                                 struct volkjarp_phase_sums sums);

/* ---- The pair census -------------------------------------------------------------------------- */

/* The amplitudes of a pair, 0 to 724, and the equal sectors of the circle. */
#define VOLKJARP_AMPLITUDES 725
#define VOLKJARP_SECTORS 8

/* How many of all 65,536 pairs of signed bytes, imaginary and real part from -128 to 127, have each
 * amplitude (as csi_features has it), and how many have their angle (phase_atan2_brad) in each sector.
 * Sector k holds the angles from k * 8,192 on and below (k + 1) * 8,192, where a whole turn, 65,536,
 * is added to a negative angle. Each list totals 65,536. */
struct volkjarp_census {
    uint32_t amplitude[VOLKJARP_AMPLITUDES];
    uint32_t sector[VOLKJARP_SECTORS];
};

/* Goes through all pairs and counts them, the same each time. Nothing is lent, nothing refused. */
struct volkjarp_census census_count(void);

/* ---- The angle tables ------------------------------------------------------------------------- */

/* At 256 and at 1,024 steps there is one entry more. */
#define VOLKJARP_COARSE_ENTRIES 257
#define VOLKJARP_FINE_ENTRIES 1025

/* Entry i of n steps is the whole number nearest the angle whose tangent is i / n, 65,536 to a turn:
 * from 0 to 8,192. Fills all of `out`; nothing is refused. At 256 steps it is the table that
 * phase_atan2_brad reads, and each fourth entry at 1,024 steps is one of it. docs/TABLES.md has the
 * rule in whole numbers. */
void tables_atan_256(uint16_t out[VOLKJARP_COARSE_ENTRIES]);
void tables_atan_1024(uint16_t out[VOLKJARP_FINE_ENTRIES]);

/* The same of the sine of i / n of a quarter turn, scaled to 16,384. */
void tables_sine_256(uint16_t out[VOLKJARP_COARSE_ENTRIES]);
void tables_sine_1024(uint16_t out[VOLKJARP_FINE_ENTRIES]);

/* ---- Breathing and heart ---------------------------------------------------------------------- */

/* First and last lag, in blocks. */
struct volkjarp_lags {
    size_t lo, hi;
};

struct volkjarp_covered {
    uint8_t refusal;
    struct volkjarp_lags lags;
};

/* The lags of a band at so many blocks a second: 0 or 1. */
struct volkjarp_covered vitals_lags(struct volkjarp_band band, uint32_t rate_hz);

/* An estimate: ten times the rate a minute, the confidence in permille, the lag in sixteenths of a
 * block, whether it is accepted (0 or 1), and the time of the frame. */
struct volkjarp_vitals {
    uint16_t bpm_x10, confidence;
    uint32_t lag_x16;
    uint8_t accepted;
    uint64_t at;
};

/* Where an estimator stands: the subcarriers, the blocks in the window, the slot to write next, the
 * frames in the open block, the blocks since the last estimate. */
struct volkjarp_progress {
    size_t count, filled, next;
    uint32_t acc_n, since_update;
};

/* That, and the totals of the open block. */
struct volkjarp_estimator {
    struct volkjarp_progress progress;
    uint32_t acc[VOLKJARP_COLUMNS];
};

struct volkjarp_vitals_begun {
    uint8_t refusal;
    struct volkjarp_estimator state;
};

/* due: 1 where the frame gives an estimate, else 0 and `vitals' is all 0. */
struct volkjarp_vitals_pushed {
    uint8_t refusal, due;
    struct volkjarp_vitals vitals;
    struct volkjarp_estimator state;
};

/* A new estimator of `n` blocks over the rows, whose content is free: 0, 1 or 2. */
struct volkjarp_vitals_begun vitals_new(const uint8_t *rows, size_t rows_len, size_t n,
                                        struct volkjarp_vitals_config config);

/* One frame: 0, 1, 2 or 7. If not 0, the state comes back as it was. */
struct volkjarp_vitals_pushed vitals_push(uint8_t *rows, size_t rows_len, size_t n,
                                          struct volkjarp_vitals_config config,
                                          struct volkjarp_estimator state,
                                          struct volkjarp_amplitudes frame);

/* Forgets the window and the open block: 0, 1 or 2. */
struct volkjarp_vitals_begun vitals_reset(const uint8_t *rows, size_t rows_len, size_t n,
                                          struct volkjarp_vitals_config config,
                                          struct volkjarp_estimator state);

/* ---- Falls ------------------------------------------------------------------------------------ */

#define VOLKJARP_FALL_IDLE 0
#define VOLKJARP_FALL_ACTIVE 1     /* since a */
#define VOLKJARP_FALL_QUIETENED 2  /* active since a, quiet since b */
#define VOLKJARP_FALL_BURST 3      /* at a, with its peak */
#define VOLKJARP_FALL_SETTLING 4   /* burst at a, with its peak, still since b */
#define VOLKJARP_FALL_REFRACTORY 5 /* until a */

/* The state. What a state does not use is 0; all 0 is a new one. */
struct volkjarp_fall_words {
    uint8_t tag;
    uint16_t peak;
    uint64_t a, b;
};

/* The refusal (0 or 2); 1 if a fall is suspected, and then its peak and times, else 0. */
struct volkjarp_fall_said {
    uint8_t refusal, fall;
    uint16_t peak_permille;
    uint64_t burst_at, still_since, at;
};

struct volkjarp_fall_pushed {
    struct volkjarp_fall_words words;
    struct volkjarp_fall_said said;
};

/* One frame's wander of the amplitudes, at a time. If refused, the words come back as they were. */
struct volkjarp_fall_pushed fall_push(struct volkjarp_fall_config config,
                                      struct volkjarp_fall_words words, uint16_t wander,
                                      uint64_t now);

/* ---- How often chance makes a fall ------------------------------------------------------------ */

/* The most choices, the most frames of a sequence, and the longest time from one frame
 * to the next. */
#define VOLKJARP_CHANCE_CHOICES 4
#define VOLKJARP_CHANCE_FRAMES 24
#define VOLKJARP_CHANCE_SPACING 1000000000 /* 1,000 seconds */

/* For 0 events and for each number of them up to 24. */
#define VOLKJARP_CHANCE_COUNTS (VOLKJARP_CHANCE_FRAMES + 1)

/* The refusal (0 or 13); counts[k] sequences give exactly k events. All 0 if refused. */
struct volkjarp_chances {
    uint8_t refusal;
    uint64_t counts[VOLKJARP_CHANCE_COUNTS];
};

/* Of all sequences of `n` wander values out of the choices (1 to 4), how many give how many events:
 * as if each were fed to a new machine by fall_push, the first value at time 0 and each other one
 * `spacing` after the one before it. A value that is listed twice counts as two choices. The counts
 * total choices_len to the power n. No event comes before the fourth frame or in the four frames
 * behind another, so there are at most five, and counts[6] to counts[24] are 0. The call needs more
 * stack than any other here, but less than 128 KB. */
struct volkjarp_chances chance_count(struct volkjarp_fall_config config, const uint16_t *choices,
                                     size_t choices_len, uint64_t spacing, uint64_t n);

#ifdef __cplusplus
}
#endif

#endif
