/* Every exported call at least once, with an answer that is known. */
#include <stdlib.h>
#include <string.h>

#include "check.h"
#include "volkjarp.h"

enum { SECOND = 1000000 };

/* Units of a turn, and pairs of signed bytes. */
enum { TURN = 65536, PAIRS = 65536 };

/* I/Q bytes of which the first pair alone is not 0: an amplitude of 20. */
static const uint8_t IQ[VOLKJARP_IQ_LEN] = {3, 4};

static void version(void)
{
    CHECK(strcmp(volkjarp_version(), VOLKJARP_VERSION) == 0);
}

static void sample(void)
{
    struct volkjarp_sample s;
    uint8_t record[VOLKJARP_RECORD_LEN], bytes[VOLKJARP_SAMPLE_LEN] = {0};
    struct volkjarp_encoded e;
    uint64_t at = 0;
    int8_t rssi = 0;
    uint8_t channel = 0, tag = 0, iq_len = 0;

    e = csi_encode(77, -40, 11, VOLKJARP_TAG_DENSE_64, IQ, sizeof IQ, bytes, sizeof bytes - 1);
    CHECK(e.refusal == VOLKJARP_REFUSE_SPACE && e.bytes == VOLKJARP_SAMPLE_LEN && bytes[0] == 0);
    e = csi_encode(77, -40, 11, VOLKJARP_TAG_DENSE_64, IQ, sizeof IQ, bytes, sizeof bytes);
    CHECK(e.refusal == VOLKJARP_ACCEPT && e.bytes == VOLKJARP_SAMPLE_LEN);

    CHECK(csi_decode(bytes, 12, &at, &rssi, &channel, &tag, &iq_len) == VOLKJARP_REFUSE_FORM);
    CHECK(at == 0 && iq_len == 0);
    CHECK(csi_decode(bytes, sizeof bytes, &at, &rssi, &channel, &tag, &iq_len) == VOLKJARP_ACCEPT);
    CHECK(at == 77 && rssi == -40 && channel == 11);
    CHECK(tag == VOLKJARP_TAG_DENSE_64 && iq_len == VOLKJARP_IQ_LEN);
    CHECK(memcmp(bytes + VOLKJARP_AT_SAMPLE_IQ, IQ, sizeof IQ) == 0);

    /* a record holds the same bytes, where the header says */
    memset(&s, 0, sizeof s);
    s.tag = VOLKJARP_TAG_DENSE_64;
    s.rssi = -40;
    s.channel = 11;
    s.at = 77;
    memcpy(s.iq, IQ, sizeof IQ);
    volkjarp_record(VOLKJARP_WATCH, &s, record);
    CHECK(record[VOLKJARP_AT_RECORD_KIND] == VOLKJARP_WATCH);
    CHECK(memcmp(record + VOLKJARP_AT_RECORD_SAMPLE, bytes, sizeof bytes) == 0);
    CHECK(bytes[VOLKJARP_AT_SAMPLE_VERSION] == VOLKJARP_SAMPLE_VERSION);
    CHECK(bytes[VOLKJARP_AT_SAMPLE_TAG] == VOLKJARP_TAG_DENSE_64);
    CHECK((int8_t)bytes[VOLKJARP_AT_SAMPLE_RSSI] == -40 && bytes[VOLKJARP_AT_SAMPLE_CHANNEL] == 11);
    CHECK(volkjarp_get(bytes, VOLKJARP_AT_SAMPLE_TIME, 8) == 77);
    CHECK(bytes[VOLKJARP_AT_SAMPLE_IQ_LEN] == VOLKJARP_IQ_LEN);
}

static void amplitudes(void)
{
    uint8_t bytes[VOLKJARP_SAMPLE_LEN];
    struct volkjarp_features four;
    struct volkjarp_measured m = csi_features(IQ, sizeof IQ, VOLKJARP_TAG_DENSE_64);

    CHECK(m.refusal == VOLKJARP_ACCEPT && m.features.count == 64);
    CHECK(m.features.amplitude[0] == 20 && m.features.amplitude[1] == 0);
    CHECK(m.features.mean == 0 && m.features.variance == 400 / 64);
    CHECK(csi_features(IQ, sizeof IQ, 9).refusal == VOLKJARP_REFUSE_TAG);
    CHECK(csi_features(IQ, sizeof IQ - 1, 1).refusal == VOLKJARP_REFUSE_IQ);

    csi_encode(0, 0, 0, VOLKJARP_TAG_DENSE_64, IQ, sizeof IQ, bytes, sizeof bytes);
    m = csi_sample_features(bytes, sizeof bytes);
    CHECK(m.refusal == VOLKJARP_ACCEPT && m.features.amplitude[0] == 20);

    m = csi_watched(IQ, sizeof IQ, VOLKJARP_TAG_DENSE_64);
    CHECK(m.refusal == VOLKJARP_ACCEPT && m.features.amplitude[0] == 65535);

    memset(&four, 0, sizeof four);
    four.count = 4;
    four.amplitude[0] = 10;
    four.amplitude[1] = 20;
    four.amplitude[2] = 30;
    four.amplitude[3] = 40;
    m = csi_normalised(four);
    CHECK(m.refusal == VOLKJARP_ACCEPT && m.features.count == 4);
    CHECK(m.features.amplitude[0] == 409 && m.features.amplitude[1] == 819);
    CHECK(m.features.amplitude[2] == 1228 && m.features.amplitude[3] == 1638);
    CHECK(m.features.mean == 1023 && m.features.variance == 209715);
    four.count = 65;
    CHECK(csi_normalised(four).refusal == VOLKJARP_REFUSE_COUNT);
}

/* Variances 100 and 101, then 150: 500 permille from their mean. */
static void fingerprint(void)
{
    struct volkjarp_baseline b = {0, 0};
    struct volkjarp_features f;
    struct volkjarp_calibrated c;
    struct volkjarp_number n;

    memset(&f, 0, sizeof f);
    f.count = 4;
    f.variance = 100;
    c = fingerprint_calibrate(b, f);
    CHECK(c.refusal == VOLKJARP_ACCEPT && c.baseline.sum == 100 && c.baseline.frames == 1);
    f.variance = 101;
    c = fingerprint_calibrate(c.baseline, f);
    n = fingerprint_mean(c.baseline);
    CHECK(n.refusal == VOLKJARP_ACCEPT && n.value == 100);
    f.variance = 150;
    n = fingerprint_distance(c.baseline, f);
    CHECK(n.refusal == VOLKJARP_ACCEPT && n.value == 500);
    b.frames = 65536;
    CHECK(fingerprint_mean(b).refusal == VOLKJARP_REFUSE_MEMORY);
    b.frames = 65535;
    CHECK(fingerprint_calibrate(b, f).refusal == VOLKJARP_REFUSE_FULL);
}

/* W 2, 1,000 and 1,010: a wander of 4 permille. */
static void presence(void)
{
    const struct volkjarp_presence_config config = {4, 2, 3 * SECOND};
    uint8_t rows[VOLKJARP_ROWS_LEN(2)];
    struct volkjarp_presence_begun p;
    struct volkjarp_presence_pushed q;
    struct volkjarp_amplitudes frame;
    const struct volkjarp_presence_config normalised = presence_normalised_default();

    CHECK(normalised.on_permille == 32 && normalised.off_permille == 23 && normalised.hold == 3 * SECOND);
    memset(&frame, 0, sizeof frame);
    frame.count = 1;
    frame.amplitude[0] = 1000;
    CHECK(presence_new(rows, sizeof rows, 0).refusal == VOLKJARP_REFUSE_SETTINGS);
    CHECK(presence_new(rows, sizeof rows, 3).refusal == VOLKJARP_REFUSE_MEMORY);
    p = presence_new(rows, sizeof rows, 2);
    CHECK(p.refusal == VOLKJARP_ACCEPT && p.state.filled == 0 && p.state.present == 0);
    q = presence_push(rows, sizeof rows, 2, config, p.state, p.sums, frame);
    CHECK(q.refusal == VOLKJARP_ACCEPT && q.verdict == VOLKJARP_WARMING && q.sums.sum[0] == 1000);
    frame.amplitude[0] = 1010;
    frame.time = SECOND;
    q = presence_push(rows, sizeof rows, 2, config, q.state, q.sums, frame);
    CHECK(q.refusal == VOLKJARP_ACCEPT && q.verdict == VOLKJARP_PRESENT && q.state.wander == 4);
    CHECK(q.state.present == 1 && q.state.last_motion == SECOND && q.sums.sum[0] == 2010);
    frame.count = 65;
    CHECK(presence_push(rows, sizeof rows, 2, config, q.state, q.sums, frame).refusal ==
          VOLKJARP_REFUSE_COUNT);
    q.sums.sum[0]++;
    CHECK(presence_reset(rows, sizeof rows, 2, q.state, q.sums).refusal == VOLKJARP_REFUSE_MEMORY);
    q.sums.sum[0]--;
    q.state.present = 2;
    CHECK(presence_reset(rows, sizeof rows, 2, q.state, q.sums).refusal == VOLKJARP_REFUSE_MEMORY);
    q.state.present = 1;
    p = presence_reset(rows, sizeof rows, 2, q.state, q.sums);
    CHECK(p.refusal == VOLKJARP_ACCEPT && p.state.filled == 0 && p.state.present == 0);
}

static void phases(void)
{
    struct volkjarp_angles angles;
    struct volkjarp_measured_phases m;

    CHECK(phase_atan2_brad(0, 0) == 0);
    CHECK(phase_atan2_brad(0, -1) == -32768);
    CHECK(phase_atan2_brad(-1, -64) == -32605);
    m = phase_phases(IQ, sizeof IQ, VOLKJARP_TAG_DENSE_64);
    CHECK(m.refusal == VOLKJARP_ACCEPT && m.phases.count == 64 && m.phases.phase[0] > 0);
    CHECK(phase_phases(IQ, sizeof IQ, 0).refusal == VOLKJARP_REFUSE_TAG);

    /* three on a line, then one off it */
    memset(&angles, 0, sizeof angles);
    angles.count = 3;
    angles.angle[1] = 100;
    angles.angle[2] = 200;
    m = phase_of_angles(angles);
    CHECK(m.refusal == VOLKJARP_ACCEPT && m.phases.count == 3);
    CHECK(m.phases.phase[0] == 0 && m.phases.phase[1] == 0 && m.phases.phase[2] == 0);
    angles.angle[1] = 130;
    m = phase_of_angles(angles);
    CHECK(m.phases.phase[0] == -10 && m.phases.phase[1] == 20 && m.phases.phase[2] == -10);
    angles.count = 65;
    CHECK(phase_of_angles(angles).refusal == VOLKJARP_REFUSE_COUNT);
}

/* W 2, angles 0 and half a turn: a wander of 1,000,000 parts. */
static void phase_detector(void)
{
    const struct volkjarp_phase_config config = {380, 260, 3 * SECOND};
    uint8_t rows[VOLKJARP_ROWS_LEN(2)];
    struct volkjarp_phase_begun p;
    struct volkjarp_phase_pushed q;
    struct volkjarp_phase_frame frame;

    memset(&frame, 0, sizeof frame);
    frame.count = 1;
    CHECK(phase_detector_new(rows, sizeof rows, 8193).refusal == VOLKJARP_REFUSE_SETTINGS);
    p = phase_detector_new(rows, sizeof rows, 2);
    CHECK(p.refusal == VOLKJARP_ACCEPT && p.state.filled == 0);
    q = phase_detector_push(rows, sizeof rows, 2, config, p.state, p.sums, frame);
    CHECK(q.refusal == VOLKJARP_ACCEPT && q.verdict == VOLKJARP_WARMING);
    frame.phase[0] = -32768;
    q = phase_detector_push(rows, sizeof rows, 2, config, q.state, q.sums, frame);
    CHECK(q.refusal == VOLKJARP_ACCEPT && q.verdict == VOLKJARP_PRESENT);
    CHECK(q.state.wander == 1000000 && q.sums.cos[0] == 0 && q.sums.sin[0] == 0);
    q.state.next = 2;
    CHECK(phase_detector_reset(rows, sizeof rows, 2, q.state, q.sums).refusal ==
          VOLKJARP_REFUSE_MEMORY);
    q.state.next = 0;
    q.state.present = 2;
    CHECK(phase_detector_reset(rows, sizeof rows, 2, q.state, q.sums).refusal ==
          VOLKJARP_REFUSE_MEMORY);
    q.state.present = 1;
    p = phase_detector_reset(rows, sizeof rows, 2, q.state, q.sums);
    CHECK(p.refusal == VOLKJARP_ACCEPT && p.state.filled == 0);
}

/* The sector of a pair: a whole turn is added to a negative angle. */
static size_t sector(int8_t im, int8_t re)
{
    const int32_t angle = phase_atan2_brad(im, re);
    return (size_t)(angle < 0 ? angle + TURN : angle) / (TURN / VOLKJARP_SECTORS);
}

/* The census made with the calls for amplitudes and angles, 64 pairs at a time. */
static struct volkjarp_census counted(void)
{
    struct volkjarp_census c;
    struct volkjarp_measured m;
    uint8_t iq[VOLKJARP_IQ_LEN];
    int im, first, k;

    memset(&c, 0, sizeof c);
    for (im = INT8_MIN; im <= INT8_MAX; im++) {
        for (first = INT8_MIN; first <= INT8_MAX; first += VOLKJARP_COLUMNS) {
            for (k = 0; k < VOLKJARP_COLUMNS; k++) {
                iq[2 * k] = (uint8_t)im;
                iq[2 * k + 1] = (uint8_t)(first + k);
                c.sector[sector((int8_t)im, (int8_t)(first + k))]++;
            }
            m = csi_features(iq, sizeof iq, VOLKJARP_TAG_DENSE_64);
            for (k = 0; k < m.features.count; k++)
                c.amplitude[m.features.amplitude[k]]++;
        }
    }
    return c;
}

static void census(void)
{
    const struct volkjarp_census c = census_count(), due = counted();
    uint32_t by_amplitude = 0, by_sector = 0;
    size_t k;

    for (k = 0; k < VOLKJARP_AMPLITUDES; k++)
        by_amplitude += c.amplitude[k];
    for (k = 0; k < VOLKJARP_SECTORS; k++)
        by_sector += c.sector[k];
    CHECK(by_amplitude == PAIRS && by_sector == PAIRS);
    CHECK(c.amplitude[0] == 1 && c.amplitude[VOLKJARP_AMPLITUDES - 1] == 1);
    CHECK(memcmp(c.amplitude, due.amplitude, sizeof c.amplitude) == 0);
    CHECK(memcmp(c.sector, due.sector, sizeof c.sector) == 0);
}

/* A word before and behind what is lent. */
struct lent {
    uint16_t before, entry[VOLKJARP_FINE_ENTRIES], behind;
};

/* Makes a table in lent space, and looks at its length, its order and its last entry. */
static struct lent table(void (*make)(uint16_t *), size_t entries, uint16_t last)
{
    enum { NONE = 0xaaaa };
    struct lent t;
    size_t i;

    memset(&t, NONE & 0xff, sizeof t);
    make(t.entry);
    CHECK(t.before == NONE && t.behind == NONE);
    CHECK(entries == VOLKJARP_FINE_ENTRIES || t.entry[entries] == NONE);
    for (i = 1; i < entries; i++)
        CHECK(t.entry[i - 1] <= t.entry[i]);
    CHECK(t.entry[0] == 0 && t.entry[entries - 1] == last);
    return t;
}

static void tables(void)
{
    const struct lent atans = table(tables_atan_256, VOLKJARP_COARSE_ENTRIES, 8192);
    const struct lent sines = table(tables_sine_256, VOLKJARP_COARSE_ENTRIES, 16384);
    const struct lent fine_atans = table(tables_atan_1024, VOLKJARP_FINE_ENTRIES, 8192);
    const struct lent fine_sines = table(tables_sine_1024, VOLKJARP_FINE_ENTRIES, 16384);
    int32_t square;
    int i;

    for (i = 0; i < VOLKJARP_COARSE_ENTRIES; i++)
        CHECK(fine_atans.entry[4 * i] == atans.entry[i] && fine_sines.entry[4 * i] == sines.entry[i]);
    for (i = 0; i < VOLKJARP_FINE_ENTRIES; i++) {
        square = fine_sines.entry[i] * fine_sines.entry[i] +
                 fine_sines.entry[VOLKJARP_FINE_ENTRIES - 1 - i] *
                     fine_sines.entry[VOLKJARP_FINE_ENTRIES - 1 - i];
        CHECK(abs(square - (1 << 28)) <= 24000);
    }
    /* the table that an angle is read from: half a turn less that of y / 128 */
    for (i = 0; i <= INT8_MAX; i++)
        CHECK(atans.entry[2 * i] == (uint16_t)(TURN / 2 - phase_atan2_brad((int8_t)i, -128)));
}

static void bands(void)
{
    const struct volkjarp_vitals_config breathing = vitals_breathing(50), heart = vitals_heart(50);
    struct volkjarp_covered c = vitals_lags(breathing.band, breathing.rate_hz);

    CHECK(breathing.decim == 5 && breathing.rate_hz == 10 && breathing.highpass == 0);
    CHECK(heart.decim == 2 && heart.rate_hz == 25 && heart.highpass == 25);
    CHECK(c.refusal == VOLKJARP_ACCEPT && c.lags.lo == 18 && c.lags.hi == 67);
    c = vitals_lags(heart.band, heart.rate_hz);
    CHECK(c.refusal == VOLKJARP_ACCEPT && c.lags.lo == 11 && c.lags.hi == 36);
    CHECK(vitals_lags(heart.band, 0).refusal == VOLKJARP_REFUSE_SETTINGS);
}

/* One subcarrier that goes up and down with 30 blocks of a tenth of a second: 20 times a minute. */
static void vitals(void)
{
    enum { N = 128 };
    struct volkjarp_vitals_config config = vitals_breathing(10);
    static uint8_t rows[VOLKJARP_ROWS_LEN(N)];
    struct volkjarp_vitals_begun b = vitals_new(rows, sizeof rows, N, config);
    struct volkjarp_vitals_pushed p;
    struct volkjarp_amplitudes frame;
    uint16_t k;

    CHECK(b.refusal == VOLKJARP_ACCEPT && b.state.progress.filled == 0);
    CHECK(vitals_new(rows, sizeof rows, 3, config).refusal == VOLKJARP_REFUSE_SETTINGS);
    memset(&p, 0, sizeof p);
    memset(&frame, 0, sizeof frame);
    p.state = b.state;
    frame.count = 1;
    for (k = 0; k < N; k++) {
        CHECK(p.due == 0 && p.vitals.bpm_x10 == 0);
        frame.amplitude[0] = (uint16_t)(1000 + 10 * abs(k % 30 - 15));
        frame.time = k * UINT64_C(100000);
        p = vitals_push(rows, sizeof rows, N, config, p.state, frame);
        CHECK(p.refusal == VOLKJARP_ACCEPT);
    }
    CHECK(p.due == 1 && p.vitals.accepted == 1 && p.vitals.bpm_x10 == 200);
    CHECK(p.vitals.lag_x16 == 30 * 16 && p.vitals.confidence > 900 && p.vitals.at == frame.time);
    frame.count = 65;
    p = vitals_push(rows, sizeof rows, N, config, p.state, frame);
    CHECK(p.refusal == VOLKJARP_REFUSE_COUNT && p.due == 0 && p.state.progress.filled == N);
    CHECK(vitals_reset(rows, sizeof rows - 1, N, config, p.state).refusal == VOLKJARP_REFUSE_MEMORY);
    b = vitals_reset(rows, sizeof rows, N, config, p.state);
    CHECK(b.refusal == VOLKJARP_ACCEPT && b.state.progress.filled == 0);
}

/* Motion for three seconds, a burst, then stillness for ten. */
static void fall(void)
{
    const struct volkjarp_fall_config config = volkjarp_presets(50).fall;
    struct volkjarp_fall_words idle = {VOLKJARP_FALL_IDLE, 0, 0, 0};
    struct volkjarp_fall_pushed p = fall_push(config, idle, 100, 0);

    CHECK(p.said.refusal == VOLKJARP_ACCEPT && p.words.tag == VOLKJARP_FALL_ACTIVE);
    p = fall_push(config, p.words, 300, 3 * SECOND);
    CHECK(p.words.tag == VOLKJARP_FALL_BURST && p.words.peak == 300 && p.words.a == 3 * SECOND);
    p = fall_push(config, p.words, 10, 4 * SECOND);
    CHECK(p.words.tag == VOLKJARP_FALL_SETTLING && p.said.fall == 0);
    p = fall_push(config, p.words, 10, 14 * SECOND);
    CHECK(p.said.fall == 1 && p.said.peak_permille == 300 && p.said.burst_at == 3 * SECOND);
    CHECK(p.said.still_since == 4 * SECOND && p.said.at == 14 * SECOND);
    CHECK(p.words.tag == VOLKJARP_FALL_REFRACTORY && p.words.a == 74 * SECOND);
    idle.peak = 1;
    p = fall_push(config, idle, 100, 0);
    CHECK(p.said.refusal == VOLKJARP_REFUSE_MEMORY && p.words.peak == 1);
}

/* What chance_count is asked; the first `len` choices, with space for one too many. */
struct asked {
    struct volkjarp_fall_config config;
    uint16_t choices[VOLKJARP_CHANCE_CHOICES + 1];
    size_t len;
    uint64_t spacing, n;
};

static struct volkjarp_chances chances(struct asked a)
{
    return chance_count(a.config, a.choices, a.len, a.spacing, a.n);
}

static int same(struct volkjarp_chances a, struct volkjarp_chances b)
{
    return a.refusal == b.refusal && memcmp(a.counts, b.counts, sizeof a.counts) == 0;
}

static uint64_t power(uint64_t base, uint64_t exponent)
{
    uint64_t product = 1;
    for (; exponent > 0; exponent--)
        product *= base;
    return product;
}

/* The example of docs/SPEC.md: the default settings, four values, a second apart. */
static struct asked example(uint64_t n)
{
    struct asked a = {volkjarp_presets(50).fall, {30, 31, 32, 232, 0}, 4, SECOND, n};
    return a;
}

/* Goes on with every sequence from this frame on, and adds each to the count of its events. */
static void try_all(const struct asked *a, struct volkjarp_fall_words words, uint64_t frame,
                    size_t events, uint64_t *counts)
{
    struct volkjarp_fall_pushed p;
    size_t k;

    if (frame == a->n) {
        counts[events]++;
        return;
    }
    for (k = 0; k < a->len; k++) {
        p = fall_push(a->config, words, a->choices[k], frame * a->spacing);
        try_all(a, p.words, frame + 1, events + p.said.fall, counts);
    }
}

/* Whether the counts are those of trying every sequence; the most events that one has. */
static int as_tried(struct asked a, size_t *most)
{
    const struct volkjarp_fall_words idle = {VOLKJARP_FALL_IDLE, 0, 0, 0};
    struct volkjarp_chances due;
    size_t k;

    memset(&due, 0, sizeof due);
    try_all(&a, idle, 0, 0, due.counts);
    *most = 0;
    for (k = 0; k < VOLKJARP_CHANCE_COUNTS; k++)
        if (due.counts[k] > 0)
            *most = k;
    return same(chances(a), due);
}

/* The totals at every length. At 14 frames an event just fits in: 32 or 232, any, 232, 30, nine times
 * 30 or 31, then 30, which makes 2 * 4 * 2^9 sequences. */
static void chance_example(void)
{
    struct volkjarp_chances c;
    uint64_t n, total;
    size_t k, len;

    for (len = 1; len <= VOLKJARP_CHANCE_CHOICES; len++) {
        for (n = 0; n <= VOLKJARP_CHANCE_FRAMES; n++) {
            struct asked a = example(n);
            a.len = len;
            c = chances(a);
            total = 0;
            for (k = 0; k < VOLKJARP_CHANCE_COUNTS; k++)
                total += c.counts[k];
            CHECK(c.refusal == VOLKJARP_ACCEPT && total == power(len, n));
        }
    }
    CHECK(chances(example(0)).counts[0] == 1);
    CHECK(chances(example(13)).counts[0] == power(4, 13));
    c = chances(example(14));
    CHECK(c.counts[1] == 4096 && c.counts[0] == power(4, 14) - 4096);
    c = chances(example(15));
    CHECK(c.counts[1] == 53248 && c.counts[0] == power(4, 15) - 53248);
}

/* Each limit, and one past it. */
static void chance_limits(void)
{
    const struct volkjarp_chances refused = {VOLKJARP_REFUSE_CHANCE, {0}};
    struct asked a = example(VOLKJARP_CHANCE_FRAMES);

    CHECK(chances(a).refusal == VOLKJARP_ACCEPT);
    a.n = VOLKJARP_CHANCE_FRAMES + 1;
    CHECK(same(chances(a), refused));
    a.n = UINT64_C(1) << 32;
    CHECK(same(chances(a), refused));
    a.n = UINT64_MAX;
    CHECK(same(chances(a), refused));

    a = example(14);
    a.len = 0;
    CHECK(same(chances(a), refused));
    a.len = 1;
    CHECK(chances(a).refusal == VOLKJARP_ACCEPT);
    a.len = VOLKJARP_CHANCE_CHOICES + 1;
    CHECK(same(chances(a), refused));
    a.n = 0;
    CHECK(same(chances(a), refused));

    a = example(14);
    a.spacing = VOLKJARP_CHANCE_SPACING;
    CHECK(chances(a).refusal == VOLKJARP_ACCEPT);
    a.spacing = VOLKJARP_CHANCE_SPACING + 1;
    CHECK(same(chances(a), refused));
    a.spacing = UINT64_MAX;
    CHECK(same(chances(a), refused));
}

/* Values that are listed twice, and what stands behind those lent. */
static void chance_choices(void)
{
    struct asked once = example(20), twice = once;
    struct volkjarp_chances c, d;
    size_t k;

    once.choices[1] = 232;
    once.len = 2;
    twice.choices[1] = twice.choices[3] = 232;
    twice.choices[2] = 30;
    c = chances(once);
    d = chances(twice);
    CHECK(c.counts[1] > 0);
    for (k = 0; k < VOLKJARP_CHANCE_COUNTS; k++)
        CHECK(d.counts[k] == c.counts[k] * power(2, 20));
    once.choices[2] = 300;
    CHECK(same(chances(once), c));
    twice.choices[VOLKJARP_CHANCE_CHOICES] = 300;
    CHECK(same(chances(twice), d));
}

/* Numbers that go up and down, the same each time. */
static uint64_t made_up(uint64_t below)
{
    static uint64_t state = 1;
    state = state * UINT64_C(6364136223846793005) + UINT64_C(1442695040888963407);
    return (state >> 33) % below;
}

/* A duration of about so many frames; now and then the longest of all. */
static uint64_t lasting(uint64_t frames, uint64_t spacing)
{
    const uint64_t whole = made_up(frames + 1) * spacing;
    switch (made_up(8)) {
    case 0:
        return whole + 1;
    case 1:
        return whole > 0 ? whole - 1 : 0;
    case 2:
        return made_up(8) == 0 ? UINT64_MAX : whole;
    default:
        return whole;
    }
}

static struct asked made_up_question(void)
{
    static const uint64_t spacings[] = {0, 1, 20000, SECOND, VOLKJARP_CHANCE_SPACING};
    struct asked a;
    size_t k;

    a.spacing = spacings[made_up(5)];
    a.config.active_permille = (uint16_t)(2 + made_up(4));
    a.config.burst_permille = (uint16_t)(3 + made_up(5));
    a.config.still_permille = (uint16_t)made_up(4);
    a.config.min_active = lasting(2, a.spacing);
    a.config.quiet_grace = lasting(3, a.spacing);
    a.config.settle = lasting(2, a.spacing);
    a.config.still_for = lasting(2, a.spacing);
    a.config.refractory = lasting(2, a.spacing);
    for (k = 0; k <= VOLKJARP_CHANCE_CHOICES; k++)
        a.choices[k] = (uint16_t)made_up(9);
    a.len = 1 + made_up(VOLKJARP_CHANCE_CHOICES);
    a.n = made_up(a.len == 4 ? 8 : 11);
    return a;
}

/* The counts are those of trying every sequence with fall_push. */
static void chance_tried(void)
{
    struct asked a = example(8);
    size_t most, with_events = 0, k;

    CHECK(as_tried(a, &most) && most == 0);
    a.spacing = 3 * SECOND;
    CHECK(as_tried(a, &most) && most == 1);

    for (k = 0; k < 1000; k++) {
        CHECK(as_tried(made_up_question(), &most));
        with_events += most > 0;
    }
    CHECK(with_events > 100);

    /* nothing has to last: as many events as there can be */
    memset(&a.config, 0, sizeof a.config);
    a.config.active_permille = a.config.burst_permille = 1;
    a.choices[0] = 0;
    a.choices[1] = UINT16_MAX;
    a.len = 2;
    a.spacing = 0;
    a.n = VOLKJARP_CHANCE_FRAMES;
    CHECK(as_tried(a, &most) && most == 5);

    /* nothing is said ever after: the end of that time stops at 2^64 - 1 */
    a.config.refractory = UINT64_MAX;
    a.spacing = 1;
    a.n = 14;
    CHECK(as_tried(a, &most) && most == 1);
}

static void chance(void)
{
    chance_example();
    chance_limits();
    chance_choices();
    chance_tried();
}

/* A reset, a sample of tag 4 that is zero elsewhere, and a byte that begins no record. */
static void run(uint8_t *memory, size_t len)
{
    uint8_t records[VOLKJARP_RESET_LEN + VOLKJARP_RECORD_LEN + 1];
    uint8_t answers[3 * VOLKJARP_ANSWER_LEN + 1];
    struct volkjarp_sample s;
    struct volkjarp_answer a;
    struct volkjarp_ran ran;

    memset(&s, 0, sizeof s);
    s.tag = VOLKJARP_TAG_DENSE_64;
    records[0] = VOLKJARP_RESET;
    volkjarp_record(VOLKJARP_WATCH, &s, records + VOLKJARP_RESET_LEN);
    records[143] = 7;
    memset(answers, 0xAA, sizeof answers);
    ran = room_run(memory, len, records, sizeof records, answers, 2 * VOLKJARP_ANSWER_LEN);
    CHECK(ran.refusal == VOLKJARP_REFUSE_SPACE && ran.need == VOLKJARP_ANSWER_LEN);
    CHECK(ran.answers == 2 && ran.used == 143 && answers[2 * VOLKJARP_ANSWER_LEN] == 0xAA);

    ran = room_run(memory, len, records, sizeof records, answers, sizeof answers);
    CHECK(ran.refusal == VOLKJARP_ACCEPT && ran.need == 0 && ran.answers == 3 && ran.used == 143);
    a = volkjarp_answer_from(answers);
    CHECK(a.kind == VOLKJARP_ANSWER_RESET && a.refusal == 0);
    a = volkjarp_answer_from(answers + VOLKJARP_ANSWER_LEN);
    CHECK(a.kind == VOLKJARP_ANSWER_WATCHED && a.verdict == VOLKJARP_WARMING);
    CHECK(a.heart.state == VOLKJARP_NOT_DUE);
    a = volkjarp_answer_from(answers + 2 * VOLKJARP_ANSWER_LEN);
    CHECK(a.kind == VOLKJARP_ANSWER_REFUSED && a.refusal == VOLKJARP_REFUSE_RECORD);
    CHECK(a.position == 143 && answers[sizeof answers - 1] == 0xAA);

    /* a slice of no bytes still has a pointer */
    ran = room_run(memory, len, records, 0, answers, 0);
    CHECK(ran.refusal == VOLKJARP_ACCEPT && ran.answers == 0 && ran.used == 0);
    memory[0] ^= 1;
    ran = room_run(memory, len, records, sizeof records, answers, sizeof answers);
    CHECK(ran.refusal == VOLKJARP_REFUSE_MEMORY && ran.answers == 0 && ran.used == 0);
}

static void room(void)
{
    struct volkjarp_settings s = volkjarp_presets(50), kept;
    uint8_t settings[VOLKJARP_SETTINGS_LEN], again[VOLKJARP_SETTINGS_LEN];
    static uint8_t memory[47562];
    struct volkjarp_memory_len need;

    volkjarp_settings_to(&s, settings);
    need = room_memory_len(settings, sizeof settings - 1);
    CHECK(need.refusal == VOLKJARP_REFUSE_SETTINGS && need.len == 0);
    need = room_memory_len(settings, sizeof settings);
    CHECK(need.refusal == VOLKJARP_ACCEPT && need.len == sizeof memory);
    s.window = 8193;
    volkjarp_settings_to(&s, again);
    CHECK(room_begin(again, sizeof again, memory, sizeof memory) == VOLKJARP_REFUSE_SETTINGS);
    CHECK(room_begin(settings, sizeof settings, memory, sizeof memory - 1) == VOLKJARP_REFUSE_MEMORY);
    CHECK(volkjarp_get(memory, 0, 8) == 0);
    CHECK(room_begin(settings, sizeof settings, memory, sizeof memory) == VOLKJARP_ACCEPT);
    kept = volkjarp_settings_from(memory);
    volkjarp_settings_to(&kept, again);
    CHECK(kept.fall.refractory == 60 * SECOND && memcmp(again, settings, sizeof again) == 0);
    run(memory, sizeof memory);
}

int main(void)
{
    version();
    sample();
    amplitudes();
    fingerprint();
    presence();
    phases();
    phase_detector();
    census();
    tables();
    bands();
    vitals();
    fall();
    chance();
    room();
    return failures == 0 ? 0 : 1;
}
