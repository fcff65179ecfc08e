/* The sizes and offsets of the header's structs, as the exported calls have them. Compiled as C99 and
 * as C++11; there is nothing to run. */
#include "volkjarp.h"

#define SIZE(type, size) typedef char size_of_##type[sizeof(struct volkjarp_##type) == (size) ? 1 : -1]
#define AT(type, field, at) \
    typedef char at_##type##_##field[offsetof(struct volkjarp_##type, field) == (at) ? 1 : -1]

SIZE(memory_len, 16);
AT(memory_len, refusal, 0);
AT(memory_len, len, 8);

SIZE(ran, 32);
AT(ran, refusal, 0);
AT(ran, need, 8);
AT(ran, answers, 16);
AT(ran, used, 24);

SIZE(presence_config, 16);
AT(presence_config, on_permille, 0);
AT(presence_config, off_permille, 2);
AT(presence_config, hold, 8);

SIZE(phase_config, 16);
AT(phase_config, on_ppm, 0);
AT(phase_config, off_ppm, 4);
AT(phase_config, hold, 8);

SIZE(band, 8);
AT(band, lo_mhz, 0);
AT(band, hi_mhz, 4);

SIZE(vitals_config, 24);
AT(vitals_config, decim, 0);
AT(vitals_config, rate_hz, 4);
AT(vitals_config, band, 8);
AT(vitals_config, update_every, 16);
AT(vitals_config, accept_permille, 18);
AT(vitals_config, highpass, 20);

SIZE(fall_config, 48);
AT(fall_config, active_permille, 0);
AT(fall_config, burst_permille, 2);
AT(fall_config, still_permille, 4);
AT(fall_config, min_active, 8);
AT(fall_config, quiet_grace, 16);
AT(fall_config, settle, 24);
AT(fall_config, still_for, 32);
AT(fall_config, refractory, 40);

SIZE(encoded, 16);
AT(encoded, refusal, 0);
AT(encoded, bytes, 8);

SIZE(features, 136);
AT(features, amplitude, 0);
AT(features, count, 128);
AT(features, mean, 130);
AT(features, variance, 132);

SIZE(measured, 140);
AT(measured, refusal, 0);
AT(measured, features, 4);

SIZE(baseline, 16);
AT(baseline, sum, 0);
AT(baseline, frames, 8);

SIZE(calibrated, 24);
AT(calibrated, refusal, 0);
AT(calibrated, baseline, 8);

SIZE(number, 8);
AT(number, refusal, 0);
AT(number, value, 4);

SIZE(detector, 40);
AT(detector, count, 0);
AT(detector, filled, 8);
AT(detector, next, 16);
AT(detector, wander, 24);
AT(detector, present, 28);
AT(detector, last_motion, 32);

SIZE(presence_sums, 768);
AT(presence_sums, sum, 0);
AT(presence_sums, sumsq, 256);

SIZE(presence_begun, 816);
AT(presence_begun, refusal, 0);
AT(presence_begun, state, 8);
AT(presence_begun, sums, 48);

SIZE(presence_pushed, 816);
AT(presence_pushed, refusal, 0);
AT(presence_pushed, verdict, 1);
AT(presence_pushed, motion, 2);
AT(presence_pushed, state, 8);
AT(presence_pushed, sums, 48);

SIZE(amplitudes, 144);
AT(amplitudes, amplitude, 0);
AT(amplitudes, count, 128);
AT(amplitudes, time, 136);

SIZE(angles, 130);
AT(angles, angle, 0);
AT(angles, count, 128);

SIZE(phases, 130);
AT(phases, phase, 0);
AT(phases, count, 128);

SIZE(measured_phases, 132);
AT(measured_phases, refusal, 0);
AT(measured_phases, phases, 2);

SIZE(phase_sums, 512);
AT(phase_sums, cos, 0);
AT(phase_sums, sin, 256);

SIZE(phase_begun, 560);
AT(phase_begun, refusal, 0);
AT(phase_begun, state, 8);
AT(phase_begun, sums, 48);

SIZE(phase_pushed, 560);
AT(phase_pushed, refusal, 0);
AT(phase_pushed, verdict, 1);
AT(phase_pushed, motion, 2);
AT(phase_pushed, state, 8);
AT(phase_pushed, sums, 48);

SIZE(phase_frame, 144);
AT(phase_frame, phase, 0);
AT(phase_frame, count, 128);
AT(phase_frame, time, 136);

SIZE(census, 2932);
AT(census, amplitude, 0);
AT(census, sector, 2900);

SIZE(lags, 16);
AT(lags, lo, 0);
AT(lags, hi, 8);

SIZE(covered, 24);
AT(covered, refusal, 0);
AT(covered, lags, 8);

SIZE(vitals, 24);
AT(vitals, bpm_x10, 0);
AT(vitals, confidence, 2);
AT(vitals, lag_x16, 4);
AT(vitals, accepted, 8);
AT(vitals, at, 16);

SIZE(progress, 32);
AT(progress, count, 0);
AT(progress, filled, 8);
AT(progress, next, 16);
AT(progress, acc_n, 24);
AT(progress, since_update, 28);

SIZE(estimator, 288);
AT(estimator, progress, 0);
AT(estimator, acc, 32);

SIZE(vitals_begun, 296);
AT(vitals_begun, refusal, 0);
AT(vitals_begun, state, 8);

SIZE(vitals_pushed, 320);
AT(vitals_pushed, refusal, 0);
AT(vitals_pushed, due, 1);
AT(vitals_pushed, vitals, 8);
AT(vitals_pushed, state, 32);

SIZE(fall_words, 24);
AT(fall_words, tag, 0);
AT(fall_words, peak, 2);
AT(fall_words, a, 8);
AT(fall_words, b, 16);

SIZE(fall_said, 32);
AT(fall_said, refusal, 0);
AT(fall_said, fall, 1);
AT(fall_said, peak_permille, 2);
AT(fall_said, burst_at, 8);
AT(fall_said, still_since, 16);
AT(fall_said, at, 24);

SIZE(fall_pushed, 56);
AT(fall_pushed, words, 0);
AT(fall_pushed, said, 24);

SIZE(chances, 208);
AT(chances, refusal, 0);
AT(chances, counts, 8);
