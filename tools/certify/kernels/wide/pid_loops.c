#include <stdint.h>
struct pid_gains { int16_t kp, ki, kd, shift; int32_t out_min, out_max, i_limit, pad; int32_t deadband, slew; };
struct pid_state { int32_t integral, last_error, last_output, saturated; int32_t rest[4]; };
static int32_t clamp(int32_t v, int32_t lo, int32_t hi) { return v < lo ? lo : v > hi ? hi : v; }
void KERNEL(int32_t *out, const int16_t *pairs, uint32_t n, const struct pid_gains *g, struct pid_state *s)
{
    for (uint32_t i = 0; i < n; i++) {
        int32_t error = pairs[2 * i] - pairs[2 * i + 1];
        if (error < g->deadband && error > -g->deadband) error = 0;
        if (!s->saturated || (error ^ s->last_output) < 0)
            s->integral = clamp(s->integral + error, -g->i_limit, g->i_limit);
        int64_t sum = (int64_t)g->kp * error + (int64_t)g->ki * s->integral + (int64_t)g->kd * (error - s->last_error);
        int32_t u = (int32_t)(sum >> (g->shift & 15));
        int32_t v = clamp(u, g->out_min, g->out_max);
        s->saturated = u != v;
        if (v - s->last_output > g->slew) v = s->last_output + g->slew;
        if (s->last_output - v > g->slew) v = s->last_output - g->slew;
        s->last_error = error;
        s->last_output = v;
        out[i] = v;
    }
}
