/* The two passes, stepped: a slot sums up what is ahead of the queues after it, and then takes the least over the speeds, both along blocks of
   queues that differ in their last total (in the first pass in their last two), so that a queue is numbered once for each block and
   speed, or entry. The lanes of a block are worked out where the block is met, in every slot. */
#include "bench.h"

typedef struct { uint32_t place, from, end; } SpeedLane;
typedef struct { uint32_t place, rise, end; } EntryLane;

/* where the entries lead from the first queue after a slot of a block on */
static void entry_lanes(const Sheet *s, uint32_t m, const Queue *q, EntryLane *lanes) {
    uint32_t d = s->bound;
    for (uint32_t j = 0; j < s->job_count; j++) {
        Queue joined = *q;
        for (uint32_t u = s->jobs[j].deadline - 1; u < d; u++) joined.at[u] += s->jobs[j].size;
        lanes[j].end = 0;
        if (!bearable(m, d, &joined)) continue;
        uint32_t before = d > 1 ? joined.at[d - 2] : 0, first = (d - 1) * m - before, second = d * m - joined.at[d - 1];
        lanes[j].place = number(m, d, &joined);
        lanes[j].rise = d * m + 1 - before;
        lanes[j].end = (first < second ? first : second) + 1;
    }
}

static void fill_ahead(const Sheet *s, uint32_t m, uint64_t after, const uint64_t *next, uint64_t *ahead) {
    uint32_t d = s->bound;
    for (uint64_t i = 0; i < after;) {
        Queue q = queue_at(m, d - 1, i);
        uint32_t last = d > 1 ? q.at[d - 2] : 0, drop = 0;
        EntryLane lanes[32];
        q.at[d - 1] = last;
        entry_lanes(s, m, &q, lanes);
        for (uint32_t k = 0; last + k <= (d - 1) * m; drop += k++) {
            uint64_t sum = 0;
            for (uint32_t j = 0; j < s->job_count && sum != NONE; j++) {
                uint64_t value = k < lanes[j].end ? next[lanes[j].place + k * lanes[j].rise - drop] : NONE;
                sum = value == NONE ? NONE : sum + s->jobs[j].weight * value;
            }
            ahead[i++] = sum;
        }
    }
}

/* where the speeds lead from the first queue of a block on */
static void speed_lanes(const Sheet *s, uint32_t m, const Queue *q, SpeedLane *lanes) {
    uint32_t d = s->bound, first = q->at[d - 1];
    for (uint32_t j = 0; j < s->speed_count; j++) {
        uint32_t a = s->speeds[j].speed;
        Queue left = {{0}};
        lanes[j].end = 0;
        if (a < q->at[0]) continue;
        for (uint32_t u = 0; u + 1 < d; u++) left.at[u] = q->at[u + 1] < a ? 0 : q->at[u + 1] - a;
        if (!bearable(m, d - 1, &left)) continue;
        lanes[j].place = number(m, d - 1, &left);
        lanes[j].from = a < first ? first : a;
        lanes[j].end = (d - 1) * m + a + 1;
    }
}

static void fill_row(const Sheet *s, uint32_t m, uint64_t queues, uint64_t scale, const uint64_t *ahead, uint64_t *row, uint8_t *bytes) {
    uint64_t energy[9];
    for (uint32_t j = 0; j < s->speed_count; j++) energy[j] = s->speeds[j].energy * scale;
    for (uint64_t i = 0; i < queues;) {
        Queue q = queue_at(m, s->bound, i);
        SpeedLane lanes[9];
        speed_lanes(s, m, &q, lanes);
        for (uint32_t x = q.at[s->bound - 1]; x <= s->bound * m; x++) {
            uint64_t best = NONE;
            uint8_t speed = 255;
            for (uint32_t j = 0; j < s->speed_count; j++) {
                if (lanes[j].end <= x) continue;
                uint64_t rest = ahead[lanes[j].place + (x < lanes[j].from ? 0 : x - lanes[j].from)];
                if (rest == NONE || best <= rest + energy[j]) continue;
                best = rest + energy[j];
                speed = (uint8_t)s->speeds[j].speed;
            }
            row[i] = best;
            bytes[i++] = speed;
        }
    }
}

void stepped(const Sheet *s, uint64_t *values, uint8_t *plan) {
    static uint64_t ahead[7084];
    uint32_t m = s->speeds[s->speed_count - 1].speed, all = 0;
    uint64_t queues = queue_count(m, s->bound), after = queue_count(m, s->bound - 1), scale = 1;
    for (uint32_t j = 0; j < s->job_count; j++) all += s->jobs[j].weight;
    for (uint64_t i = 0; i < queues; i++) values[s->horizon * queues + i] = 0;
    for (uint64_t t = s->horizon; t-- > 0;) {
        scale *= all;
        fill_ahead(s, m, after, values + (t + 1) * queues, ahead);
        fill_row(s, m, queues, scale, ahead, values + t * queues, plan + t * queues);
    }
}
