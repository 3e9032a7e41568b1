/* The published way: for every slot, queue, speed and job the queue that follows is looked up in a table of all queues. The table is a fair
   one: open addressing, no more than half full, a multiplied hash of the totals packed into one word; the list of queues and the table are
   made once a plan. A speed is given up at the first job that leads to none. */
#include "bench.h"

typedef struct { uint64_t key; uint64_t place; } Cell;

static uint64_t key_of(const Queue *q, uint32_t d) {
    uint64_t key = 1;
    for (uint32_t u = 0; u < d; u++) key = key << 9 | q->at[u];
    return key;
}

static uint64_t cell_of(const Cell *cells, uint64_t mask, uint64_t key) {
    uint64_t i = (key * 0x9E3779B97F4A7C15u) >> 32 & mask;
    while (cells[i].key && cells[i].key != key) i = (i + 1) & mask;
    return i;
}

/* what a speed costs in a queue */
static uint64_t cost(const Sheet *s, const Cell *cells, uint64_t mask, const uint64_t *next, uint64_t scale, const Queue *q, const Speed *speed) {
    Queue left = {{0}};
    if (speed->speed < q->at[0]) return NONE;
    for (uint32_t u = 0; u < s->bound; u++) {
        uint32_t w = q->at[u + 1 < s->bound ? u + 1 : u];
        left.at[u] = w < speed->speed ? 0 : w - speed->speed;
    }
    uint64_t sum = speed->energy * scale;
    for (uint32_t j = 0; j < s->job_count; j++) {
        Queue joined = left;
        for (uint32_t u = s->jobs[j].deadline - 1; u < s->bound; u++) joined.at[u] += s->jobs[j].size;
        const Cell *cell = cells + cell_of(cells, mask, key_of(&joined, s->bound));
        if (!cell->key || next[cell->place] == NONE) return NONE;
        sum += s->jobs[j].weight * next[cell->place];
    }
    return sum;
}

void published(const Sheet *s, uint64_t *values, uint8_t *plan) {
    uint32_t m = s->speeds[s->speed_count - 1].speed, all = 0;
    uint64_t queues = queue_count(m, s->bound), scale = 1, size = 1;
    while (size < 2 * queues) size *= 2;
    Cell *cells = calloc(size, sizeof *cells);
    Queue *list = malloc(queues * sizeof *list);
    for (uint64_t i = 0; i < queues; i++) {
        list[i] = queue_at(m, s->bound, i);
        uint64_t key = key_of(&list[i], s->bound);
        cells[cell_of(cells, size - 1, key)] = (Cell){key, i};
    }
    for (uint32_t j = 0; j < s->job_count; j++) all += s->jobs[j].weight;
    for (uint64_t i = 0; i < queues; i++) values[s->horizon * queues + i] = 0;
    for (uint64_t t = s->horizon; t-- > 0;) {
        scale *= all;
        for (uint64_t i = 0; i < queues; i++) {
            uint64_t best = NONE;
            uint8_t speed = 255;
            for (uint32_t j = 0; j < s->speed_count; j++) {
                uint64_t here = cost(s, cells, size - 1, values + (t + 1) * queues, scale, &list[i], &s->speeds[j]);
                if (here < best) best = here, speed = (uint8_t)s->speeds[j].speed;
            }
            values[t * queues + i] = best;
            plan[t * queues + i] = speed;
        }
    }
    free(cells);
    free(list);
}
