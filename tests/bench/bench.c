/* Times three ways to plan a sheet (tests/bench/run), turn by turn, in one process: the published one and the two passes stepped, both in C,
   and the project's planner. Every plan must leave the same values and the same plan bytes, or it says so and fails. */
#include <stdio.h>
#include <string.h>
#include <time.h>
#include "bench.h"

/* crates/bench_plan: slices are a place and a length */
extern uint32_t bench_plan(const uint8_t *bytes, size_t length, uint64_t *values, size_t values_length, uint8_t *plan, size_t plan_length);

static uint32_t counts[9][7][64]; /* by largest speed, positions left and slack */

static void fill_counts(void) {
    for (uint32_t m = 1; m <= 8; m++)
        for (uint32_t r = 0; r <= 5; r++)
            for (uint32_t g = 0; g <= (6 - r) * m; g++) {
                uint32_t sum = r == 0;
                for (uint32_t h = 0; r > 0 && h <= g + m; h++) sum += counts[m][r - 1][h];
                counts[m][r][g] = sum;
            }
}

uint64_t queue_count(uint32_t m, uint32_t d) {
    uint64_t sum = 0;
    if (d == 0) return 1;
    for (uint32_t h = 0; h <= m; h++) sum += counts[m][d - 1][h];
    return sum;
}

uint64_t number(uint32_t m, uint32_t d, const Queue *q) {
    uint64_t before = 0;
    for (uint32_t u = 0; u < d; u++) {
        uint32_t here = q->at[u], last = u ? q->at[u - 1] : 0, slack = (u + 1) * m - here;
        for (uint32_t j = 0; j < here - last; j++) before += counts[m][d - 1 - u][slack + 1 + j];
    }
    return before;
}

Queue queue_at(uint32_t m, uint32_t d, uint64_t place) {
    Queue q = {{0}};
    uint32_t total = 0, slack = 0;
    for (uint32_t u = 0; u < d; u++) {
        slack += m;
        while (place >= counts[m][d - 1 - u][slack]) {
            place -= counts[m][d - 1 - u][slack];
            total++;
            slack--;
        }
        q.at[u] = total;
    }
    return q;
}

int bearable(uint32_t m, uint32_t d, const Queue *q) {
    for (uint32_t u = 0; u < d; u++)
        if (q->at[u] < (u ? q->at[u - 1] : 0) || q->at[u] > (u + 1) * m) return 0;
    return 1;
}

/* speeds 0 to m at the square of each; every fourth entry twice as often as the others; sizes and deadlines in turn */
static Sheet sheet_of(uint32_t d, uint32_t m, uint32_t jobs, uint32_t horizon) {
    Sheet s = {.bound = d, .speed_count = m + 1, .horizon = horizon, .job_count = jobs};
    for (uint32_t a = 0; a <= m; a++) s.speeds[a] = (Speed){a, a * a};
    for (uint32_t i = 0; i < jobs; i++) s.jobs[i] = (Job){i % 4 == 3 ? 2 : 1, (i + 2) % (m + 1), (3 * i + 3) % d + 1};
    return s;
}

/* as bytes: each of these numbers is below 128, and so is one byte */
static size_t write_sheet(const Sheet *s, uint8_t *bytes) {
    size_t n = 0;
    bytes[n++] = (uint8_t)s->bound;
    bytes[n++] = (uint8_t)s->speed_count;
    for (uint32_t j = 0; j < s->speed_count; j++) bytes[n++] = (uint8_t)s->speeds[j].speed, bytes[n++] = (uint8_t)s->speeds[j].energy;
    bytes[n++] = (uint8_t)s->horizon;
    bytes[n++] = (uint8_t)s->job_count;
    for (uint32_t i = 0; i < s->job_count; i++) {
        bytes[n++] = (uint8_t)s->jobs[i].weight;
        bytes[n++] = (uint8_t)s->jobs[i].size;
        bytes[n++] = (uint8_t)s->jobs[i].deadline;
    }
    return n;
}

/* one sheet, with the memory that its plan is lent */
static Sheet sheet;
static uint8_t bytes[256], *plan;
static size_t length, values_length, plan_length;
static uint64_t *values;

static void plan_published(void) { published(&sheet, values, plan); }
static void plan_stepped(void) { stepped(&sheet, values, plan); }
static void plan_planner(void) {
    uint32_t refused = bench_plan(bytes, length, values, values_length, plan, plan_length);
    if (refused) printf("the planner answers %u\n", refused), exit(1);
}
static void (*const ways[3])(void) = {plan_published, plan_stepped, plan_planner};

static uint64_t checksum(void) {
    uint64_t sum = 0;
    for (size_t i = 0; i < values_length; i++) sum = (sum * 1000003 + values[i] % 4294967291u) % 4294967291u;
    for (size_t i = 0; i < plan_length; i++) sum = (sum * 1000003 + plan[i]) % 4294967291u;
    return sum;
}

static uint64_t now(void) {
    struct timespec t;
    clock_gettime(CLOCK_MONOTONIC, &t);
    return (uint64_t)t.tv_sec * 1000000000u + (uint64_t)t.tv_nsec;
}

/* nanoseconds of one plan: the same plan over and over for a twentieth of a second, and at least once */
static uint64_t timed(void (*way)(void)) {
    uint64_t began = now(), times = 0;
    do way(), times++;
    while (now() - began < 50000000u);
    return (now() - began) / times;
}

int main(int count, char **args) {
    static const uint32_t sizes[5][4] = {{5, 5, 8, 12}, {6, 3, 8, 12}, {4, 8, 16, 12}, {5, 5, 32, 10}, {5, 5, 1, 100}};
    int turns = count > 1 ? atoi(args[1]) : 5;
    uint64_t least[5][3], sums[5] = {0};
    memset(least, 255, sizeof least);
    fill_counts();
    for (int turn = 1; turn <= turns; turn++)
        for (int k = 0; k < 5; k++) {
            const uint32_t *z = sizes[k];
            uint64_t queues = queue_count(z[1], z[0]);
            sheet = sheet_of(z[0], z[1], z[2], z[3]);
            length = write_sheet(&sheet, bytes);
            values_length = (z[3] + 1) * queues;
            plan_length = z[3] * queues;
            values = malloc(values_length * sizeof *values);
            plan = malloc(plan_length);
            printf("turn %d, %u %u %u %u, %llu queues:", turn, z[0], z[1], z[2], z[3], (unsigned long long)queues);
            for (int w = 0; w < 3; w++) {
                memset(values, 1, values_length * sizeof *values);
                memset(plan, 1, plan_length);
                uint64_t took = timed(ways[w]), sum = checksum();
                if (took < least[k][w]) least[k][w] = took;
                printf("%s %llu us", (const char *[]){" published", ", stepped", ", planner"}[w], (unsigned long long)(took / 1000));
                if (turn == 1 && w == 0) sums[k] = sum;
                if (sum != sums[k]) printf("\nchecksum %llu, and not %llu\n", (unsigned long long)sum, (unsigned long long)sums[k]), exit(1);
            }
            printf(", checksum %llu\n", (unsigned long long)sums[k]);
            fflush(stdout);
            free(values);
            free(plan);
        }
    for (int k = 0; k < 5; k++)
        printf("%u %u %u %u: published %.0f ms, stepped %.0f ms, planner %.0f ms\n", sizes[k][0], sizes[k][1], sizes[k][2], sizes[k][3],
               least[k][0] / 1e6, least[k][1] / 1e6, least[k][2] / 1e6);
    return 0;
}
