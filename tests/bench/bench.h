/* What the benchmark's two ways in C share: a sheet, how many queues there are, the number of a queue and back. Like the planner they number
   queues by sums of counts (docs/DECISIONS.md); unlike it they trust their input and prove nothing. */
#include <stdint.h>
#include <stdlib.h>

#define NONE UINT64_MAX

typedef struct { uint32_t speed, energy; } Speed;
typedef struct { uint32_t weight, size, deadline; } Job;
typedef struct {
    uint32_t bound, speed_count;
    Speed speeds[9];
    uint32_t horizon, job_count;
    Job jobs[32];
} Sheet;
typedef struct { uint32_t at[6]; } Queue;

uint64_t queue_count(uint32_t largest, uint32_t positions);
uint64_t number(uint32_t largest, uint32_t positions, const Queue *queue);
Queue queue_at(uint32_t largest, uint32_t positions, uint64_t number);
int bearable(uint32_t largest, uint32_t positions, const Queue *queue);

/* Each fills T+1 rows of values, NONE for none, and T rows of plan bytes, 255 for no speed. */
void published(const Sheet *sheet, uint64_t *values, uint8_t *plan);
void stepped(const Sheet *sheet, uint64_t *values, uint8_t *plan);
