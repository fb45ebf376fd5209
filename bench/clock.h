/* How long tasks take. */
#ifndef CLOCK_H
#define CLOCK_H

#include "tasks.h"

/* One implementation at one task, and what came of timing it: nanoseconds for doing the task once, the median of the
 * samples and their quartiles. */
struct timing {
    const struct task *task;
    const struct side *side;
    double lower, median, upper;
};

/* Keeps the program on one processor, where that may be. */
void stay_on_one_cpu(void);

/* Times all of these side by side: in each round every one of them once, and each round begins with another one. */
void time_together(struct timing *timings, size_t count, size_t samples);

#endif
