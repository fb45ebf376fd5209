/* What is timed, and by whom. */
#ifndef TASKS_H
#define TASKS_H

#include "host.h"

enum { MOST_TIMED_BLOCKS = 3000 };

/* One implementation: its table under round keys, and its way to do a host's operations. */
struct side {
    const struct other *other;
    const struct host *host;
};

/* The implementations of this program: ours first, then the Rust crate if it is there, then the libraries. Made by
 * run.sh. */
extern const struct side sides[];
extern const size_t side_count, has_crate;

struct task {
    const char *group, *name;
    double limit; /* the ratio to the crate that the project set itself, or 0 */
    size_t blocks;
    int plotted; /* whether it is a point of the plot, of cost against size */
    /* Does the task so many times. What comes of it stands in the answer. */
    void (*run)(const struct side *side, const struct task *task, size_t times);
};

/* The points of the plot are the last. */
extern const struct task tasks[];
extern const size_t task_count;

/* Draws what the tasks are done on, and puts the frames together. */
void make_inputs(void);

/* Sets up the key for tasks under round keys. */
void prepare(const struct side *side);

/* Whether the two give the same answer, on what is timed. */
int agree(const struct task *task, const struct side *a, const struct side *b);

#endif
