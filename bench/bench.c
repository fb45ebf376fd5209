/*
 * Times every implementation of this program: bench [--samples N] [--count 1].
 *
 * First each has to give the crate's answers (without the crate: ours) on what is timed. Then it writes lines, their
 * fields parted by tabs:
 *
 *    side  NAME VERSION
 *    time  GROUP TASK BLOCKS LIMIT SIDE MEDIAN LOWER UPPER    in nanoseconds
 *
 * With --count 1, under valgrind --tool=callgrind --collect-atstart=no, nothing is timed: each task is done a few
 * times, and its instructions are dumped under the name "GROUP TASK BLOCKS SIDE TIMES".
 */
#include <stdio.h>
#include <stdlib.h>
#include <string.h>

#include "clock.h"
#include "options.h"

#ifdef WITH_CALLGRIND
#include <valgrind/callgrind.h>
#else
#define CALLGRIND_ZERO_STATS (void)0
#define CALLGRIND_TOGGLE_COLLECT (void)0
#define CALLGRIND_DUMP_STATS_AT(name) (void)(name)
#endif

/* Every task with every implementation that takes part in it. Of the plot's points these are ours and the crate. */
static size_t list_all(struct timing **list)
{
    size_t count = 0;
    *list = calloc(task_count * side_count, sizeof **list);
    if (*list == NULL)
        abort();
    for (size_t task = 0; task < task_count; task++)
        for (size_t side = 0; side < (tasks[task].plotted ? 1 + has_crate : side_count); side++)
            (*list)[count++] = (struct timing){.task = &tasks[task], .side = &sides[side]};
    return count;
}

static void compare_all(const struct timing *list, size_t count)
{
    const struct side *held_to = &sides[has_crate];
    for (size_t i = 0; i < count; i++)
        if (!agree(list[i].task, list[i].side, held_to)) {
            fprintf(stderr, "bench: %s and %s differ: %s (blocks: %zu)\n", list[i].side->other->name,
                    held_to->other->name, list[i].task->name, list[i].task->blocks);
            exit(1);
        }
}

/* The implementations of one task are timed side by side, and so are all points of the plot. */
static int together(const struct task *a, const struct task *b) { return a == b || (a->plotted && b->plotted); }

static void time_all(struct timing *list, size_t count, size_t samples)
{
    for (size_t from = 0, to; from < count; from = to) {
        to = from + 1;
        while (to < count && together(list[from].task, list[to].task))
            to++;
        time_together(list + from, to - from, samples);
    }
    for (size_t i = 0; i < count; i++)
        printf("time\t%s\t%s\t%zu\t%.2f\t%s\t%.2f\t%.2f\t%.2f\n", list[i].task->group, list[i].task->name,
               list[i].task->blocks, list[i].task->limit, list[i].side->other->name, list[i].median, list[i].lower,
               list[i].upper);
}

/* Of all but the points of the plot, which are the last. */
static void count_all(const struct timing *list, size_t count)
{
    char name[200];
    for (size_t i = 0; i < count && !list[i].task->plotted; i++) {
        const struct task *task = list[i].task;
        const size_t times = task->blocks > 16 ? 1 : 16;
        snprintf(name, sizeof name, "%s\t%s\t%zu\t%s\t%zu", task->group, task->name, task->blocks,
                 list[i].side->other->name, times);
        prepare(list[i].side);
        task->run(list[i].side, task, 1);
        CALLGRIND_ZERO_STATS;
        CALLGRIND_TOGGLE_COLLECT;
        task->run(list[i].side, task, times);
        CALLGRIND_TOGGLE_COLLECT;
        CALLGRIND_DUMP_STATS_AT(name);
    }
}

/* Of what a library says of its version, the number. */
static void say_sides(void)
{
    static const char digits[] = "0123456789";
    for (size_t i = 0; i < side_count; i++) {
        const char *version = sides[i].other->version();
        version += strcspn(version, digits);
        printf("side\t%s\t%.*s\n", sides[i].other->name, (int)strcspn(version, " "), version);
    }
}

int main(int argument_count, char **arguments)
{
    struct option options[] = {{"--samples", 101, 0}, {"--count", 0, 0}};
    struct timing *list;
    read_options(argument_count, arguments, options, 2);
    const size_t count = list_all(&list), samples = options[0].number;
    say_sides();
    make_inputs();
    compare_all(list, count);
    stay_on_one_cpu();
    if (options[1].number != 0)
        count_all(list, count);
    else if (samples > 0)
        time_all(list, count, samples);
    free(list);
    return 0;
}
