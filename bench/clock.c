#define _GNU_SOURCE
#include "clock.h"

#include <sched.h>
#include <stdlib.h>
#include <time.h>

/* How long a sample is to take, in nanoseconds. */
static const double SAMPLE = 100000;

void stay_on_one_cpu(void)
{
    const int cpu = sched_getcpu();
    cpu_set_t one;
    if (cpu < 0)
        return;
    CPU_ZERO(&one);
    CPU_SET(cpu, &one);
    sched_setaffinity(0, sizeof one, &one);
}

static double now(void)
{
    struct timespec at;
    clock_gettime(CLOCK_MONOTONIC_RAW, &at);
    return (double)at.tv_sec * 1e9 + (double)at.tv_nsec;
}

static double least(double a, double b) { return a < b ? a : b; }

static double sample(const struct timing *timing, size_t times)
{
    prepare(timing->side);
    const double from = now();
    timing->task->run(timing->side, timing->task, times);
    return now() - from;
}

/* How many times the task is done in a sample: judged by the shortest of three, as any of them may be interrupted. */
static size_t times_for(const struct timing *timing)
{
    size_t times = 1;
    for (;;) {
        double took = sample(timing, times);
        for (int again = 0; again < 2; again++)
            took = least(took, sample(timing, times));
        if (took > SAMPLE / 2)
            return took > SAMPLE ? times : (size_t)((double)times * SAMPLE / took);
        times *= 2;
    }
}

static int by_size(const void *a, const void *b)
{
    const double x = *(const double *)a, y = *(const double *)b;
    return (x > y) - (x < y);
}

void time_together(struct timing *timings, size_t count, size_t samples)
{
    double *took = calloc(count * samples, sizeof *took);
    size_t *times = calloc(count, sizeof *times);
    if (took == NULL || times == NULL)
        abort();
    for (size_t i = 0; i < count; i++)
        times[i] = times_for(&timings[i]);
    for (size_t round = 0; round < samples; round++)
        for (size_t turn = 0; turn < count; turn++) {
            const size_t i = (round + turn) % count;
            took[i * samples + round] = sample(&timings[i], times[i]) / (double)times[i];
        }
    for (size_t i = 0; i < count; i++) {
        double *sorted = took + i * samples;
        qsort(sorted, samples, sizeof *sorted, by_size);
        timings[i].lower = sorted[samples / 4];
        timings[i].median = sorted[samples / 2];
        timings[i].upper = sorted[samples - 1 - samples / 4];
    }
    free(took);
    free(times);
}
