/* SPDX-License-Identifier: MIT OR Apache-2.0 */
/* Starts the processes of a plan at their times, stops them, and notes how they end. */
#ifndef PROCESSES_H
#define PROCESSES_H
#include "plan.h"

/*
 * Forks every process. Each moves to its host, opens its files and waits for its
 * start, so that a start depends on nothing else. `folder` becomes the current folder;
 * `time_0` is CLOCK_MONOTONIC at time 0.
 */
void fork_processes(struct plan *plan, uint64_t time_0, const char *folder);
/*
 * Follows the processes to the end of the run: sends signals that are due, and notes
 * how they end. Returns at `end`, when all processes that are to end have ended, or
 * when polling `over` reports a hang-up. The result is the time (ns after time 0).
 */
uint64_t follow(struct plan *plan, uint64_t time_0, int over);
/* Writes guest/exits, with the state of each process at a time (ns after time 0). */
void write_exits(const struct plan *plan, const char *path, uint64_t now);
/* Returns CLOCK_MONOTONIC in ns. */
uint64_t monotonic_ns(void);

#endif
