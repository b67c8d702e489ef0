/* SPDX-License-Identifier: MIT OR Apache-2.0 */
/*
 * The plan of a run (guest/plan): hosts, their set-up, and their processes. The
 * guest's first program and the link process of the wall clock both follow it.
 * Times are ns after time 0.
 */
#ifndef PLAN_H
#define PLAN_H
#include <stdbool.h>
#include <stdint.h>
#include <sys/types.h>

enum state { UNSTARTED, RUNNING, EXITED, SIGNALED };

struct process {
	int host, index;
	uint64_t start, stop, ended;	/* stop 0: never */
	int stop_signal;
	char *out, *err;	/* `-`: the terminal of the link process */
	char *path, *user;
	char **arguments, **environment;	/* end with NULL; argument 0 is the path */
	int argument_count, environment_count;
	enum state expected, state;
	int expected_value, value;	/* the exit status or the signal */
	pid_t pid;
};

struct line {
	bool is_sysctl;
	char *text;		/* `KEY VALUE`, or a command line */
};

struct host {
	char *name, *address;
	struct line *lines;	/* sysctl and setup, in order */
	int line_count;
	int net, mnt, uts;	/* the namespaces */
};

struct plan {
	uint64_t end;
	struct host *hosts;
	int host_count;
	struct process *processes;
	int process_count;
};

/* Reads a plan. Ends the run (fail) with the line and the cause if it is wrong. */
void read_plan(const char *path, struct plan *plan);

/* Provided by the program: writes the cause, ends what it started, and exits. */
_Noreturn void fail(const char *format, ...) __attribute__((format(printf, 1, 2)));
/* Fails with the system's error unless the status is at least 0. Returns the status. */
int must(int status, const char *what);

#endif
