// SPDX-License-Identifier: MIT OR Apache-2.0
/*
 * Reads guest/plan. Times are ns after time 0. An example:
 *
 *     end 15000000000
 *     host client 10.0.0.1
 *     sysctl net.ipv4.tcp_congestion_control bbr
 *     setup tc qdisc add dev eth0 root fq
 *     process 0 1000000000 hosts/client/0.out hosts/client/0.err
 *     path iperf3
 *     argument -c
 *     argument 10.0.1.1
 *     environment LANG=C
 *     user nobody
 *     stop 9000000000 15
 *     expects exited 0
 *
 * `sysctl` and `setup` belong to the host above them, and run before time 0, in
 * order; what follows `process` belongs to the process. An argument has a line of
 * its own, with \n for a line feed and \\ for a backslash. `stop` has a time and a
 * signal. `expects` is `exited N`, `signaled N` or `running`: the run ends early once
 * every process that is not to run has ended.
 */
#define _GNU_SOURCE
#include "plan.h"
#include <errno.h>
#include <stdio.h>
#include <stdlib.h>
#include <string.h>

/* Returns the array with room for one element more than `count`. */
static void *more(void *array, int count, size_t size)
{
	/* It grows at each power of two. */
	if (count & (count - 1))
		return array;
	array = realloc(array, (count ? 2 * (size_t)count : 1) * size);
	if (!array)
		fail("out of memory");
	return array;
}

static char *copy(const char *text)
{
	char *copied = strdup(text);

	if (!copied)
		fail("out of memory");
	return copied;
}

/* Copies a text in which \n is a line feed and \\ a backslash. */
static char *unescape(const char *text)
{
	char *copied = copy(text), *to = copied;

	for (; *text; text++) {
		if (*text == '\\' && text[1] == 'n') {
			*to++ = '\n';
			text++;
		} else {
			if (*text == '\\' && text[1] == '\\')
				text++;
			*to++ = *text;
		}
	}
	*to = 0;
	return copied;
}

static bool number_of(const char *text, uint64_t *number, const char **end)
{
	char *at;

	if (!text || *text < '0' || *text > '9')
		return false;
	errno = 0;
	*number = strtoull(text, &at, 10);
	*end = at + (*at == ' ');
	return !errno && (!*at || *at == ' ');
}

static bool int_of(const char *text, int *number, const char **end)
{
	uint64_t wide;

	if (!number_of(text, &wide, end) || wide > 1000000)
		return false;
	*number = (int)wide;
	return true;
}

static void add_text(char ***list, int *count, char *text)
{
	*list = more(*list, *count + 1, sizeof(**list));	/* and the NULL */
	(*list)[(*count)++] = text;
	(*list)[*count] = NULL;
}

static bool add_host(struct plan *plan, const char *value)
{
	struct host *host;
	const char *space = strchr(value, ' ');

	if (!space)
		return false;
	plan->hosts = more(plan->hosts, plan->host_count, sizeof(*plan->hosts));
	host = &plan->hosts[plan->host_count++];
	memset(host, 0, sizeof(*host));
	host->name = copy(value);
	host->name[space - value] = 0;
	host->address = copy(space + 1);
	return true;
}

static bool add_line(struct plan *plan, const char *value, bool is_sysctl)
{
	struct host *host;

	if (!plan->host_count)
		return false;
	host = &plan->hosts[plan->host_count - 1];
	host->lines = more(host->lines, host->line_count, sizeof(*host->lines));
	host->lines[host->line_count].is_sysctl = is_sysctl;
	host->lines[host->line_count++].text = unescape(value);
	return true;
}

/* `process INDEX START_NS STDOUT STDERR` */
static bool add_process(struct plan *plan, const char *value)
{
	struct process *process;
	const char *at;
	char *space;

	if (!plan->host_count)
		return false;
	plan->processes = more(plan->processes, plan->process_count, sizeof(*plan->processes));
	process = &plan->processes[plan->process_count++];
	memset(process, 0, sizeof(*process));
	process->host = plan->host_count - 1;
	process->expected = EXITED;
	if (!int_of(value, &process->index, &at) || !number_of(at, &process->start, &at))
		return false;
	process->out = copy(at);
	space = strchr(process->out, ' ');
	if (!space)
		return false;
	*space = 0;
	process->err = space + 1;
	return true;
}

static bool set_expected(struct process *process, const char *value)
{
	const char *end;

	if (!strcmp(value, "running")) {
		process->expected = RUNNING;
		return true;
	}
	if (!strncmp(value, "exited ", 7))
		process->expected = EXITED;
	else if (!strncmp(value, "signaled ", 9))
		process->expected = SIGNALED;
	else
		return false;
	return int_of(strchr(value, ' ') + 1, &process->expected_value, &end);
}

static bool set_process(struct process *process, const char *key, const char *value)
{
	const char *at;

	if (!strcmp(key, "path")) {
		process->path = unescape(value);
		add_text(&process->arguments, &process->argument_count, process->path);
	} else if (!strcmp(key, "argument")) {
		if (!process->path)
			return false;
		add_text(&process->arguments, &process->argument_count, unescape(value));
	} else if (!strcmp(key, "environment")) {
		add_text(&process->environment, &process->environment_count, unescape(value));
	} else if (!strcmp(key, "user")) {
		process->user = copy(value);
	} else if (!strcmp(key, "stop")) {
		return number_of(value, &process->stop, &at) &&
		       int_of(at, &process->stop_signal, &at);
	} else if (!strcmp(key, "expects")) {
		return set_expected(process, value);
	} else {
		return false;
	}
	return true;
}

static bool read_line(struct plan *plan, const char *key, const char *value)
{
	const char *at;

	if (!strcmp(key, "end"))
		return number_of(value, &plan->end, &at);
	if (!strcmp(key, "host"))
		return add_host(plan, value);
	if (!strcmp(key, "sysctl") || !strcmp(key, "setup"))
		return add_line(plan, value, key[1] == 'y');
	if (!strcmp(key, "process"))
		return add_process(plan, value);
	return plan->process_count &&
	       set_process(&plan->processes[plan->process_count - 1], key, value);
}

void read_plan(const char *path, struct plan *plan)
{
	FILE *file = fopen(path, "re");
	char *line = NULL, *value;
	size_t room = 0;
	ssize_t bytes;
	int number = 0;

	memset(plan, 0, sizeof(*plan));
	if (!file)
		fail("%s: %s", path, strerror(errno));
	while ((bytes = getline(&line, &room, file)) > 0) {
		number++;
		if (line[bytes - 1] == '\n')
			line[bytes - 1] = 0;
		if (!*line)
			continue;
		value = line + strcspn(line, " ");
		if (*value)
			*value++ = 0;
		if (!read_line(plan, line, value))
			fail("%s, line %d: not understood: %s %s", path, number, line, value);
	}
	free(line);
	fclose(file);
	for (int i = 0; i < plan->process_count; i++)
		if (!plan->processes[i].path)
			fail("%s: process %d of %s has no path", path, plan->processes[i].index,
			     plan->hosts[plan->processes[i].host].name);
}
