// SPDX-License-Identifier: MIT OR Apache-2.0
/* Starts, follows and stops the processes of a plan. */
#define _GNU_SOURCE
#include "processes.h"
#include "hosts.h"
#include <errno.h>
#include <fcntl.h>
#include <grp.h>
#include <poll.h>
#include <pwd.h>
#include <signal.h>
#include <stdio.h>
#include <stdlib.h>
#include <string.h>
#include <sys/signalfd.h>
#include <sys/timerfd.h>
#include <sys/wait.h>
#include <time.h>
#include <unistd.h>

enum { SECOND = 1000000000, EXEC_FAILED = 127, MAX_GROUPS = 64 };

/* Opens a file as a given descriptor of the program that is about to run. */
static void redirect(const char *path, int flags, int to)
{
	int file = must(open(path, flags | O_CLOEXEC, 0644), path);

	if (file != to) {
		must(dup2(file, to), path);
		close(file);
	} else {
		must(fcntl(file, F_SETFD, 0), path);
	}
}

static struct passwd *find_user(const char *name)
{
	FILE *file = fopen("/etc/passwd", "re");
	struct passwd *user = NULL;

	if (!file)
		fail("/etc/passwd: %s", strerror(errno));
	while ((user = fgetpwent(file)) != NULL && strcmp(user->pw_name, name))
		;
	fclose(file);
	return user;
}

/* Sets the groups that list the user in /etc/group, because getgrouplist needs shared libraries. */
static void set_groups(const struct passwd *user)
{
	gid_t groups[MAX_GROUPS] = {user->pw_gid};
	FILE *file = fopen("/etc/group", "re");
	struct group *group;
	size_t count = 1;

	while (file && count < MAX_GROUPS && (group = fgetgrent(file)) != NULL)
		for (char **member = group->gr_mem; *member; member++)
			if (!strcmp(*member, user->pw_name) && count < MAX_GROUPS)
				groups[count++] = group->gr_gid;
	if (file)
		fclose(file);
	must(setgroups(count, groups), user->pw_name);
	must(setgid(user->pw_gid), user->pw_name);
	must(setuid(user->pw_uid), user->pw_name);
}

static void become(const char *name)
{
	struct passwd *user = find_user(name);

	if (!user)
		fail("there is no user %s", name);
	setenv("HOME", user->pw_dir, 1);
	setenv("USER", name, 1);
	setenv("LOGNAME", name, 1);
	set_groups(user);
}

static void wait_until(uint64_t time)
{
	struct timespec at = {(time_t)(time / SECOND), (long)(time % SECOND)};

	while (clock_nanosleep(CLOCK_MONOTONIC, TIMER_ABSTIME, &at, NULL) == EINTR)
		;
}

/* Prepares everything before the start of the process, so that only execve happens at that time. */
_Noreturn static void run(const struct plan *plan, const struct process *process,
			  uint64_t time_0, const char *folder)
{
	sigset_t none;

	enter_host(&plan->hosts[process->host]);
	must(chdir(folder), folder);
	if (strcmp(process->out, "-")) {
		setsid();
		redirect("/dev/null", O_RDONLY, 0);
		redirect(process->out, O_WRONLY | O_CREAT | O_APPEND, 1);
		redirect(process->err, O_WRONLY | O_CREAT | O_APPEND, 2);
	}
	if (process->user)
		become(process->user);
	for (int i = 0; i < process->environment_count; i++)
		putenv(process->environment[i]);
	signal(SIGPIPE, SIG_DFL);
	sigemptyset(&none);
	sigprocmask(SIG_SETMASK, &none, NULL);
	wait_until(time_0 + process->start);
	execvp(process->path, process->arguments);
	dprintf(2, "%s: %s\n", process->path, strerror(errno));
	_exit(EXEC_FAILED);
}

void fork_processes(struct plan *plan, uint64_t time_0, const char *folder)
{
	for (int i = 0; i < plan->process_count; i++) {
		struct process *process = &plan->processes[i];

		if (process->start >= plan->end)
			continue;
		process->pid = must(fork(), "fork");
		if (process->pid == 0)
			run(plan, process, time_0, folder);
	}
}

static void reap_processes(struct plan *plan, uint64_t now)
{
	int status;
	pid_t pid;

	while ((pid = waitpid(-1, &status, WNOHANG)) > 0) {
		for (int i = 0; i < plan->process_count; i++) {
			struct process *process = &plan->processes[i];

			if (process->pid != pid)
				continue;
			process->state = WIFEXITED(status) ? EXITED : SIGNALED;
			process->value = WIFEXITED(status) ? WEXITSTATUS(status)
							   : WTERMSIG(status);
			process->ended = now;
		}
	}
}

/* Marks what has started, and sends the signals that are due. */
static void stop_processes(struct plan *plan, uint64_t now)
{
	for (int i = 0; i < plan->process_count; i++) {
		struct process *process = &plan->processes[i];

		if (process->state == UNSTARTED && process->pid && process->start <= now)
			process->state = RUNNING;
		if (process->state == RUNNING && process->stop && process->stop <= now) {
			kill(process->pid, process->stop_signal);
			process->stop = 0;
		}
	}
}

/* Returns the time of the next start, signal or the end, whichever is first. */
static uint64_t next_stop(const struct plan *plan, uint64_t now)
{
	uint64_t next = plan->end;

	for (int i = 0; i < plan->process_count; i++) {
		const struct process *process = &plan->processes[i];

		if (process->state == UNSTARTED && process->pid && process->start > now &&
		    process->start < next)
			next = process->start;
		if (process->state <= RUNNING && process->pid && process->stop &&
		    process->stop < next)
			next = process->stop;
	}
	return next;
}

/* Returns true once all processes that are to end have ended. */
static bool have_all_ended(const struct plan *plan)
{
	bool may_end = false;

	for (int i = 0; i < plan->process_count; i++) {
		const struct process *process = &plan->processes[i];

		if (process->expected == RUNNING)
			continue;
		may_end = true;
		if (process->state == UNSTARTED ? process->pid != 0 : process->state == RUNNING)
			return false;
	}
	return may_end;
}

uint64_t monotonic_ns(void)
{
	struct timespec at;

	clock_gettime(CLOCK_MONOTONIC, &at);
	return (uint64_t)at.tv_sec * SECOND + (uint64_t)at.tv_nsec;
}

static uint64_t now_after(uint64_t time_0)
{
	uint64_t now = monotonic_ns();

	return now > time_0 ? now - time_0 : 0;
}

static void arm(int timer, uint64_t time)
{
	struct itimerspec at = {.it_value = {(time_t)(time / SECOND), (long)(time % SECOND)}};

	must(timerfd_settime(timer, TFD_TIMER_ABSTIME, &at, NULL), "timer");
}

uint64_t follow(struct plan *plan, uint64_t time_0, int over)
{
	int timer = must(timerfd_create(CLOCK_MONOTONIC, TFD_CLOEXEC | TFD_NONBLOCK), "timer");
	struct pollfd files[3] = {{.events = POLLIN}, {.fd = timer, .events = POLLIN}, {.fd = over}};
	struct signalfd_siginfo info;
	sigset_t signals;
	uint64_t now;

	sigemptyset(&signals);
	sigaddset(&signals, SIGCHLD);
	must(sigprocmask(SIG_BLOCK, &signals, NULL), "signals");
	files[0].fd = must(signalfd(-1, &signals, SFD_CLOEXEC | SFD_NONBLOCK), "signalfd");
	while ((now = now_after(time_0)) < plan->end && !(files[2].revents & POLLHUP)) {
		stop_processes(plan, now);
		reap_processes(plan, now);
		if (have_all_ended(plan))
			break;
		arm(timer, time_0 + next_stop(plan, now));
		poll(files, 3, -1);
		while (read(files[0].fd, &info, sizeof(info)) > 0)
			;
	}
	close(timer);
	close(files[0].fd);
	return now;
}

void write_exits(const struct plan *plan, const char *path, uint64_t now)
{
	static const char *const words[] = {"unstarted", "running", "exited", "signaled"};
	FILE *file = fopen(path, "we");

	if (!file)
		fail("%s: %s", path, strerror(errno));
	for (int i = 0; i < plan->process_count; i++) {
		const struct process *process = &plan->processes[i];

		fprintf(file, "%s %d %s", plan->hosts[process->host].name, process->index,
			words[process->state]);
		if (process->state == EXITED || process->state == SIGNALED)
			fprintf(file, " %d %llu\n", process->value,
				(unsigned long long)process->ended);
		else
			fprintf(file, " %llu\n", (unsigned long long)now);
	}
	if (fclose(file))
		fail("%s: %s", path, strerror(errno));
}
