// SPDX-License-Identifier: GPL-2.0
/*
 * Interrupts a program that runs for long without a system call or a fault.
 *
 * Time stands still while a program computes. One that waits in user space for
 * another thread (a spinlock, a Go loop) would stop the clock for ever. A timer
 * of the host checks every 10 ms: if the same host process has run all the time,
 * and has used a second of CPU time (time-travel-spin=MS), it gets a SIGPROF.
 * A task that has slept that way once is interrupted after 20 ms from then on.
 *
 * Where that happens depends on the host's speed, so the program is single-stepped
 * then. If its registers repeat, it waits: it steps to the place of its loop that
 * has the smallest hash of the registers, which is the same in every run, and
 * sleeps there (time_travel_spin). If they don't, it computes, and may continue for
 * longer.
 *
 * This means that a wait is deterministic if its registers repeat within WINDOW steps. A
 * loop that counts its turns, or a program that computes for more than five
 * seconds without a stop, sleeps at a place that can differ between runs.
 * Counting instructions instead would be exact, but virtual machines seldom have
 * the counters. guest/counts has the number of sleeps: `spins`, and those of them
 * at a place that can differ: `spins_unsettled`.
 */
#include <errno.h>
#include <stdlib.h>
#include <signal.h>
#include <sys/ptrace.h>
#include <sys/wait.h>
#include <time.h>
#include <init.h>
#include <ptrace_user.h>
#include <sysdep/ptrace.h>
#include <timetravel.h>
#include <guest_cpu.h>

enum { TICK_NS = 10000000, AGAIN_NS = 20000000, SECOND = 1000000000, WINDOW = 10000 };

static volatile int running_pid;
static volatile unsigned long entries, suspected;
static volatile unsigned int has_spun;
static int is_settled;
static long long first_ns = SECOND;

static int __init set_first(char *line, int *add)
{
	first_ns = atoll(line) * 1000000;
	return 0;
}

__uml_setup("time-travel-spin=", set_first,
"time-travel-spin=<ms>\n"
"    A program that uses this much CPU time (1000) without a stop is made to\n"
"    sleep, because it may wait for another thread. 0: never.\n\n"
);

static long long cpu_time(int pid)
{
	struct timespec used;
	clockid_t clock;

	if (clock_getcpuclockid(pid, &clock) || clock_gettime(clock, &used))
		return 0;
	return (long long)used.tv_sec * SECOND + used.tv_nsec;
}

static void on_tick(int number)
{
	static unsigned long seen;
	static long long since;
	int pid = running_pid;

	if (!pid)
		return;
	if (seen != entries) {
		seen = entries;
		since = cpu_time(pid);
	} else if (cpu_time(pid) - since >= (has_spun ? AGAIN_NS : first_ns)) {
		suspected = seen;
		kill(pid, SIGPROF);
		since = cpu_time(pid);
	}
}

static void start_timer(void)
{
	struct sigaction action = { .sa_handler = on_tick, .sa_flags = SA_RESTART | SA_ONSTACK };
	struct sigevent event = { .sigev_notify = SIGEV_SIGNAL, .sigev_signo = SIGPROF };
	struct itimerspec each = { { 0, TICK_NS }, { 0, TICK_NS } };
	timer_t timer;

	sigaction(SIGPROF, &action, NULL);
	if (!timer_create(CLOCK_MONOTONIC, &event, &timer))
		timer_settime(timer, 0, &each, NULL);
}

void spin_watch_enter(int pid, struct uml_pt_regs *regs)
{
	static int is_on;

	if (time_travel_mode != TT_MODE_INFCPU || !first_ns)
		return;
	if (!is_on) {
		is_on = 1;
		start_timer();
	}
	has_spun = regs->spins & HAS_SPUN;
	entries++;
	running_pid = pid;
}

void spin_watch_leave(void)
{
	running_pid = 0;
}

/* Returns a hash of the registers, without those that single steps change. */
static unsigned long long hash_registers(int pid)
{
	static const int kept[] = {
		HOST_IP, HOST_SP, HOST_BP, HOST_AX, HOST_BX, HOST_CX, HOST_DX, HOST_SI, HOST_DI,
		HOST_R8, HOST_R9, HOST_R10, HOST_R11, HOST_R12, HOST_R13, HOST_R14, HOST_R15,
	};
	unsigned long long hash = 0xcbf29ce484222325ULL;
	unsigned long gp[MAX_REG_NR];
	unsigned int i;

	ptrace(PTRACE_GETREGS, pid, 0, gp);
	for (i = 0; i < sizeof(kept) / sizeof(*kept); i++)
		hash = (hash ^ gp[kept[i]]) * 0x100000001b3ULL;
	return hash ^ hash >> 29;
}

/*
 * Makes a single step. Returns 0 and the hash of the registers, or the status of a
 * stop that is the program's own (a system call or a fault).
 */
static int step(int pid, unsigned long long *hash)
{
	int status;

	do {
		if (ptrace(PTRACE_SYSEMU_SINGLESTEP, pid, 0, 0))
			return SIGPROF << 8 | 0x7f;
		while (waitpid(pid, &status, WUNTRACED | __WALL) < 0 && errno == EINTR)
			;
	} while (WIFSTOPPED(status) && WSTOPSIG(status) == SIGPROF);
	if (!WIFSTOPPED(status) || WSTOPSIG(status) != SIGTRAP)
		return status;
	*hash = hash_registers(pid);
	return 0;
}

/* Steps to a place that has a hash. Returns 0, a status, or -1 if it doesn't get there. */
static int step_to(int pid, unsigned long long wanted)
{
	unsigned long long hash;
	int i, status;

	for (i = 0; i < WINDOW; i++) {
		status = step(pid, &hash);
		if (status || hash == wanted)
			return status;
	}
	return -1;
}

int spin_watch_settle(int pid, int status)
{
	static unsigned long long place;
	static int place_pid;
	unsigned long long hash, least = ~0ULL;
	int i, stop, times = 0;

	is_settled = 0;
	if (suspected != entries)
		return status;
	stop = place_pid == pid ? step_to(pid, place) : -1;
	for (i = 0; stop < 0 && i < WINDOW; i++) {
		stop = step(pid, &hash) ?: -1;
		if (stop < 0 && hash <= least) {
			times = hash == least ? times + 1 : 1;
			least = hash;
		}
	}
	if (stop < 0 && times > 1)
		stop = step_to(pid, least);
	if (stop > 0)
		return stop;
	is_settled = stop == 0;
	if (is_settled && times) {
		place = least;
		place_pid = pid;
	}
	return status;
}

int spin_watch_is_due(void)
{
	return suspected == entries;
}

int spin_watch_is_settled(void)
{
	return is_settled;
}
