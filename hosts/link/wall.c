// SPDX-License-Identifier: MIT OR Apache-2.0
/*
 * The link process of the wall clock: hosts in network namespaces of this
 * machine, over one link of dnlab.
 *
 *     link RUN/guest/link.conf RUN/guest/plan
 *
 * Each host has a TUN device, whose other end this process has. A packet that
 * a host sends enters the session at the time at which it is read; a delivery is
 * written to the TUN of its destination when it is due. How late that was is
 * measured: guest/counts has late_p50_ns, late_p99_ns and late_max_ns.
 *
 * The plan's processes are children of the first process of a process namespace:
 * when that one or this process ends, the kernel ends all that they started.
 * Needs root, or `unshare -Urm` if /dev/net/tun is open to all.
 *
 * Exit status: 0 the run ended as planned, 1 the link or the set-up failed (one
 * line in guest/failed), 2 wrong usage, 130 interrupted.
 */
#define _GNU_SOURCE
#include <errno.h>
#include <fcntl.h>
#include <libgen.h>
#include <linux/if_tun.h>
#include <net/if.h>
#include <sched.h>
#include <signal.h>
#include <stdarg.h>
#include <stdio.h>
#include <stdlib.h>
#include <string.h>
#include <sys/epoll.h>
#include <sys/ioctl.h>
#include <sys/mman.h>
#include <sys/mount.h>
#include <sys/prctl.h>
#include <sys/signalfd.h>
#include <sys/stat.h>
#include <sys/wait.h>
#include <unistd.h>
#include "../start/hosts.h"
#include "../start/plan.h"
#include "../start/processes.h"
#include "dnlab_link.h"
#include "lateness.h"

enum { SECOND = 1000000000, BATCH = 64, LARGEST = 1500, TEXT = 4096, INTERRUPTED = 130 };
/* The time between the set-up and time 0, in which the processes get ready. */
enum { HEAD_START = 200000000 };
/*
 * A sleep ends about 50 us late, so this process sleeps until MARGIN (ns) before the
 * next event is due, and then polls the clock. The time for polling, at most MARGIN,
 * must have been saved up by sleeping, so that other processes get at least half of
 * the time.
 */
enum { MARGIN = 100000 };

struct packet {
	struct packet *next;
	unsigned int bytes;
	unsigned char data[LARGEST];
};

static char *folder;
static int tuns[DN_MAX_HOSTS];
static struct packet *spare;
static uint64_t time_0;
static unsigned long before_start, to_nobody, not_ipv4, after_end, unwritten, wakes;
static pid_t self, first;

void dn_warn(const char *format, ...)
{
	va_list more;

	va_start(more, format);
	vfprintf(stderr, format, more);
	va_end(more);
}

void dn_on_big_stack(void (*call)(void))
{
	call();
}

void fail(const char *format, ...)
{
	char text[TEXT];
	va_list more;
	int file;

	va_start(more, format);
	vsnprintf(text, sizeof(text) - 1, format, more);
	va_end(more);
	strcat(text, "\n");
	fprintf(stderr, "link: %s", text);
	file = open("guest/failed", O_WRONLY | O_CREAT | O_APPEND | O_CLOEXEC, 0644);
	if (file >= 0 && write(file, text, strlen(text)) < 0)
		fprintf(stderr, "link: guest/failed: %s\n", strerror(errno));
	if (getpid() == self && first > 0)
		kill(first, SIGKILL);
	_exit(1);
}

int must(int status, const char *what)
{
	if (status < 0)
		fail("%s: %s", what, strerror(errno));
	return status;
}

static uint64_t now(void)
{
	uint64_t at = monotonic_ns();

	return at > time_0 ? at - time_0 : 0;
}

/* ---- hosts ---- */

static void add_device(const struct plan *plan, int index)
{
	struct ifreq request = {.ifr_name = "eth0", .ifr_flags = IFF_TUN | IFF_NO_PI};

	(void)plan;
	tuns[index] = must(open("/dev/net/tun", O_RDWR | O_CLOEXEC | O_NONBLOCK), "/dev/net/tun");
	must(ioctl(tuns[index], TUNSETIFF, &request), "TUNSETIFF");
}

/* Only this process and its children see what is mounted here. */
static void prepare_mounts(char *path, size_t room)
{
	must(unshare(CLONE_NEWNS), "mount namespace (root, or unshare -Urm, is needed)");
	must(mount("none", "/", NULL, MS_REC | MS_PRIVATE, NULL), "mount namespace");
	if (mkdir("/run/netns", 0755) && errno != EEXIST) {
		must(mount("run", "/run", "tmpfs", 0, "mode=755"), "/run");
		must(mkdir("/run/netns", 0755), "/run/netns");
	}
	must(mount("netns", "/run/netns", "tmpfs", 0, "mode=755"), "/run/netns");
	snprintf(path, room, "%s/guest/etc", folder);
	if (mkdir(path, 0755) && errno != EEXIST)
		fail("%s: %s", path, strerror(errno));
}

/* The first process of the namespace of processes: starts them, and follows them. */
_Noreturn static void run_processes(struct plan *plan, int over)
{
	sigset_t none;
	uint64_t end;
	int mnt = must(open("/proc/self/ns/mnt", O_RDONLY | O_CLOEXEC), "mnt");

	prctl(PR_SET_PDEATHSIG, SIGKILL);
	sigemptyset(&none);
	sigprocmask(SIG_SETMASK, &none, NULL);
	for (int i = 0; i < plan->host_count; i++) {
		must(setns(plan->hosts[i].mnt, CLONE_NEWNS), "setns");
		mount("proc", "/proc", "proc", 0, NULL);	/* refused in some containers */
	}
	must(setns(mnt, CLONE_NEWNS), "setns");
	must(chdir(folder), folder);
	fork_processes(plan, time_0, folder);
	end = follow(plan, time_0, over);
	write_exits(plan, "guest/exits", end);
	_exit(0);
}

/* Returns the end of a pipe whose closing ends the run. */
static int start_processes(struct plan *plan)
{
	int over[2];

	must(pipe2(over, O_CLOEXEC), "pipe");
	must(unshare(CLONE_NEWPID), "process namespace");
	time_0 = monotonic_ns() + HEAD_START;
	first = must(fork(), "fork");
	if (first == 0) {
		close(over[1]);
		run_processes(plan, over[0]);
	}
	close(over[0]);
	return over[1];
}

/* ---- packets ---- */

static struct packet *new_packet(void)
{
	struct packet *packet = spare;

	if (packet)
		spare = packet->next;
	else if (!(packet = malloc(sizeof(*packet))))
		fail("out of memory");
	return packet;
}

static void free_packet(struct packet *packet)
{
	packet->next = spare;
	spare = packet;
}

static void deliver(struct packet *packet, uint64_t due)
{
	int host = dn_host_of(packet->data + 16);
	uint64_t at = now();

	if (host < 0) {
		to_nobody++;
		return;
	}
	dn_capture(host, due, packet->data, packet->bytes);
	lateness_add(at > due ? at - due : 0);
	if (write(tuns[host], packet->data, packet->bytes) < 0)
		unwritten++;
}

static void take_events(void)
{
	const struct dn_event *events;
	int count = dn_events(&events);

	for (int i = 0; i < count; i++) {
		if (!events[i].is_drop)
			deliver(events[i].payload, events[i].time);
		free_packet(events[i].payload);
	}
	dn_clear();
}

static void send_packet(int host, struct packet *packet)
{
	if (packet->bytes < 20 || packet->data[0] >> 4 != 4)
		not_ipv4++;
	else if (monotonic_ns() < time_0)
		before_start++;
	else {
		dn_advance(now());
		take_events();	/* they precede the packet in the captures, too */
		if (!dn_inject(host, packet->data, packet->bytes, packet))
			return;
		after_end++;
	}
	free_packet(packet);
}

/* Sends at most a batch of the packets of a host, so that other hosts get their turn. */
static void read_packets(int host)
{
	for (int i = 0; i < BATCH; i++) {
		struct packet *packet = new_packet();
		ssize_t bytes = read(tuns[host], packet->data, sizeof(packet->data));

		if (bytes < 0) {
			free_packet(packet);
			if (errno != EAGAIN && errno != EINTR)
				must(-1, "read");
			return;
		}
		packet->bytes = (unsigned int)bytes;
		send_packet(host, packet);
	}
}

/* ---- time ---- */

static uint64_t least(uint64_t a, uint64_t b)
{
	return a < b ? a : b;
}

/* Returns the number of ready files: at once if there are some, and otherwise after this many ns. */
static int wait_for_files(int epoll, struct epoll_event *events, uint64_t ns)
{
	struct timespec wait = {(time_t)(ns / SECOND), (long)(ns % SECOND)};

	return epoll_pwait2(epoll, events, BATCH, &wait, NULL);
}

/* Sleeps until a file is ready or something is due. Returns the number of ready files. */
static int sleep_until(int epoll, struct epoll_event *events, uint64_t due)
{
	static uint64_t allowed;
	uint64_t begin = monotonic_ns(), until = due + time_0, awake;
	int count;

	if (due == DN_NEVER)
		return epoll_pwait2(epoll, events, BATCH, NULL, NULL);
	count = wait_for_files(epoll, events, until > begin + allowed ? until - begin - allowed : 0);
	awake = monotonic_ns();
	while (count == 0 && monotonic_ns() < until)
		count = wait_for_files(epoll, events, 0);
	allowed = least(allowed + (awake - begin), MARGIN);
	allowed -= least(monotonic_ns() - awake, allowed);
	return count;
}

static void watch(int epoll, int file, unsigned int number)
{
	struct epoll_event event = {.events = EPOLLIN, .data.u32 = number};

	must(epoll_ctl(epoll, EPOLL_CTL_ADD, file, &event), "epoll");
}

static int open_signals(void)
{
	sigset_t signals;

	sigemptyset(&signals);
	sigaddset(&signals, SIGCHLD);
	sigaddset(&signals, SIGTERM);
	sigaddset(&signals, SIGINT);
	must(sigprocmask(SIG_BLOCK, &signals, NULL), "signals");
	return must(signalfd(-1, &signals, SFD_CLOEXEC | SFD_NONBLOCK), "signalfd");
}

/* Tells the first process to end the run. It ends, and so does everything that it started. */
static void end_run(int *over)
{
	if (*over >= 0)
		close(*over);
	*over = -1;
}

/* Reads signals. Returns -1 to continue, or the exit status. */
static int read_signals(int file, int *over)
{
	static bool is_interrupted;
	struct signalfd_siginfo info;
	int status;

	while (read(file, &info, sizeof(info)) == sizeof(info)) {
		if (info.ssi_signo != SIGCHLD) {
			if (is_interrupted)
				return INTERRUPTED;
			is_interrupted = true;
			end_run(over);
		} else if (waitpid(first, &status, WNOHANG) == first) {
			first = 0;
			if (is_interrupted)
				return INTERRUPTED;
			return WIFEXITED(status) ? WEXITSTATUS(status) : 1;
		}
	}
	return -1;
}

/* Carries packets until the processes have ended. Returns the exit status. */
static int carry(int signals, int *over)
{
	int epoll = must(epoll_create1(EPOLL_CLOEXEC), "epoll"), status = -1, count;
	struct epoll_event events[BATCH];

	for (int i = 0; i < dn_host_count(); i++)
		watch(epoll, tuns[i], (unsigned int)i);
	watch(epoll, signals, DN_MAX_HOSTS);
	while (status < 0) {
		count = sleep_until(epoll, events, dn_due());
		wakes++;
		/* At one time, packets leave before others arrive, and so make room for them. */
		if (monotonic_ns() >= time_0)
			dn_advance(now());
		take_events();
		for (int i = 0; i < count; i++) {
			if (events[i].data.u32 < DN_MAX_HOSTS)
				read_packets((int)events[i].data.u32);
			else
				status = read_signals(signals, over);
		}
		if (dn_is_over())
			end_run(over);
	}
	return status;
}

/* ---- the end ---- */

static void write_counts(void)
{
	char text[TEXT];
	FILE *file = fopen("guest/counts", "we");

	if (!file)
		fail("guest/counts: %s", strerror(errno));
	dn_format_counts(text, sizeof(text));
	fprintf(file, "%sbefore_start %lu\nto_nobody %lu\nnot_ipv4 %lu\nafter_end %lu\n", text,
		before_start, to_nobody, not_ipv4, after_end);
	fprintf(file, "unwritten %lu\nwakes %lu\nlate_p50_ns %llu\nlate_p99_ns %llu\n", unwritten,
		wakes, (unsigned long long)lateness_percentile(50),
		(unsigned long long)lateness_percentile(99));
	fprintf(file, "late_max_ns %llu\n", (unsigned long long)lateness_max());
	if (fclose(file))
		fail("guest/counts: %s", strerror(errno));
}

/* Gives the link real-time priority, if that is allowed; its children don't inherit it. */
static void raise_priority(void)
{
	struct sched_param priority = {.sched_priority = 50};

	if (sched_setscheduler(0, SCHED_FIFO | SCHED_RESET_ON_FORK, &priority) == 0)
		mlockall(MCL_CURRENT);
	prctl(PR_SET_TIMERSLACK, 1);
}

int main(int argc, char **argv)
{
	struct plan plan;
	char *conf, *path, own[TEXT];
	int signals, over, status;

	if (argc != 3) {
		fprintf(stderr, "usage: link RUN/guest/link.conf RUN/guest/plan\n");
		return 2;
	}
	self = getpid();
	umask(022);
	conf = realpath(argv[1], NULL);
	path = realpath(argv[2], NULL);
	if (!conf || !path) {
		fprintf(stderr, "link: %s: %s\n", conf ? argv[2] : argv[1], strerror(errno));
		return 2;
	}
	folder = strdup(dirname(dirname(strdup(path))));
	must(chdir(folder), folder);
	read_plan(path, &plan);
	if (dn_open(conf))
		fail("the link can't be opened");
	if (plan.host_count != dn_host_count())
		fail("plan and link.conf have different hosts");
	signals = open_signals();
	prepare_mounts(own, sizeof(own));
	make_hosts(&plan, own, folder, add_device);
	over = start_processes(&plan);
	raise_priority();
	status = carry(signals, &over);
	if (first > 0) {
		kill(first, SIGKILL);
		waitpid(first, NULL, 0);
	}
	dn_advance(now());
	if (dn_end())
		status = 1;
	write_counts();
	return status;
}
