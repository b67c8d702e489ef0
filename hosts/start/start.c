// SPDX-License-Identifier: MIT OR Apache-2.0
/*
 * The guest's first program. The kernel carries it in its initramfs, so the root
 * of a run needs no file of ours.
 *
 * It makes the root (an overlay over the host's files, so that what the guest
 * changes ends with it), mounts the output folder at /run/dnlab, makes the hosts
 * of guest/plan, and runs their processes in simulated time. Time 0 is
 * CLOCK_MONOTONIC = 10 s. It is an absolute time, so that the duration of the set-up
 * shifts nothing. It is not 0, because some programs treat a clock below a second as
 * unset.
 *
 * This is a real-time task, and these take no simulated time, so it starts processes,
 * stops them and notes their ends at exact times.
 */
#define _GNU_SOURCE
#include "hosts.h"
#include "plan.h"
#include "processes.h"
#include <errno.h>
#include <fcntl.h>
#include <linux/rtnetlink.h>
#include <net/if.h>
#include <sched.h>
#include <signal.h>
#include <stdarg.h>
#include <stdio.h>
#include <stdlib.h>
#include <string.h>
#include <sys/mount.h>
#include <sys/reboot.h>
#include <sys/resource.h>
#include <sys/socket.h>
#include <sys/stat.h>
#include <unistd.h>

#define FOLDER "/run/dnlab"
#define TIME_0 10000000000ULL

enum { TEXT = 4096 };

static pid_t self;
static int first_net;

_Noreturn static void power_off(void)
{
	sync();
	reboot(RB_POWER_OFF);
	_exit(1);
}

/* Writes the cause to the console and to guest/failed, for the program outside. */
void fail(const char *format, ...)
{
	char text[TEXT];
	va_list more;
	int file;

	va_start(more, format);
	vsnprintf(text, sizeof(text) - 1, format, more);
	va_end(more);
	strcat(text, "\n");
	dprintf(2, "start: %s", text);
	file = open(FOLDER "/guest/failed", O_WRONLY | O_CREAT | O_APPEND | O_CLOEXEC, 0644);
	if (file >= 0 && write(file, text, strlen(text)) < 0)
		dprintf(2, "start: guest/failed: %s\n", strerror(errno));
	if (getpid() != self)
		_exit(127);
	power_off();
}

int must(int status, const char *what)
{
	if (status < 0)
		fail("%s: %s", what, strerror(errno));
	return status;
}

/* Returns the value of a parameter of the kernel's command line, or a default. `name` includes the `=`. */
static const char *parameter(const char *name, const char *otherwise)
{
	static char text[TEXT];
	char *word, *rest = NULL;
	FILE *file = fopen("/proc/cmdline", "re");

	if (!file || !fgets(text, sizeof(text), file))
		fail("/proc/cmdline: %s", strerror(errno));
	fclose(file);
	for (word = strtok_r(text, " \n", &rest); word; word = strtok_r(NULL, " \n", &rest))
		if (!strncmp(word, name, strlen(name)))
			return word + strlen(name);
	return otherwise;
}

/* Replaces a file of /etc, even if it is a symbolic link into /run. */
static void put_file(const char *path, const char *text)
{
	unlink(path);
	write_file(path, text);
}

static void make_devices(void)
{
	mount_at("devtmpfs", "/dev", 0, "mode=755");
	mount_at("devpts", "/dev/pts", 0, "ptmxmode=666");
	mount_at("tmpfs", "/dev/shm", 0, "mode=1777");
	must(symlink("/proc/self/fd", "/dev/fd"), "/dev/fd");
	must(symlink("/proc/self/fd/0", "/dev/stdin"), "/dev/stdin");
	must(symlink("/proc/self/fd/1", "/dev/stdout"), "/dev/stdout");
	must(symlink("/proc/self/fd/2", "/dev/stderr"), "/dev/stderr");
}

/* Mounts an overlay of the host's files as the root, over the old root (the initramfs). */
static void make_root(void)
{
	mkdir("/proc", 0755);
	mount_at("proc", "/proc", 0, NULL);
	mkdir("/new", 0755);
	mount_at("tmpfs", "/new", 0, NULL);
	must(mkdir("/new/host", 0755), "/new/host");
	must(mount("host", "/new/host", "hostfs", MS_RDONLY, parameter("rootflags=", "/")), "the root");
	must(mkdir("/new/upper", 0755), "/new/upper");
	must(mkdir("/new/work", 0755), "/new/work");
	must(mkdir("/new/root", 0755), "/new/root");
	must(mount("root", "/new/root", "overlay", 0,
		   "lowerdir=/new/host,upperdir=/new/upper,workdir=/new/work"), "overlay");
	must(chdir("/new/root"), "/new/root");
	must(mount(".", "/", NULL, MS_MOVE, NULL), "/");
	must(chroot("."), "/");
	mount_at("proc", "/proc", 0, NULL);
	mount_at("sysfs", "/sys", 0, NULL);
	mount("cgroup2", "/sys/fs/cgroup", "cgroup2", 0, NULL);
	mount_at("tmpfs", "/run", 0, "mode=755");
	make_devices();
	must(mkdir(FOLDER, 0755), FOLDER);
	/* The kernel process runs in the output folder, whatever its name is. */
	must(mount("run", FOLDER, "hostfs", 0, "proc/self/cwd"), FOLDER);
	must(chdir(FOLDER), FOLDER);
	/* The output folder belongs to all users of the guest; on the host nothing changes. */
	must(chmod(FOLDER, 01777), FOLDER);
}

/* Makes the folders of the hosts writable for all users. */
static void open_folders(const struct plan *plan)
{
	char path[512];

	must(chmod("hosts", 01777), "hosts");
	for (int i = 0; i < plan->host_count; i++) {
		snprintf(path, sizeof(path), "hosts/%s", plan->hosts[i].name);
		must(chmod(path, 01777), path);
	}
}

static void make_files(void)
{
	must(mkdir("/run/netns", 0755), "/run/netns");
	must(mkdir("/run/hosts", 0755), "/run/hosts");
	must(mkdir("/run/lock", 01777), "/run/lock");
	mkdir("/etc", 0755);
	put_file("/etc/hosts", "");
	put_file("/etc/hostname", "");
	put_file("/etc/resolv.conf", "");
	put_file("/etc/machine-id", "64e1ab00000000000000000000000001\n");
	put_file("/etc/mtab", "");
	unlink("/etc/mtab");
	must(symlink("/proc/self/mounts", "/etc/mtab"), "/etc/mtab");
	clearenv();
	setenv("PATH", "/usr/local/sbin:/usr/local/bin:/usr/sbin:/usr/bin:/sbin:/bin", 1);
	setenv("HOME", "/root", 1);
	setenv("LANG", "C.UTF-8", 1);
}

/* Moves the driver's device of a host into the namespace that the caller is in. */
static void add_device(const struct plan *plan, int index)
{
	struct {
		struct nlmsghdr head;
		struct ifinfomsg info;
		struct rtattr space;
		int fd;
		struct rtattr name;
		char text[8];
	} request = {
		{sizeof(request), RTM_NEWLINK, NLM_F_REQUEST | NLM_F_ACK, 1, 0},
		{.ifi_index = 0},
		{RTA_LENGTH(sizeof(int)), IFLA_NET_NS_FD}, plan->hosts[index].net,
		{RTA_LENGTH(5), IFLA_IFNAME}, "eth0",
	};
	struct {
		struct nlmsghdr head;
		struct nlmsgerr error;
		char more[256];
	} answer;
	char device[16];
	int link;

	must(setns(first_net, CLONE_NEWNET), "setns");
	snprintf(device, sizeof(device), "dn%d", index);
	request.info.ifi_index = (int)if_nametoindex(device);
	link = must(socket(AF_NETLINK, SOCK_RAW | SOCK_CLOEXEC, NETLINK_ROUTE), "netlink");
	must((int)send(link, &request, sizeof(request), 0), device);
	must((int)recv(link, &answer, sizeof(answer), 0), device);
	errno = -answer.error.error;
	must(answer.error.error, device);
	close(link);
	must(setns(plan->hosts[index].net, CLONE_NEWNET), "setns");
	/* Let ordinary users ping: hostfs does not have the file capabilities that do this elsewhere. */
	write_file("/proc/sys/net/ipv4/ping_group_range", "0 2147483647");
}

int main(void)
{
	struct sched_param priority = {.sched_priority = 50};
	struct rlimit files = {1 << 16, 1 << 20};
	struct plan plan;
	uint64_t end;
	int link;

	self = getpid();
	umask(022);
	setrlimit(RLIMIT_NOFILE, &files);
	must(sched_setscheduler(0, SCHED_FIFO | SCHED_RESET_ON_FORK, &priority), "priority");
	make_root();
	make_files();
	read_plan("guest/plan", &plan);
	open_folders(&plan);
	first_net = must(open("/proc/self/ns/net", O_RDONLY | O_CLOEXEC), "net");
	/* Hosts without tunnels get no tunl0, gre0 .. */
	write_file("/proc/sys/net/core/fb_tunnels_only_for_init_net", "2");
	set_flags("lo", IFF_UP | IFF_RUNNING);
	make_hosts(&plan, "/run/hosts", FOLDER, add_device);
	if (monotonic_ns() > TIME_0)
		fail("the set-up took more than 10 s of simulated time");
	link = must(open("/proc/dnlab", O_RDWR | O_CLOEXEC), "/proc/dnlab");
	fork_processes(&plan, TIME_0, FOLDER);
	end = follow(&plan, TIME_0, link);
	must((int)write(link, "end", 3), "/proc/dnlab");
	write_exits(&plan, "guest/exits", end);
	kill(-1, SIGKILL);
	power_off();
}
