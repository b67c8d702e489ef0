// SPDX-License-Identifier: MIT OR Apache-2.0
/* Makes the namespaces of the hosts, and their network. */
#define _GNU_SOURCE
#include "hosts.h"
#include <arpa/inet.h>
#include <errno.h>
#include <fcntl.h>
#include <net/if.h>
#include <net/route.h>
#include <sched.h>
#include <stdio.h>
#include <stdlib.h>
#include <string.h>
#include <sys/ioctl.h>
#include <sys/mount.h>
#include <sys/socket.h>
#include <sys/stat.h>
#include <sys/wait.h>
#include <unistd.h>

enum { PATH_ROOM = 512 };

void write_file(const char *path, const char *text)
{
	int file = must(open(path, O_WRONLY | O_CREAT | O_TRUNC | O_CLOEXEC, 0644), path);

	if (*text)
		must((int)write(file, text, strlen(text)), path);
	close(file);
}

void mount_at(const char *type, const char *path, unsigned long flags, const char *options)
{
	mkdir(path, 0755);
	must(mount(type, path, type, flags, options), path);
}

static void control(unsigned long request, void *argument, const char *what)
{
	int plain = must(socket(AF_INET, SOCK_DGRAM | SOCK_CLOEXEC, 0), "socket");

	must(ioctl(plain, request, argument), what);
	close(plain);
}

void set_flags(const char *device, int flags)
{
	struct ifreq request = {0};

	strcpy(request.ifr_name, device);
	request.ifr_flags = (short)flags;
	control(SIOCSIFFLAGS, &request, device);
}

/* Gives eth0 its address, and makes it the default route. */
static void set_address(const char *text)
{
	struct sockaddr_in address = {.sin_family = AF_INET};
	struct rtentry route = {.rt_dev = "eth0", .rt_flags = RTF_UP};
	struct ifreq request = {.ifr_name = "eth0"};

	must(inet_pton(AF_INET, text, &address.sin_addr) == 1 ? 0 : -1, text);
	memcpy(&request.ifr_addr, &address, sizeof(address));
	control(SIOCSIFADDR, &request, text);
	address.sin_addr.s_addr = INADDR_BROADCAST;
	memcpy(&request.ifr_netmask, &address, sizeof(address));
	control(SIOCSIFNETMASK, &request, text);
	set_flags("eth0", IFF_UP | IFF_RUNNING | IFF_POINTOPOINT | IFF_NOARP);
	address.sin_addr.s_addr = INADDR_ANY;
	memcpy(&route.rt_dst, &address, sizeof(address));
	memcpy(&route.rt_genmask, &address, sizeof(address));
	control(SIOCADDRT, &route, "the default route");
}

/* Disables IPv6, because the link carries IPv4. A sysctl line can enable it. */
static void disable_ipv6(void)
{
	static const char *const paths[] = {
		"/proc/sys/net/ipv6/conf/all/disable_ipv6",
		"/proc/sys/net/ipv6/conf/default/disable_ipv6",
	};

	for (size_t i = 0; i < sizeof(paths) / sizeof(*paths); i++) {
		int file = open(paths[i], O_WRONLY | O_CLOEXEC);

		if (file < 0)
			continue;	/* a kernel without IPv6 */
		must((int)write(file, "1", 1), paths[i]);
		close(file);
	}
}

/* Mounts the host's own file over a file of /etc, if that exists. */
static void cover(const char *folder, const char *name, const char *text)
{
	char own[PATH_ROOM], shared[PATH_ROOM];

	snprintf(own, sizeof(own), "%s/%s", folder, name);
	snprintf(shared, sizeof(shared), "/etc/%s", name);
	write_file(own, text);
	if (access(shared, F_OK) == 0)
		must(mount(own, shared, NULL, MS_BIND, NULL), shared);
}

static void write_hosts_file(const struct plan *plan, const char *folder)
{
	char *text = NULL;
	size_t bytes;
	FILE *file = open_memstream(&text, &bytes);

	if (!file)
		fail("out of memory");
	fprintf(file, "127.0.0.1 localhost\n::1 localhost ip6-localhost\n");
	for (int i = 0; i < plan->host_count; i++)
		fprintf(file, "%s %s\n", plan->hosts[i].address, plan->hosts[i].name);
	fclose(file);
	cover(folder, "hosts", text);
	free(text);
}

static int keep_namespace(const char *name)
{
	char path[PATH_ROOM];

	snprintf(path, sizeof(path), "/proc/self/ns/%s", name);
	return must(open(path, O_RDONLY | O_CLOEXEC), path);
}

/* Makes a network namespace and a UTS namespace, and moves the caller into them. */
static void make_network(struct plan *plan, int index,
			 void (*add_device)(const struct plan *plan, int index))
{
	struct host *host = &plan->hosts[index];
	char path[PATH_ROOM];

	must(unshare(CLONE_NEWNET | CLONE_NEWUTS), "namespaces");
	host->net = keep_namespace("net");
	host->uts = keep_namespace("uts");
	/* `ip netns exec NAME` looks there */
	snprintf(path, sizeof(path), "/run/netns/%s", host->name);
	write_file(path, "");
	must(mount("/proc/self/ns/net", path, NULL, MS_BIND, NULL), path);
	must(sethostname(host->name, strlen(host->name)), host->name);
	disable_ipv6();
	set_flags("lo", IFF_UP | IFF_RUNNING);
	add_device(plan, index);
	set_address(host->address);
}

/* Makes a mount namespace with the host's own files. */
static void make_files(const struct plan *plan, struct host *host, const char *folder)
{
	char text[PATH_ROOM], own[PATH_ROOM];

	must(unshare(CLONE_NEWNS), "mount namespace");
	host->mnt = keep_namespace("mnt");
	snprintf(own, sizeof(own), "%s/%s", folder, host->name);
	if (mkdir(own, 0755) && errno != EEXIST)
		fail("%s: %s", own, strerror(errno));
	write_hosts_file(plan, own);
	snprintf(text, sizeof(text), "%s\n", host->name);
	cover(own, "hostname", text);
	cover(own, "resolv.conf", "# no name server\n");
}

void enter_host(const struct host *host)
{
	must(setns(host->net, CLONE_NEWNET), "setns");
	must(setns(host->uts, CLONE_NEWUTS), "setns");
	must(setns(host->mnt, CLONE_NEWNS), "setns");
}

/* `KEY VALUE`, as sysctl(8) writes keys */
static void set_sysctl(const struct host *host, const char *line)
{
	char path[PATH_ROOM] = "/proc/sys/", *at = path + strlen(path);
	const char *value = strchr(line, ' ');
	int file;

	if (!value || strlen(line) + strlen(path) >= sizeof(path))
		fail("host %s: sysctl %s: no value", host->name, line);
	for (; line < value; line++)
		*at++ = *line == '.' ? '/' : *line == '/' ? '.' : *line;
	*at = 0;
	file = open(path, O_WRONLY | O_CLOEXEC);
	if (file < 0 || write(file, value + 1, strlen(value + 1)) < 0)
		fail("host %s: %s%s: %s", host->name, path, value, strerror(errno));
	close(file);
}

static void run_setup(const struct host *host, const char *line)
{
	pid_t child = must(fork(), "fork");
	int status;

	if (child == 0) {
		execl("/bin/sh", "sh", "-c", line, NULL);
		_exit(127);
	}
	must(waitpid(child, &status, 0), "waitpid");
	if (!WIFEXITED(status) || WEXITSTATUS(status))
		fail("host %s: setup failed (%s %d): %s", host->name,
		     WIFEXITED(status) ? "status" : "signal",
		     WIFEXITED(status) ? WEXITSTATUS(status) : WTERMSIG(status), line);
}

/* Runs the sysctl and setup lines of a host, in order. */
static void set_up(const struct host *host, const char *work)
{
	enter_host(host);
	must(chdir(work), work);
	for (int i = 0; i < host->line_count; i++) {
		if (host->lines[i].is_sysctl)
			set_sysctl(host, host->lines[i].text);
		else
			run_setup(host, host->lines[i].text);
	}
}

void make_hosts(struct plan *plan, const char *folder, const char *work,
		void (*add_device)(const struct plan *plan, int index))
{
	int mnt = keep_namespace("mnt");

	/* All networks come first, so that each mount namespace shows all of them. */
	for (int i = 0; i < plan->host_count; i++)
		make_network(plan, i, add_device);
	for (int i = 0; i < plan->host_count; i++) {
		make_files(plan, &plan->hosts[i], folder);
		must(setns(mnt, CLONE_NEWNS), "setns");
	}
	for (int i = 0; i < plan->host_count; i++)
		set_up(&plan->hosts[i], work);
	must(setns(mnt, CLONE_NEWNS), "setns");
	must(chdir(work), work);
	close(mnt);
}
