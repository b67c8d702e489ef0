/* SPDX-License-Identifier: MIT OR Apache-2.0 */
/*
 * Hosts: each is a network, a mount and a UTS namespace with a device eth0, its
 * own host name, /etc/hosts, /etc/hostname and /etc/resolv.conf.
 */
#ifndef HOSTS_H
#define HOSTS_H
#include "plan.h"

/*
 * Makes the namespaces of all hosts, and runs their set-up lines. `add_device` moves
 * a device eth0 into the network namespace that it is called in. The hosts' own files
 * are made in a folder; `work` is the current folder of set-up lines. The caller is in
 * the last host's network afterwards, and in its own mount namespace.
 */
void make_hosts(struct plan *plan, const char *folder, const char *work,
		void (*add_device)(const struct plan *plan, int index));
/* Moves the caller into the namespaces of a host. */
void enter_host(const struct host *host);
/* Writes a file. Fails if that is impossible. */
void write_file(const char *path, const char *text);
/* Mounts a file system. Fails if that is impossible. */
void mount_at(const char *type, const char *path, unsigned long flags, const char *options);
/* Sets the flags of a network device. */
void set_flags(const char *device, int flags);

#endif
