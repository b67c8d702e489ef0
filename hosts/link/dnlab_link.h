/* SPDX-License-Identifier: GPL-2.0 OR MIT */
/*
 * A link of dnlab for IPv4 packets: a session of libdnlab, its transcript and
 * report, and a capture for each host. The driver of the guest's kernel and the
 * link process of the wall clock share these files. One thread calls at a time.
 *
 * All times are ns after time 0. The header uses plain C types, because kernel
 * code includes it too.
 */
#ifndef DNLAB_LINK_H
#define DNLAB_LINK_H

#define DN_NEVER (~0ULL)
#define DN_MAX_HOSTS 256

/* The fate of a packet. The payload is the pointer that dn_inject received. */
struct dn_event {
	unsigned long long time;
	void *payload;
	int is_drop;
};

/* Opens the link that a file (link.conf) describes. Returns 0, or -1 after dn_warn. */
int dn_open(const char *path);
/* Returns the number of hosts, and the address of one (4 bytes, as in a header). */
int dn_host_count(void);
const char *dn_host_name(int host);
const unsigned char *dn_host_address(int host);
/* Returns the host that has the address, or -1. */
int dn_host_of(const unsigned char *address);

/* Moves the link to a time: every event and network line up to it has happened. */
void dn_advance(unsigned long long time);
/*
 * Puts an IPv4 packet of a host onto the link, at the time of the last advance,
 * and into the host's capture. Returns 0, or -1 if the experiment is over; the
 * payload stays the caller's then.
 */
int dn_inject(int host, const unsigned char *packet, unsigned int bytes, void *payload);
/* Runs a command of a scenario now. Returns 0, or -1 if it is refused. */
int dn_command(const char *words);
/* Returns the time of the next event or network line, or DN_NEVER. */
unsigned long long dn_due(void);
/* Returns the number of events since the last dn_clear, and the first of them. */
int dn_events(const struct dn_event **events);
void dn_clear(void);
/* Returns true once the experiment has ended or its steps ran out. */
int dn_is_over(void);
/*
 * Ends the experiment at the time of the last advance, and closes all files.
 * Returns 0, or -1 if one of them is incomplete.
 */
int dn_end(void);
/* Writes the counts to a text, a line `key value` each. Returns its length. */
int dn_format_counts(char *text, int room);

/* Returns true if any host has a capture; then checksums must be complete. */
int dn_captures(void);
/* Writes a packet that a host receives to its capture, if it has one. */
void dn_capture(int host, unsigned long long time, const unsigned char *packet,
		unsigned int bytes);

/* Provided by the program around the link. */
void dn_warn(const char *format, ...) __attribute__((format(printf, 1, 2)));
/* Calls a function with at least 128 KiB of stack, which libdnlab needs. */
void dn_on_big_stack(void (*call)(void));

#endif
