/* SPDX-License-Identifier: GPL-2.0 OR MIT */
/* Shared by the files of the link; see dnlab_link.h. */
#ifndef DNLAB_LINK_INTERNAL_H
#define DNLAB_LINK_INTERNAL_H
#include <stddef.h>
#include <stdint.h>
#include <stdio.h>
#include "dnlab_link.h"

enum { DN_LINE = 512, DN_NAME = 64, DN_PATH = 256 };

struct dn_host {
	char name[DN_NAME];
	uint8_t address[4];
	char path[DN_PATH];	/* of the capture; empty if there is none */
	FILE *capture;
};

struct dn_timed {
	uint64_t time;
	char *words;
};

/* The contents of link.conf. */
struct dn_conf {
	uint64_t seed, steps;
	char transcript[DN_PATH], report[DN_PATH];
	struct dn_host *hosts;
	int host_count;
	struct dn_timed *commands;	/* in order of time */
	int command_count;
};

/* The link that is open. */
extern struct dn_conf dn_conf;

/* Reads link.conf. Returns 0, or -1 after dn_warn with the line and the cause. */
int dn_read_conf(const char *path);
/* Opens a file for writing with a large buffer. Returns NULL after dn_warn. */
FILE *dn_create(const char *path);
/* Closes a file that was written. Returns 0, or -1 after dn_warn. */
int dn_close_file(FILE *file, const char *path);
/* These open and close the captures, and return 0, or -1 after dn_warn. */
int dn_open_captures(void);
int dn_close_captures(void);
/* Maps memory, of which only the pages that are used take space. Returns NULL if the mapping fails. */
void *dn_map(size_t bytes);

/*
 * Writes `inject PROTOCOL ADDRESS PORT ADDRESS PORT SIZE` for an IPv4 packet.
 * Returns the end of the text (at most 80 bytes).
 */
char *dn_inject_words(char *at, const uint8_t *packet, unsigned int bytes);
char *dn_put_number(char *at, uint64_t number);
char *dn_put_text(char *at, const char *text);

#endif
