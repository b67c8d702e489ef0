// SPDX-License-Identifier: GPL-2.0 OR MIT
/* Reads link.conf: seed, steps, output files, hosts and network lines. */
#include <arpa/inet.h>
#include <errno.h>
#include <stdlib.h>
#include <string.h>
#include "link_internal.h"

enum { MAX_COMMANDS = 1 << 20 };

struct dn_conf dn_conf;

/* Reads a decimal number up to a space or the end. Returns 0, or -1. */
static int number_of(const char *text, uint64_t *number, char **end)
{
	errno = 0;
	*number = strtoull(text, end, 10);
	return errno || *end == text || (**end && **end != ' ') ? -1 : 0;
}

static int copy(char *to, size_t room, const char *from)
{
	if (!*from || strlen(from) >= room)
		return -1;
	strcpy(to, from);
	return 0;
}

/* `host NAME ADDRESS [CAPTURE]` */
static int add_host(char *value)
{
	struct dn_conf *conf = &dn_conf;
	struct dn_host *host = &conf->hosts[conf->host_count];
	char *rest = NULL, *name = strtok_r(value, " ", &rest);
	char *address = strtok_r(NULL, " ", &rest);

	if (conf->host_count == DN_MAX_HOSTS || !name || !address ||
	    copy(host->name, sizeof(host->name), name) ||
	    inet_pton(AF_INET, address, host->address) != 1)
		return -1;
	if (rest && *rest && copy(host->path, sizeof(host->path), rest))
		return -1;
	conf->host_count++;
	return 0;
}

/* `do @NS COMMAND` */
static int add_command(const char *value)
{
	struct dn_conf *conf = &dn_conf;
	struct dn_timed *more, *last = NULL;
	uint64_t time;
	char *end;

	if (*value != '@' || number_of(value + 1, &time, &end) || *end != ' ')
		return -1;
	if (conf->command_count)
		last = &conf->commands[conf->command_count - 1];
	if (conf->command_count == MAX_COMMANDS || (last && last->time > time))
		return -1;
	more = realloc(conf->commands, (size_t)(conf->command_count + 1) * sizeof(*more));
	if (!more)
		return -1;
	conf->commands = more;
	more[conf->command_count].time = time;
	more[conf->command_count].words = strdup(end + 1);
	return more[conf->command_count++].words ? 0 : -1;
}

static int add_line(const char *key, char *value)
{
	struct dn_conf *conf = &dn_conf;
	char *end;

	if (!strcmp(key, "seed"))
		return number_of(value, &conf->seed, &end);
	if (!strcmp(key, "steps"))
		return number_of(value, &conf->steps, &end);
	if (!strcmp(key, "transcript"))
		return copy(conf->transcript, sizeof(conf->transcript), value);
	if (!strcmp(key, "report"))
		return copy(conf->report, sizeof(conf->report), value);
	if (!strcmp(key, "host"))
		return add_host(value);
	if (!strcmp(key, "do"))
		return add_command(value);
	return -1;
}

int dn_read_conf(const char *path)
{
	struct dn_conf *conf = &dn_conf;
	char line[DN_LINE + 64], copied[DN_LINE + 64], *value;
	FILE *file = fopen(path, "re");
	int number = 0, status = 0;

	if (!file) {
		dn_warn("dnlab: %s: %s\n", path, strerror(errno));
		return -1;
	}
	memset(conf, 0, sizeof(*conf));
	conf->seed = 1;
	conf->steps = 10000000;
	conf->hosts = dn_map(DN_MAX_HOSTS * sizeof(*conf->hosts));
	while (!status && conf->hosts && fgets(line, sizeof(line), file)) {
		number++;
		line[strcspn(line, "\n")] = 0;
		strcpy(copied, line);
		value = line + strcspn(line, " ");
		if (*value)
			*value++ = 0;
		if (!line[0] || line[0] == '#')
			continue;
		status = add_line(line, value);
		if (status)
			dn_warn("dnlab: %s, line %d: not understood, or out of order: %s\n",
				path, number, copied);
	}
	fclose(file);
	if (!status && (!conf->host_count || !conf->hosts)) {
		dn_warn("dnlab: %s: no host\n", path);
		status = -1;
	}
	return status;
}
