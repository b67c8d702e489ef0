// SPDX-License-Identifier: GPL-2.0 OR MIT
/*
 * Writes the link's files, and a capture for each host: nanosecond pcap, link
 * type RAW, in the order in which the host sends and receives. Times are ns
 * after time 0, as in the report; libpcap reads either byte order.
 */
#include <errno.h>
#include <string.h>
#include <sys/mman.h>
#include "link_internal.h"

enum { SECOND = 1000000000, BUFFER = 1 << 18, LARGEST = 65535, LINKTYPE_RAW = 101 };

static int capture_count;

FILE *dn_create(const char *path)
{
	FILE *file = fopen(path, "we");

	if (!file)
		dn_warn("dnlab: %s: %s\n", path, strerror(errno));
	else
		setvbuf(file, NULL, _IOFBF, BUFFER);
	return file;
}

int dn_close_file(FILE *file, const char *path)
{
	int is_bad;

	if (!file)
		return 0;
	is_bad = ferror(file);
	if (fclose(file) || is_bad) {
		dn_warn("dnlab: %s is incomplete: %s\n", path, strerror(errno));
		return -1;
	}
	return 0;
}

void *dn_map(size_t bytes)
{
	void *at = mmap(NULL, bytes, PROT_READ | PROT_WRITE,
			MAP_PRIVATE | MAP_ANONYMOUS | MAP_NORESERVE, -1, 0);

	return at == MAP_FAILED ? NULL : at;
}

int dn_captures(void)
{
	return capture_count != 0;
}

int dn_open_captures(void)
{
	static const uint32_t head[6] = {
		0xa1b23c4d, 2 | 4 << 16, 0, 0, LARGEST, LINKTYPE_RAW
	};
	struct dn_host *host = dn_conf.hosts;

	for (; host < dn_conf.hosts + dn_conf.host_count; host++) {
		if (!host->path[0])
			continue;
		host->capture = dn_create(host->path);
		if (!host->capture)
			return -1;
		fwrite(head, sizeof(head), 1, host->capture);
		capture_count++;
	}
	return 0;
}

int dn_close_captures(void)
{
	struct dn_host *host = dn_conf.hosts;
	int status = 0;

	for (; host < dn_conf.hosts + dn_conf.host_count; host++) {
		status |= dn_close_file(host->capture, host->path);
		host->capture = NULL;
	}
	capture_count = 0;
	return status;
}

void dn_capture(int host, unsigned long long time, const unsigned char *packet,
		unsigned int bytes)
{
	FILE *file = dn_conf.hosts[host].capture;
	const uint32_t head[4] = {
		(uint32_t)(time / SECOND), (uint32_t)(time % SECOND), bytes, bytes
	};

	if (!file)
		return;
	fwrite(head, sizeof(head), 1, file);
	fwrite(packet, bytes, 1, file);
}
