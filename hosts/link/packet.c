// SPDX-License-Identifier: GPL-2.0 OR MIT
/*
 * Turns an IPv4 packet into the arguments of `inject`.
 *
 * A rule matches protocol, addresses and ports. The link knows TCP and UDP:
 * every other protocol counts as UDP with port 0, and so does a fragment after
 * the first, because it has no ports. A scenario's packets have at least 40
 * bytes, so a shorter one counts as 40.
 */
#include "link_internal.h"

enum { TCP = 6, UDP = 17, MIN_SIZE = 40, FRAGMENT_OFFSET = 0x1fff };

char *dn_put_number(char *at, uint64_t number)
{
	char digits[24];
	int count = 0;

	do
		digits[count++] = (char)('0' + number % 10);
	while ((number /= 10) != 0);
	while (count)
		*at++ = digits[--count];
	return at;
}

char *dn_put_text(char *at, const char *text)
{
	while (*text)
		*at++ = *text++;
	return at;
}

static unsigned int half(const uint8_t *at)
{
	return (unsigned int)at[0] << 8 | at[1];
}

static char *put_end(char *at, const uint8_t *address, unsigned int port)
{
	int i;

	for (i = 0; i < 4; i++) {
		at = dn_put_number(at, address[i]);
		*at++ = i < 3 ? '.' : ' ';
	}
	at = dn_put_number(at, port);
	*at++ = ' ';
	return at;
}

char *dn_inject_words(char *at, const uint8_t *packet, unsigned int bytes)
{
	unsigned int head = (packet[0] & 15u) * 4, from = 0, to = 0;
	int protocol = packet[9];

	if ((protocol == TCP || protocol == UDP) && bytes >= head + 4 &&
	    (half(packet + 6) & FRAGMENT_OFFSET) == 0) {
		from = half(packet + head);
		to = half(packet + head + 2);
	}
	at = dn_put_text(at, protocol == TCP ? "inject tcp " : "inject udp ");
	at = put_end(at, packet + 12, from);
	at = put_end(at, packet + 16, to);
	return dn_put_number(at, bytes < MIN_SIZE ? MIN_SIZE : bytes);
}
