// SPDX-License-Identifier: MIT OR Apache-2.0
/*
 * A histogram with 64 buckets for each power of two, so that a bucket is at most
 * 1.6 % wide. Memory is constant however long a run is.
 */
#include "lateness.h"

enum { BITS = 6, PARTS = 1 << BITS, BUCKETS = (64 - BITS + 1) * PARTS };

static uint64_t counts[BUCKETS], total, largest;

static unsigned int bucket_of(uint64_t ns)
{
	unsigned int shift;

	if (ns < PARTS)
		return (unsigned int)ns;
	shift = 63 - BITS - (unsigned int)__builtin_clzll(ns);
	return (shift + 1) * PARTS + ((unsigned int)(ns >> shift) & (PARTS - 1));
}

static uint64_t upper_bound(unsigned int bucket)
{
	unsigned int shift = bucket / PARTS;

	if (shift == 0)
		return bucket;
	shift--;
	return (((uint64_t)PARTS + bucket % PARTS + 1) << shift) - 1;
}

void lateness_add(uint64_t ns)
{
	counts[bucket_of(ns)]++;
	total++;
	if (ns > largest)
		largest = ns;
}

uint64_t lateness_percentile(unsigned int percent)
{
	uint64_t wanted = (total * percent + 99) / 100, sum = 0, bound;

	for (unsigned int i = 0; total && i < BUCKETS; i++) {
		sum += counts[i];
		if (sum < wanted)
			continue;
		bound = upper_bound(i);
		return bound < largest ? bound : largest;
	}
	return 0;
}

uint64_t lateness_max(void)
{
	return largest;
}
