// SPDX-License-Identifier: MIT OR Apache-2.0
/*
 * Prints what a program sees of the processor: the time stamp counter before and
 * after a second of sleep, and whether CPUID offers random numbers.
 */
#include <cpuid.h>
#include <stdio.h>
#include <unistd.h>
#include <x86intrin.h>

int main(void)
{
	unsigned int a, b, c, d, seed, processor;
	unsigned long long first = __rdtsc(), second, third;

	sleep(1);
	second = __rdtscp(&processor);
	do
		third = __rdtsc();
	while (third - second < 1000000);
	printf("tsc %llu %llu %llu\n", first, second - first, third - second);
	__cpuid(1, a, b, c, d);
	printf("rdrand %u processor %u\n", c >> 30 & 1, b >> 24);
	__cpuid_count(7, 0, a, seed, c, d);
	printf("rdseed %u\n", seed >> 18 & 1);
	return 0;
}
