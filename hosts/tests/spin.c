// SPDX-License-Identifier: MIT OR Apache-2.0
/*
 * Waits in user space for another thread: one thread spins on a flag, without a
 * system call, that the other sets after it has slept. With infinite CPU power
 * the clock of a guest stops for ever unless the kernel notices. Prints how long
 * the wait took by CLOCK_MONOTONIC, in ms (at least 200).
 */
#include <pthread.h>
#include <stdio.h>
#include <time.h>

static volatile int flag;

static void *set_flag(void *unused)
{
	struct timespec pause = {0, 200000000};

	nanosleep(&pause, NULL);
	flag = 1;
	return unused;
}

static long long now(void)
{
	struct timespec at;

	clock_gettime(CLOCK_MONOTONIC, &at);
	return at.tv_sec * 1000000000LL + at.tv_nsec;
}

int main(void)
{
	long long begin = now();
	pthread_t thread;

	pthread_create(&thread, NULL, set_flag, NULL);
	while (!flag)
		;
	printf("%lld\n", (now() - begin) / 1000000);
	pthread_join(thread, NULL);
	return 0;
}
