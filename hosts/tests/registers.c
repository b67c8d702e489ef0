// SPDX-License-Identifier: MIT OR Apache-2.0
/*
 * Checks that the 16 vector registers keep their values across system calls: in
 * one task, in two processes, in four threads, and while a signal handler changes
 * them. Prints one line per part, with the number of calls after which a register
 * was wrong. It needs AVX.
 */
#define _GNU_SOURCE
#include <pthread.h>
#include <signal.h>
#include <stdint.h>
#include <stdio.h>
#include <string.h>
#include <sys/syscall.h>
#include <sys/time.h>
#include <sys/wait.h>
#include <time.h>
#include <unistd.h>

enum { BYTES = 512, ROUNDS = 2000, THREADS = 4 };

#define LOAD(n) "vmovdqa " #n "*32(%[in]), %%ymm" #n "\n\t"
#define STORE(n) "vmovdqa %%ymm" #n ", " #n "*32(%[out])\n\t"
#define ALL(f) f(0) f(1) f(2) f(3) f(4) f(5) f(6) f(7) f(8) f(9) f(10) f(11) f(12) f(13) f(14) f(15)

static unsigned long wrong, signals;

static void change_registers(int number)
{
	(void)number;
	signals++;
	__asm__ volatile("vpxor %%ymm3, %%ymm3, %%ymm3\n\t"
			 "vpcmpeqd %%ymm15, %%ymm15, %%ymm15" ::: "xmm3", "xmm15");
}

/* Fills the registers with a pattern, makes a system call, and compares. */
static int is_wrong_after(uint64_t pattern, long number, long argument)
{
	uint64_t in[BYTES / 8] __attribute__((aligned(32)));
	uint64_t out[BYTES / 8] __attribute__((aligned(32)));
	long result;

	for (uint64_t i = 0; i < BYTES / 8; i++)
		in[i] = pattern * 0x9e3779b97f4a7c15u + i;
	__asm__ volatile(ALL(LOAD) "syscall\n\t" ALL(STORE)
			 : "=a"(result)
			 : "0"(number), "D"(argument), "S"(0L), [in] "r"(in), [out] "r"(out)
			 : "rcx", "rdx", "r11", "memory", "xmm0", "xmm1", "xmm2", "xmm3", "xmm4",
			   "xmm5", "xmm6", "xmm7", "xmm8", "xmm9", "xmm10", "xmm11", "xmm12",
			   "xmm13", "xmm14", "xmm15");
	return memcmp(in, out, BYTES) != 0;
}

static void *try_calls(void *pattern)
{
	struct timespec pause = {0, 50000};
	unsigned long bad = 0;

	for (uint64_t i = 0; i < ROUNDS; i++) {
		bad += is_wrong_after((uintptr_t)pattern + i, SYS_getpid, 0);
		bad += is_wrong_after((uintptr_t)pattern + i, SYS_sched_yield, 0);
		bad += is_wrong_after((uintptr_t)pattern + i, SYS_nanosleep, (long)&pause);
	}
	__atomic_fetch_add(&wrong, bad, __ATOMIC_RELAXED);
	return NULL;
}

static void print(const char *part)
{
	printf("%s: wrong %lu\n", part, wrong);
	fflush(stdout);
	wrong = 0;
}

int main(void)
{
	struct itimerval every = {{0, 70}, {0, 70}}, never = {{0, 0}, {0, 0}};
	pthread_t threads[THREADS];
	pid_t child;

	try_calls((void *)1000);
	print("one task");
	child = fork();
	try_calls((void *)(child ? 2000l : 3000l));
	print(child ? "parent" : "child");
	if (!child)
		_exit(0);
	waitpid(child, NULL, 0);
	for (long i = 0; i < THREADS; i++)
		pthread_create(&threads[i], NULL, try_calls, (void *)(10000 * (i + 1)));
	for (int i = 0; i < THREADS; i++)
		pthread_join(threads[i], NULL);
	print("threads");
	signal(SIGALRM, change_registers);
	setitimer(ITIMER_REAL, &every, NULL);
	try_calls((void *)4000);
	setitimer(ITIMER_REAL, &never, NULL);
	print(signals > 100 ? "signals" : "too few signals");
	return 0;
}
