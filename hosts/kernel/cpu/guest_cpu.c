// SPDX-License-Identifier: GPL-2.0
/*
 * Emulates instructions that would show the host. The guest's programs run on the
 * host's processor, where these instructions fault.
 *
 * RDTSC and RDTSCP return simulated time in ns. CPUID hides what differs between
 * two runs: random numbers (RDRAND, RDSEED; BoringSSL and std::random_device use
 * them if they are there), the number of the processor, transactions, which abort
 * at random, and waits that count the host's clock.
 *
 * A host without CPUID faulting shows its own CPUID; guest/counts says so.
 */
#include <cpuid.h>
#include <errno.h>
#include <signal.h>
#include <sys/prctl.h>
#include <sys/ptrace.h>
#include <sys/syscall.h>
#include <unistd.h>
#include <init.h>
#include <sysdep/ptrace.h>
#include <timetravel.h>
#include <guest_cpu.h>

#define ARCH_SET_CPUID 0x1012

enum { RDTSC = 0x310f, RDTSCP = 0xf9010f, CPUID = 0xa20f };
enum { CACHED = 128 };

int guest_cpu_hides_chance;

struct cpuid {
	unsigned int leaf, subleaf;
	unsigned int eax, ebx, ecx, edx;
};

void guest_cpu_begin(void)
{
	if (time_travel_mode != TT_MODE_INFCPU)
		return;
	prctl(PR_SET_TSC, PR_TSC_SIGSEGV, 0, 0, 0);
	/* guest_cpu_probe finds out whether that can work */
	syscall(SYS_arch_prctl, ARCH_SET_CPUID, 0L);
}

/* Tries whether the host can. The kernel process itself keeps CPUID. */
static int __init guest_cpu_probe(void)
{
	guest_cpu_hides_chance = !syscall(SYS_arch_prctl, ARCH_SET_CPUID, 0L);
	if (guest_cpu_hides_chance)
		syscall(SYS_arch_prctl, ARCH_SET_CPUID, 1L);
	return 0;
}

__initcall(guest_cpu_probe);

static void hide(struct cpuid *c)
{
	switch (c->leaf) {
	case 1:
		c->ebx &= 0x0000ffff;		/* processor number, logical processors */
		c->ebx |= 0x00010000;
		c->ecx &= ~(1u << 30);		/* RDRAND */
		c->ecx &= ~(1u << 31);		/* a hypervisor */
		break;
	case 7:
		if (c->subleaf)
			break;
		c->ebx &= ~(1u << 18);		/* RDSEED */
		c->ebx &= ~(1u << 4 | 1u << 11);	/* transactions: HLE, RTM */
		c->ecx &= ~(1u << 22);		/* RDPID */
		c->ecx &= ~(1u << 5);		/* WAITPKG */
		break;
	case 0xb:
	case 0x1f:
		c->edx = 0;			/* processor number */
		break;
	case 0x15:
	case 0x16:				/* frequencies of the clocks */
		c->eax = c->ebx = c->ecx = c->edx = 0;
		break;
	}
	if (c->leaf >= 0x40000000 && c->leaf < 0x40010000)
		c->eax = c->ebx = c->ecx = c->edx = 0;
}

/* Returns the result of a CPUID instruction. The results are cached, because CPUID is slow in a virtual machine. */
static const struct cpuid *cpuid_of(unsigned int leaf, unsigned int subleaf)
{
	static struct cpuid cache[CACHED];
	static int count;
	struct cpuid *c;
	int i;

	for (i = 0; i < count; i++)
		if (cache[i].leaf == leaf && cache[i].subleaf == subleaf)
			return &cache[i];
	c = &cache[count < CACHED ? count++ : CACHED - 1];
	c->leaf = leaf;
	c->subleaf = subleaf;
	__cpuid_count(leaf, subleaf, c->eax, c->ebx, c->ecx, c->edx);
	hide(c);
	return c;
}

static void emulate_cpuid(struct uml_pt_regs *regs)
{
	const struct cpuid *c = cpuid_of((unsigned int)regs->gp[HOST_AX],
					 (unsigned int)regs->gp[HOST_CX]);

	regs->gp[HOST_AX] = c->eax;
	regs->gp[HOST_BX] = c->ebx;
	regs->gp[HOST_CX] = c->ecx;
	regs->gp[HOST_DX] = c->edx;
}

static void emulate_tsc(struct uml_pt_regs *regs)
{
	unsigned long long now = time_travel_tsc();

	regs->gp[HOST_AX] = now & 0xffffffff;
	regs->gp[HOST_DX] = now >> 32;
}

int guest_cpu_emulate(int pid, int is_general, struct uml_pt_regs *regs)
{
	unsigned long code;
	int bytes = 2;

	if (time_travel_mode != TT_MODE_INFCPU || !is_general)
		return 0;
	errno = 0;
	code = (unsigned long)ptrace(PTRACE_PEEKTEXT, pid, regs->gp[HOST_IP], 0);
	if (errno)
		return 0;
	if ((code & 0xffff) == CPUID) {
		emulate_cpuid(regs);
	} else if ((code & 0xffff) == RDTSC) {
		emulate_tsc(regs);
	} else if ((code & 0xffffff) == RDTSCP) {
		emulate_tsc(regs);
		regs->gp[HOST_CX] = 0;
		bytes = 3;
	} else {
		return 0;
	}
	regs->gp[HOST_IP] += (unsigned long)bytes;
	return 1;
}
