// SPDX-License-Identifier: GPL-2.0
/*
 * The driver's half that calls the host's libc.
 *
 * The kernel's half calls it with interrupts off (UML's signals wait), so one
 * call at a time. libdnlab needs 128 KiB of stack, more than a task of the
 * kernel has, so its calls run on a stack of their own. Its memory comes from
 * the host's malloc (`build` renames the symbol), because the kernel's may sleep.
 */
#include <errno.h>
#include <stdarg.h>
#include <stdio.h>
#include <string.h>
#include <sys/mman.h>
#include <init.h>
#include <os.h>
#include "dnlab_um.h"

enum { STACK = 1 << 20 };

static char *config, *stack;

static int __init dnlab_setup(char *line, int *add)
{
	config = line;
	return 0;
}

__uml_setup("dnlab=", dnlab_setup,
"dnlab=<file>\n"
"    Adds network devices whose packets go over a link of dnlab. The file of\n"
"    the host describes the link: seed, output files, hosts and network lines.\n\n"
);

void dn_warn(const char *format, ...)
{
	char text[1024];
	va_list more;

	va_start(more, format);
	vsnprintf(text, sizeof(text), format, more);
	va_end(more);
	os_warn("%s", text);
}

void dn_on_big_stack(void (*call)(void))
{
	register void *top asm("r12") = stack + STACK - 64;

	asm volatile("movq %%rsp, %%rbx\n\t"
		     "movq %0, %%rsp\n\t"
		     "call *%1\n\t"
		     "movq %%rbx, %%rsp"
		     : "+r"(top), "+r"(call) :
		     : "rax", "rbx", "rcx", "rdx", "rsi", "rdi", "r8", "r9", "r10", "r11",
		       "memory", "cc", "xmm0", "xmm1", "xmm2", "xmm3", "xmm4", "xmm5",
		       "xmm6", "xmm7", "xmm8", "xmm9", "xmm10", "xmm11", "xmm12",
		       "xmm13", "xmm14", "xmm15");
}

int dn_user_open(void)
{
	if (!config)
		return 0;
	stack = mmap(NULL, STACK, PROT_READ | PROT_WRITE,
		     MAP_PRIVATE | MAP_ANONYMOUS | MAP_NORESERVE, -1, 0);
	if (stack == MAP_FAILED) {
		os_warn("dnlab: out of memory\n");
		return -1;
	}
	return dn_open(config) ? -1 : 1;
}

void dn_user_write_counts(const char *more)
{
	static const char path[] = "guest/counts";
	char text[1024];
	FILE *file = fopen(path, "we");

	if (!file) {
		os_warn("dnlab: %s: %s\n", path, strerror(errno));
		return;
	}
	dn_format_counts(text, sizeof(text));
	fputs(text, file);
	fputs(more, file);
	if (fclose(file))
		os_warn("dnlab: %s is incomplete: %s\n", path, strerror(errno));
}
