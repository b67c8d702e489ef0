/* SPDX-License-Identifier: GPL-2.0 */
/* Shared by the kernel's files of the driver. */
#ifndef DNLAB_KERN_H
#define DNLAB_KERN_H
#include <linux/types.h>
#include <linux/wait.h>
#include "dnlab_um.h"

/* The link while this runs: interrupts are off, and it has moved to now. */
u64 dnlab_begin(unsigned long *flags);
/* Receives what was delivered, and plans the next wake-up. */
void dnlab_finish(u64 now, unsigned long flags);
/* Ends the experiment, and writes its files. */
void dnlab_end(void);
/* Appends the driver's counts, a line each. */
int dnlab_counts(char *text, int room);
/* Wakes those who wait for the end of the experiment. */
extern wait_queue_head_t dnlab_over;

int dnlab_proc_init(void);

#endif
