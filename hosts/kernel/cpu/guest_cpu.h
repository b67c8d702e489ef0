/* SPDX-License-Identifier: GPL-2.0 */
/*
 * The processor that a guest's programs see with infinite CPU power, and the
 * watch over programs that run for ever without a stop.
 */
#ifndef GUEST_CPU_H
#define GUEST_CPU_H

struct uml_pt_regs;

/* In uml_pt_regs.spins: the task has slept after an interruption. */
#define HAS_SPUN 0x80000000U

/* Called by a new host process of the guest: makes RDTSC and CPUID fault. */
void guest_cpu_begin(void);
/*
 * Emulates the instruction at which a host process of the guest faulted. Returns
 * 1, or 0 if it does not emulate that instruction. `is_general` is true for SI_KERNEL faults.
 */
int guest_cpu_emulate(int pid, int is_general, struct uml_pt_regs *regs);

/* Brackets the time during which a host process runs the guest's code. */
void spin_watch_enter(int pid, struct uml_pt_regs *regs);
void spin_watch_leave(void);
/*
 * Steps a process that SIGPROF has stopped to a place of its loop that is the same in
 * each run. Returns the status of its last stop: the given one, or one of its own.
 */
int spin_watch_settle(int pid, int status);
/* Returns true if the watch sent the SIGPROF that has stopped the process. */
int spin_watch_is_due(void);
/* Returns true if the process is at a place that is the same in each run. */
int spin_watch_is_settled(void);

/* In arch/um/kernel: time.c and signal.c */
unsigned long long time_travel_tsc(void);
void time_travel_publish(void);
void time_travel_spin(struct uml_pt_regs *regs, int is_settled);
int task_has_own_process(void);

/* For guest/counts: how many sleeps were at a place that can differ between runs. */
extern unsigned long time_travel_spins_unsettled;
/* For guest/counts: false if this host can't make CPUID fault. */
extern int guest_cpu_hides_chance;

#endif
