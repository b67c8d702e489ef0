/* SPDX-License-Identifier: GPL-2.0 */
/* The driver's half that calls the host's libc (dnlab_user.c), for the kernel's half. */
#ifndef DNLAB_UM_H
#define DNLAB_UM_H
#include "dnlab_link.h"

/* Opens the link that `dnlab=` names. Returns 1 if it is open, 0 if none is named, or -1. */
int dn_user_open(void);
/* Writes guest/counts: the link's counts, then the kernel's own lines. */
void dn_user_write_counts(const char *more);

#endif
