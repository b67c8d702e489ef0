"""Runs a program with one of its allocations refused, by an allocator that is loaded before the C
library's."""
import os
import subprocess
from collections.abc import Sequence
from typing import Literal, NamedTuple

# The exit status of a run, or "no end" if it exceeded its time limit.
Status = int | Literal["no end"]

# Refuses the allocation whose number is in REFUSED, and at the end writes the number of allocations to the
# descriptor COUNT.
ALLOCATOR = r"""
#include <errno.h>
#include <stdatomic.h>
#include <stdio.h>
#include <stdlib.h>
#include <sys/syscall.h>
#include <unistd.h>
extern void *__libc_malloc(size_t);
extern void *__libc_realloc(void *, size_t);
static atomic_long made;
static int is_refused(void) {
  const char *which = getenv("REFUSED");
  if (!which || atomic_fetch_add(&made, 1) + 1 != atol(which)) return 0;
  errno = ENOMEM;
  return 1;
}
void *malloc(size_t size) { return is_refused() ? 0 : __libc_malloc(size); }
void *realloc(void *old, size_t size) { return is_refused() ? 0 : __libc_realloc(old, size); }
static int tell(void) {
  static atomic_int told;
  const char *to = getenv("COUNT");
  char text[32];
  if (!to || atomic_exchange(&told, 1)) return 0;
  int length = snprintf(text, sizeof text, "%ld\n", atomic_load(&made));
  return write(atoi(to), text, length) == length ? 0 : 99;
}
/* A program ends by its return from main, or by this. */
__attribute__((destructor)) static void end(void) { tell(); }
void _exit(int status) {
  int failed = tell();
  for (;;) syscall(SYS_exit_group, failed ? failed : status);
}
"""


class Outcome(NamedTuple):
    """Standard output, standard error and status of a run, and the number of allocations that it
    requested."""
    out: bytes
    err: bytes
    status: Status
    asked: int


def library(room: str) -> str:
    """Compiles the allocator into a folder with `cc`. Returns its path."""
    path = f"{room}/refusing.so"
    subprocess.run(["cc", "-O2", "-shared", "-fPIC", "-x", "c", "-", "-o", path], input=ALLOCATOR.encode(),
                   check=True)
    return path


def run(allocator: str, words: Sequence[str], text: bytes, number: int, limit: float = 20) -> Outcome:
    """Runs a command on a text, with the allocation of this number refused (0: none). Returns the outcome,
    whose status is 'no end' if the run takes longer than the limit (s)."""
    reading, writing = os.pipe()
    how = {"LD_PRELOAD": allocator, "REFUSED": str(number), "COUNT": str(writing)}
    status: Status
    try:
        done = subprocess.run(words, input=text, capture_output=True, env=how, pass_fds=[writing],
                              timeout=limit,
                              check=False)
        out, err, status = done.stdout, done.stderr, done.returncode
    except subprocess.TimeoutExpired:
        out, err, status = b"", b"", "no end"
    finally:
        os.close(writing)
    with open(reading, "rb") as counts:
        count = counts.read()
    return Outcome(out, err, status, int(count or 0))
