/* Runs dnlab in your process: each call takes the bytes of a scenario and writes the bytes of its report into your buffer.
 *
 *   static uint8_t room[1 << 20];
 *   dnlab_answer answer;
 *   dnlab_alone(text, length, room, sizeof room, &answer);
 *   if (answer.status == DNLAB_DONE) fwrite(room, 1, answer.length, stdout);
 *
 * Open sessions are the only state, and calls share nothing, so threads can call concurrently if each has its own room (the
 * buffer), answer and session. `room` must not overlap `text`, `line` or the answer. If a length is 0, its pointer can have
 * any value except NULL. All lengths are in bytes. A call allocates with malloc and frees all of it before it returns; only
 * an open session keeps memory. A call needs 128 KiB of stack. It can't be interrupted, but the budgets in the text bound
 * its cost. Don't call from a signal handler. */
#ifndef DNLAB_H
#define DNLAB_H
#include <stdbool.h>
#include <stddef.h>
#include <stdint.h>
#ifdef __cplusplus
extern "C" {
#endif

enum dnlab_status {
  DNLAB_DONE = 0,   /* the result is the first `length` bytes of the room; the other bytes are unchanged */
  DNLAB_FAULT = 1,  /* the text is not a valid scenario: `line` and `cause` have its first fault */
  DNLAB_CLOSED = 2, /* there is no session */
  DNLAB_MEMORY = 3, /* an allocation failed */
  DNLAB_STEPS = 4,  /* the experiments may take more steps than the limit: `line` is the index (from 0) of the first
                       experiment that exceeds it, and `length` the number of steps of all experiments */
  DNLAB_ROOM = 5    /* the room is too small: `length` bytes are required; its contents are not a valid result */
};
enum dnlab_cause {
  DNLAB_NONE = 0,
  DNLAB_TOOBIG = 1,
  DNLAB_CUT = 2,
  DNLAB_TOOLONG = 3,
  DNLAB_BADBYTE = 4,
  DNLAB_BADWORD = 5,
  DNLAB_OUTOFRANGE = 6,
  DNLAB_NOEND = 7,
  DNLAB_TOOMANY = 8,
  DNLAB_SAMENAME = 9,
  DNLAB_NOEXPERIMENT = 10,
  DNLAB_AFTEREND = 11,
  DNLAB_BACKWARDS = 12
};
typedef struct {
  uint32_t status; /* enum dnlab_status */
  uint32_t cause;  /* enum dnlab_cause */
  uint64_t line;   /* line of the fault, from 1, or 0 without a fault; see also DNLAB_STEPS */
  uint64_t length; /* bytes of the result, or bytes required (DNLAB_ROOM), or steps (DNLAB_STEPS) */
} dnlab_answer;

/* Runs the scenario, and writes its report, as `dnlab alone` does. */
void dnlab_alone(const uint8_t *text, size_t text_length, uint8_t *room, size_t room_length, dnlab_answer *answer);
/* Runs the scenario like `dnlab_alone` if its experiments may take at most `most_steps` steps together. Otherwise it runs
 * nothing and returns DNLAB_STEPS, like `dnlab alone --max-steps`. Use it for texts that you did not write. The size of the
 * room bounds the report. */
void dnlab_alone_within(const uint8_t *text, size_t text_length, uint64_t most_steps, uint8_t *room, size_t room_length,
                        dnlab_answer *answer);
/* Runs the scenario like `dnlab_alone`, and writes its records, with all packets traced, as one NumPy array of format .npy
 * 1.0, as `dnlab alone --format npy` does: a header of 512 bytes, then 40 bytes for each record. */
void dnlab_records(const uint8_t *text, size_t text_length, uint8_t *room, size_t room_length, dnlab_answer *answer);
/* Checks that the text is a valid scenario, and writes the line that `dnlab check` writes. */
void dnlab_check(const uint8_t *text, size_t text_length, uint8_t *room, size_t room_length, dnlab_answer *answer);
/* Writes what `--explain` prints about the text, after the line of its fault. A fault is explained, not returned. If `runs`
 * is true, it also runs the scenario and explains the run. */
void dnlab_explain(const uint8_t *text, size_t text_length, bool runs, uint8_t *room, size_t room_length, dnlab_answer *answer);
/* Writes the version of the library, the commit of its sources, and the kit that proved them. */
void dnlab_version(uint8_t *room, size_t room_length, dnlab_answer *answer);

/* Sessions: your program sends the commands of an experiment line by line, and reacts to what the experiment records.
 *
 *   dnlab_session session = {NULL};
 *   dnlab_open(&session, &answer);
 *   dnlab_take(&session, line, strlen(line), room, sizeof room, &answer);
 *   dnlab_close(&session, &answer);
 *
 * Initialise a session to {NULL}, and let only these calls change it afterwards. Don't copy it, and use it in one call at a
 * time: the library can't check this. A closed session is {NULL} again. */
typedef struct {
  void *at; /* address of the session; NULL if it is closed */
} dnlab_session;

/* Opens a session, and first closes the one that is open, if any. The status is DNLAB_DONE, or DNLAB_MEMORY if an
 * allocation failed; then there is no session. */
void dnlab_open(dnlab_session *session, dnlab_answer *answer);
/* Processes one line, without its line feed, and writes to the room what `dnlab live` writes for the line. The statuses:
 * - DNLAB_DONE: the room has the result. If the line was rejected, the result is a line `#< fault CAUSE`.
 * - DNLAB_ROOM: the line was processed, but its result did not fit. The session keeps it, and the next call writes it before
 *   its own result. Call again with a room of `length` bytes and an empty line, which has no result of its own.
 * - DNLAB_MEMORY: an allocation failed. The session accepts no more lines: close it.
 * - DNLAB_CLOSED: there is no session. */
void dnlab_take(dnlab_session *session, const uint8_t *line, size_t line_length, uint8_t *room, size_t room_length,
                dnlab_answer *answer);
/* Closes a session, frees its memory, and discards results that did not fit into an earlier room. The statuses:
 * - DNLAB_DONE: each experiment has its `end`.
 * - DNLAB_FAULT: an experiment has no `end` (cause DNLAB_NOEND, at the line after the last).
 * - DNLAB_MEMORY: an allocation had failed.
 * - DNLAB_CLOSED: there was no session. */
void dnlab_close(dnlab_session *session, dnlab_answer *answer);

#ifdef __cplusplus
}
#endif
#endif
