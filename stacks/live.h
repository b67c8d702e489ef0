/* live.h - drives a link of dnlab from a C program: a session of `dnlab live` with one experiment.

   The program sends packets at times that it chooses, and learns when each packet is delivered or dropped. Payloads stay in
   the program, because the link only sees sizes. Only live_until, live_until_mine and live_end advance simulated time.

       live *l = live_open("dnlab");
       if (l == NULL || live_experiment(l, "mine", 1, 1000, 1000000)
           || live_command(l, "pipe 1 config bw 10Mbit/s delay 20 queue 100 codel")
           || live_command(l, "add 100 pipe 1 ip from any to any")
           || live_send(l, "udp 10.0.0.1 1000 10.0.1.1 2000", 1500, payload)
           || live_until_mine(l, 1000000000, 1)) { fprintf(stderr, "%s\n", live_error(l)); exit(1); }
       for (size_t i = 0; i < l->count; i++) ...  l->events[i].moment, .payload, .cause ...
       live_clear(l);

   Each call that returns an int returns 0 on success and -1 on failure; then live_error returns the cause and the line. The
   session continues after a rejected line or a refused command. Once the program has ended (l->is_lost), all later calls return -1.
   Times are in nanoseconds and sizes in bytes (40 to 1500, headers included). There is no global state: a process can have
   many sessions, each used by one thread at a time. It needs C99 and POSIX (define _POSIX_C_SOURCE 200809L with -std=c99).

   If you define LIVE_LIBRARY, the session runs in this process, in libdnlab (dnlab.h, -ldnlab). Everything else stays the same,
   and live_open ignores its argument.

   Licence: MIT or Apache-2.0, as dnlab. */
#ifndef DNLAB_LIVE_H
#define DNLAB_LIVE_H
#include <errno.h>
#include <inttypes.h>
#include <stdint.h>
#include <stdio.h>
#include <stdlib.h>
#include <string.h>
#ifdef LIVE_LIBRARY
#include <dnlab.h>
#else
#include <fcntl.h>
#include <poll.h>
#include <sys/socket.h>
#include <sys/types.h>
#include <sys/wait.h>
#include <unistd.h>
#endif

#define LIVE_LATEST UINT64_C(1000000000000000) /* the latest time, in ns */
#define LIVE_LINE 512                          /* maximum length of a line, in bytes */
#define LIVE_GATHERED 32768                    /* size of a batch, in bytes; a longer one is sent without waiting for a call */

/* The fate of a packet: when it was delivered (cause is ""), or when and why it was dropped (docs/reference/report.md has the
   causes). The payload is the pointer that live_send received. */
typedef struct live_event {
  uint64_t moment;
  void *payload;
  char cause[12];
} live_event;

typedef struct live {
  /* The caller reads these. */
  uint64_t now;         /* simulated time (ns): the earliest time of a command or a packet */
  int is_over;          /* the experiment has ended: at its `end`, or because its steps ran out */
  int is_lost;          /* the program has ended */
  live_event *events;   /* the events since live_clear */
  size_t count;
  char counters[256];   /* the report's line of counters, once the experiment has ended */
  unsigned long sends, round_trips;
  /* Optional. The caller sets these before live_experiment. */
  FILE *transcript;     /* receives the scenario from which `dnlab alone` writes the same report */
  FILE *report;         /* receives the report; without it, the session only reports on packets that were sent */
  /* Private. */
#ifdef LIVE_LIBRARY
  dnlab_session session;
#else
  pid_t pid;
  int socket;
#endif
  char error[LIVE_LINE + 200];
  size_t event_room;
  char *posted;         /* lines without a reply yet; the bytes before `sent` have been sent */
  size_t posted_bytes, posted_room, sent, answered_bytes;
  unsigned long unanswered;
  void **unnamed;       /* payloads of packets whose numbers are not known yet, from index `named` on */
  size_t named, unnamed_count, unnamed_room;
  void **flying;        /* payloads of packets in flight, by number */
  char *is_flying;
  size_t flying_room, is_flying_room;
  uint64_t dropped_at, dropped_number; /* a packet that was dropped on arrival: its drop is reported before its number */
  char dropped_cause[12];
  uint64_t next;
  int adds_next, has_next, is_wrong; /* replies have the time of the next event; there is a next event; a line failed */
  char *said;           /* bytes that were read and not processed yet */
  size_t said_bytes, said_room;
} live;

/* Sets the text of live_error. Returns -1. */
static inline int live_fail(live *l, const char *what, const char *more) {
  snprintf(l->error, sizeof l->error, "%.200s%s%.500s", what, more[0] ? ": " : "", more);
  return -1;
}

/* Returns the cause of the last failure, or "" if there is none. For NULL it returns the system's text for errno. */
static inline const char *live_error(const live *l) { return l ? l->error : strerror(errno); }

/* Grows an array to at least `want` elements of a size; new elements are zero. `place` is the address of the pointer to it.
   Returns 0, or -1 if memory runs out. */
static inline int live_room(live *l, void *place, size_t *room, size_t want, size_t size) {
  void *found;
  size_t more = *room ? *room : 256;
  if (want <= *room) return 0;
  while (more < want) more *= 2;
  memcpy(&found, place, sizeof found);
  found = realloc(found, more * size);
  if (found == NULL) return live_fail(l, "out of memory", "");
  memset((char *)found + *room * size, 0, (more - *room) * size);
  memcpy(place, &found, sizeof found);
  *room = more;
  return 0;
}

#ifdef LIVE_LIBRARY
/* Opens a session in this process. Returns NULL and sets errno if memory runs out. */
static inline live *live_open(const char *program) {
  dnlab_answer answer;
  live *l = (live *)calloc(1, sizeof *l);
  (void)program;
  if (l == NULL) return NULL;
  dnlab_open(&l->session, &answer);
  if (answer.status != DNLAB_DONE) { free(l); errno = ENOMEM; return NULL; }
  l->dropped_number = UINT64_MAX;
  return l;
}
#else
/* Opens a session with a program `dnlab`, given by its path or its name on the PATH. Returns NULL and sets errno on failure. If
   there is no such program, a later call fails. */
static inline live *live_open(const char *program) {
  int ends[2];
  live *l = (live *)calloc(1, sizeof *l);
  if (l == NULL) return NULL;
  /* This is a socket, because a write to a pipe that nobody reads would send SIGPIPE to the caller. */
  if (socketpair(AF_UNIX, SOCK_STREAM, 0, ends)) { free(l); return NULL; }
  fcntl(ends[0], F_SETFD, FD_CLOEXEC);
  l->pid = fork();
  if (l->pid < 0) { close(ends[0]); close(ends[1]); free(l); return NULL; }
  if (l->pid == 0) {
    /* The program has its own process group: Ctrl-C reaches only the caller, and the program ends at the end of its input. */
    setpgid(0, 0);
    if (dup2(ends[1], 0) >= 0 && dup2(ends[1], 1) >= 0) {
      if (ends[1] > 1) close(ends[1]);
      execlp(program, program, "live", (char *)NULL);
    }
    _exit(127);
  }
  close(ends[1]);
  l->socket = ends[0];
  l->dropped_number = UINT64_MAX;
  return l;
}
#endif

static inline int live_event_add(live *l, uint64_t moment, void *payload, const char *cause) {
  live_event *e;
  if (live_room(l, &l->events, &l->event_room, l->count + 1, sizeof *l->events)) return -1;
  e = &l->events[l->count++];
  e->moment = moment;
  e->payload = payload;
  snprintf(e->cause, sizeof e->cause, "%.11s", cause);
  return 0;
}

/* Reads the fate of a packet: `TIME deliver P plain` or `TIME drop P plain CAUSE`. Ignores other lines. */
static inline int live_fate(live *l, const char *line) {
  char *rest;
  int is_drop;
  uint64_t number, moment = strtoull(line, &rest, 10);
  if (rest == line) return 0;
  if (strncmp(rest, " deliver ", 9) == 0) { is_drop = 0; rest += 9; }
  else if (strncmp(rest, " drop ", 6) == 0) { is_drop = 1; rest += 6; }
  else return 0;
  number = strtoull(rest, &rest, 10);
  if (strncmp(rest, " plain", 6)) return 0;
  rest += is_drop ? 7 : 6;
  if (number < l->is_flying_room && l->is_flying[number]) {
    l->is_flying[number] = 0;
    return live_event_add(l, moment, l->flying[number], rest);
  }
  l->dropped_number = number;
  l->dropped_at = moment;
  snprintf(l->dropped_cause, sizeof l->dropped_cause, "%.11s", rest);
  return 0;
}

/* Processes a line of the report, without its line feed. */
static inline int live_told(live *l, const char *line) {
  if (l->report && fprintf(l->report, "%s\n", line) < 0) return live_fail(l, "the report can't be written", strerror(errno));
  if (strncmp(line, "counters ", 9) == 0) snprintf(l->counters, sizeof l->counters, "%.255s", line);
  return live_fate(l, line);
}

/* Removes and returns the payload of the first packet whose number is not known yet. */
static inline void *live_payload(live *l) {
  void *payload = l->unnamed[l->named++];
  if (l->named == l->unnamed_count) l->named = l->unnamed_count = 0;
  return payload;
}

/* Assigns a number to that packet. */
static inline int live_name(live *l, uint64_t number) {
  void *payload = live_payload(l);
  if (l->dropped_number == number) return live_event_add(l, l->dropped_at, payload, l->dropped_cause);
  if (live_room(l, &l->flying, &l->flying_room, number + 1, sizeof *l->flying)
      || live_room(l, &l->is_flying, &l->is_flying_room, number + 1, 1)) return -1;
  l->flying[number] = payload;
  l->is_flying[number] = 1;
  return 0;
}

/* Processes the reply to the first line that has none yet. */
static inline int live_answered(live *l, const char *answer) {
  char *line = l->posted + l->answered_bytes, *end = strchr(line, '\n');
  const char *next = strstr(answer, "next ");
  size_t bytes = end ? (size_t)(end - line) : 0;
  int status = 0;
  if (end == NULL) return live_fail(l, "a reply without a request", answer);
  *end = 0;
  if (strncmp(answer, "fault ", 6) == 0 || strncmp(answer, "refused ", 8) == 0) {
    if (!l->is_wrong) live_fail(l, answer, line);
    l->is_wrong = 1;
  }
  if (strncmp(answer, "now ", 4) == 0) l->now = strtoull(answer + 4, NULL, 10);
  else if (strncmp(answer, "packet ", 7) == 0) status = live_name(l, strtoull(answer + 7, NULL, 10));
  else if (strstr(line, " inject ")) live_payload(l); /* the packet did not enter the link: a fault, or the experiment is over */
  if (strncmp(answer, "over ", 5) == 0) { l->is_over = 1; l->has_next = 0; l->now = strtoull(answer + 5, NULL, 10); }
  if (next) { l->has_next = next[5] != 'n'; l->next = strtoull(next + 5, NULL, 10); }
  if (l->transcript && line[0] != '#' && strncmp(answer, "fault ", 6) && fprintf(l->transcript, "%s\n", line) < 0)
    status = live_fail(l, "the transcript can't be written", strerror(errno));
  l->dropped_number = UINT64_MAX;
  l->answered_bytes += bytes + 1;
  l->unanswered--;
  return status;
}

#ifdef LIVE_LIBRARY
/* Notes that memory ran out, so the session accepts no more lines. Returns -1. */
static inline int live_lost(live *l) {
  if (!l->is_lost) live_fail(l, "out of memory", "");
  l->is_lost = 1;
  return -1;
}

/* Passes the next posted line to the session, and appends the result to `said`. */
static inline int live_turn(live *l) {
  const char *line = l->posted + l->sent, *end = (const char *)memchr(line, '\n', l->posted_bytes - l->sent);
  size_t bytes = end ? (size_t)(end - line) : 0, room = 65536;
  dnlab_answer answer;
  do {
    if (live_room(l, &l->said, &l->said_room, l->said_bytes + room, 1)) return -1;
    dnlab_take(&l->session, (const uint8_t *)line, bytes, (uint8_t *)l->said + l->said_bytes, l->said_room - l->said_bytes, &answer);
    /* If the room was too small, the line was processed, and the session kept the result: fetch it with an empty line. */
    l->sent += bytes ? bytes + 1 : 0;
    bytes = 0;
    room = (size_t)answer.length;
  } while (answer.status == DNLAB_ROOM);
  if (answer.status != DNLAB_DONE) return live_lost(l);
  l->said_bytes += (size_t)answer.length;
  return 0;
}
#else
/* Notes that the program has ended, and how. Returns -1. */
static inline int live_lost(live *l) {
  char how[60] = "";
  int status = 0;
  if (!l->is_lost && waitpid(l->pid, &status, 0) == l->pid) {
    if (WIFSIGNALED(status)) snprintf(how, sizeof how, "by signal %d", WTERMSIG(status));
    else if (WEXITSTATUS(status) == 127) snprintf(how, sizeof how, "there is no such program");
    else snprintf(how, sizeof how, "with status %d", WEXITSTATUS(status));
    l->is_lost = 1;
    return live_fail(l, "the program has ended", how);
  }
  l->is_lost = 1;
  return -1;
}

/* Sends as many bytes as the socket accepts, and reads the bytes that are available. Waits until it can do one of the two. */
static inline int live_turn(live *l) {
  struct pollfd wanted = {0, 0, 0};
  ssize_t bytes;
  wanted.fd = l->socket;
  wanted.events = (short)(POLLIN | (l->sent < l->posted_bytes ? POLLOUT : 0));
  if (l->sent < l->posted_bytes) {
    bytes = send(l->socket, l->posted + l->sent, l->posted_bytes - l->sent, MSG_NOSIGNAL | MSG_DONTWAIT);
    if (bytes > 0) l->sent += (size_t)bytes;
    else if (bytes < 0 && errno == EPIPE) l->sent = l->posted_bytes; /* its last output is still to be read */
    else if (bytes < 0 && errno != EAGAIN && errno != EWOULDBLOCK && errno != EINTR) return live_fail(l, "write", strerror(errno));
    if (l->sent < l->posted_bytes) {
      if (poll(&wanted, 1, -1) < 0 && errno != EINTR) return live_fail(l, "poll", strerror(errno));
      if (!(wanted.revents & (POLLIN | POLLHUP))) return 0;
    }
  }
  if (live_room(l, &l->said, &l->said_room, l->said_bytes + 65536, 1)) return -1;
  do bytes = recv(l->socket, l->said + l->said_bytes, l->said_room - l->said_bytes, 0);
  while (bytes < 0 && errno == EINTR);
  if (bytes <= 0) return live_lost(l);
  l->said_bytes += (size_t)bytes;
  return 0;
}
#endif

/* Processes the complete lines that were read. */
static inline int live_take(live *l) {
  char *line = l->said, *end = l->said + l->said_bytes, *feed;
  int status = 0;
  while (status == 0 && (feed = (char *)memchr(line, '\n', (size_t)(end - line))) != NULL) {
    *feed = 0;
    if (strncmp(line, "#< ", 3) == 0) status = live_answered(l, line + 3);
    else if (line[0] != '#') status = live_told(l, line);
    line = feed + 1;
  }
  l->said_bytes = (size_t)(end - line);
  if (l->said_bytes) memmove(l->said, line, l->said_bytes);
  return status;
}

/* Sends the posted lines, and reads until each line has its reply. It reads while it sends, so neither side can block the
   other for ever. */
static inline int live_exchange(live *l) {
  if (l->is_lost) return -1;
  l->error[0] = 0;
  l->is_wrong = 0;
  if (l->unanswered) l->round_trips++;
  while (l->unanswered)
    if (live_turn(l) || live_take(l)) { live_lost(l); return -1; }
  l->posted_bytes = l->sent = l->answered_bytes = 0;
  return l->is_wrong ? -1 : 0;
}

/* Appends a line, which has three parts, to the batch. The next exchange sends it. */
static inline int live_post(live *l, const char *begin, const char *middle, const char *rest) {
  size_t bytes = strlen(begin) + strlen(middle) + strlen(rest);
  if (l->is_lost) return -1;
  if (bytes > LIVE_LINE || strchr(middle, '\n') || strchr(rest, '\n')) return live_fail(l, "no line of at most 512 bytes", middle);
  if (live_room(l, &l->posted, &l->posted_room, l->posted_bytes + bytes + 2, 1)) return -1;
  l->posted_bytes += (size_t)sprintf(l->posted + l->posted_bytes, "%s%s%s\n", begin, middle, rest);
  l->unanswered++;
  return l->posted_bytes > LIVE_GATHERED ? live_exchange(l) : 0;
}

/* Starts the experiment, with its seed, the maximum number of packets at the same time (1 to 65535), and the maximum number of
   steps (1 to 10^7). Call it once in a session. */
static inline int live_experiment(live *l, const char *name, uint64_t seed, unsigned budget, unsigned long steps) {
  char rest[120];
  snprintf(rest, sizeof rest, " seed %" PRIu64 " budget %u steps %lu", seed, budget, steps);
  if (live_post(l, "experiment ", name, rest)) return -1;
  if (!l->report && live_post(l, "#> show mine", "", "")) return -1;
  return live_exchange(l);
}

/* Runs a command now. It is written as in a scenario, without its time. */
static inline int live_command(live *l, const char *words) {
  char begin[40];
  snprintf(begin, sizeof begin, "@%" PRIu64 " ", l->now);
  return live_post(l, begin, words, "") ? -1 : live_exchange(l);
}

/* Sends a packet now, with a header like "udp 10.0.0.1 1000 10.0.1.1 2000", a size in bytes, and the payload that its event will
   have. The next call that waits for a reply sends the line and reports its errors. */
static inline int live_send(live *l, const char *header, unsigned size, void *payload) {
  char begin[50], rest[20];
  if (l->is_over) return live_fail(l, "the experiment is over", header);
  if (strlen(header) > 100 || strchr(header, '\n')) return live_fail(l, "not a header", header);
  if (live_room(l, &l->unnamed, &l->unnamed_room, l->unnamed_count + 1, sizeof *l->unnamed)) return -1;
  l->unnamed[l->unnamed_count++] = payload;
  l->sends++;
  snprintf(begin, sizeof begin, "@%" PRIu64 " inject ", l->now);
  snprintf(rest, sizeof rest, " %u", size);
  return live_post(l, begin, header, rest);
}

/* Advances simulated time to a moment (ns). */
static inline int live_until(live *l, uint64_t moment) {
  char begin[50];
  snprintf(begin, sizeof begin, "#> until @%" PRIu64, moment);
  return live_post(l, begin, "", "") ? -1 : live_exchange(l);
}

/* Like live_until, but stops at most `hold` ns (at least 1) after the first delivery or drop of a packet that was sent. */
static inline int live_until_mine(live *l, uint64_t moment, uint64_t hold) {
  char begin[50], rest[40];
  snprintf(begin, sizeof begin, "#> until @%" PRIu64, moment);
  snprintf(rest, sizeof rest, " first %" PRIu64, hold);
  return live_post(l, begin, "", rest) ? -1 : live_exchange(l);
}

/* Sets *moment to the time (ns) of the link's next event, or to UINT64_MAX if there is none. After the first call the replies to
   other lines have that time too, so a call costs no round trip unless packets were sent since the last exchange. */
static inline int live_next(live *l, uint64_t *moment) {
  if (!l->adds_next && live_post(l, "#> next on", "", "")) return -1;
  l->adds_next = 1;
  if (live_exchange(l)) return -1;
  *moment = l->has_next ? l->next : UINT64_MAX;
  return 0;
}

/* Ends the experiment now. */
static inline int live_end(live *l) { return live_command(l, "end"); }

/* Removes all events. */
static inline void live_clear(live *l) { l->count = 0; }

#ifdef LIVE_LIBRARY
/* Ends the session. Returns the status that the program would have: 0, 1 if the experiment has no `end`, or 3 if memory ran
   out. */
static inline int live_leave(live *l) {
  dnlab_answer answer;
  dnlab_close(&l->session, &answer);
  return (int)answer.status;
}
#else
/* Ends the program. Returns its exit status, or -1 if it has none. */
static inline int live_leave(live *l) {
  char rest[4096];
  int ended = 0;
  shutdown(l->socket, SHUT_WR);
  while (recv(l->socket, rest, sizeof rest, 0) > 0) {}
  close(l->socket);
  return !l->is_lost && waitpid(l->pid, &ended, 0) == l->pid && WIFEXITED(ended) ? WEXITSTATUS(ended) : -1;
}
#endif

/* Ends the program, and frees the session. Returns the program's exit status, or -1 if it has none. */
static inline int live_close(live *l) {
  int status;
  if (l == NULL) return -1;
  status = live_leave(l);
  free(l->events);
  free(l->posted);
  free(l->unnamed);
  free(l->flying);
  free(l->is_flying);
  free(l->said);
  free(l);
  return status;
}
#endif
