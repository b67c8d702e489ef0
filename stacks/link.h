/* link.h - code that the programs of this folder share: their options, and the link that the options describe.

   PROGRAM SCENARIO REPORT [NAME=VALUE ..]. The variable DNLAB names the program dnlab (default: `dnlab` on the PATH). The
   transcript is written to SCENARIO and the report to REPORT; `-` writes no file. */
#ifndef LINK_H
#define LINK_H
#include "live.h"
#include <time.h>

typedef struct word { const char *name, *value, *about; } word;

/* The options of the link, which has two pipes: one in the direction of the data (forward), and one back. */
#define LINK_WORDS \
  {"mbytes", "10", "data to transfer, in MB (10^6 bytes)"}, {"bw", "10Mbit/s", "rate of the forward pipe"}, \
  {"delay", "20", "delay in each direction, in ms"}, {"queue", "100 codel", "queue of the forward pipe"}, \
  {"plr", "0", "share of packets that the forward pipe loses"}, \
  {"seed", "1", "seed of the link's random numbers"}, {"reno", "0", "1: add a built-in Reno flow in the same direction"}, \
  {"trace", "0", "1: report when each packet is created and arrives, as tools/pcap needs"}, \
  {"hold", "1", "time in ns for which deliveries are collected (a network card's coalescing)"}

static inline void stop(int status, const char *what, const char *more) {
  fprintf(stderr, "%s%s%s\n", what, more[0] ? ": " : "", more);
  exit(status);
}

static inline const char *value_of(const word *words, const char *name) {
  for (; words->name; words++) if (strcmp(words->name, name) == 0) return words->value;
  return "";
}

static inline void usage(const char *program, const word *words) {
  fprintf(stderr, "usage: %s SCENARIO REPORT [NAME=VALUE ..]   (- writes no file; DNLAB names the program dnlab)\n", program);
  for (; words->name; words++) fprintf(stderr, "  %s=%s  %s\n", words->name, words->value, words->about);
  exit(2);
}

/* Sets the options from the arguments NAME=VALUE, from the third argument on. Exits with 2 after an unknown option. */
static inline void take_words(int argc, char **argv, word *words) {
  if (argc < 3) usage(argv[0], words);
  for (int i = 3; i < argc; i++) {
    char *sign = strchr(argv[i], '=');
    word *it = words;
    while (it->name && !(sign && strlen(it->name) == (size_t)(sign - argv[i]) && strncmp(it->name, argv[i], strlen(it->name)) == 0)) it++;
    if (!it->name) { fprintf(stderr, "%s: no such option: %s\n", argv[0], argv[i]); usage(argv[0], words); }
    it->value = sign + 1;
  }
}

static inline FILE *file_of(const char *name) {
  FILE *file = NULL;
  if (strcmp(name, "-") && (file = fopen(name, "w")) == NULL) stop(3, name, strerror(errno));
  return file;
}

/* Exits with an error message if a call of live.h failed. */
static inline void must(live *l, int status) { if (status) stop(l->is_lost ? 3 : 2, "link", live_error(l)); }

/* Creates the link that the arguments describe: pipe 1 from 10.0.0.0/24 to 10.0.1.0/24, and pipe 2 back. */
static inline live *link_of(char **argv, const char *name, const word *words) {
  char line[400];
  const char *program = getenv("DNLAB");
  live *l = live_open(program && program[0] ? program : "dnlab");
  if (l == NULL) stop(3, "dnlab", strerror(errno));
  l->transcript = file_of(argv[1]);
  l->report = file_of(argv[2]);
  must(l, live_experiment(l, name, strtoull(value_of(words, "seed"), NULL, 10), 5000, 10000000));
  if (strcmp(value_of(words, "trace"), "1") == 0) must(l, live_command(l, "trace 1"));
  snprintf(line, sizeof line, "pipe 1 config bw %.50s delay %.50s queue %.50s plr %.50s", value_of(words, "bw"), value_of(words, "delay"),
           value_of(words, "queue"), value_of(words, "plr"));
  must(l, live_command(l, line));
  snprintf(line, sizeof line, "pipe 2 config delay %.50s", value_of(words, "delay"));
  must(l, live_command(l, line));
  must(l, live_command(l, "add 100 pipe 1 ip from 10.0.0.0/24 to 10.0.1.0/24"));
  must(l, live_command(l, "add 200 pipe 2 ip from 10.0.1.0/24 to 10.0.0.0/24"));
  if (strcmp(value_of(words, "reno"), "1") == 0)
    must(l, live_command(l, "flow 1 10.0.0.1 1000 10.0.1.1 80 smss 1460 segments 1000000 rto adaptive"));
  return l;
}

/* A datagram that is sent over the link. Its bytes stay in this program. */
typedef struct datagram { void *to; size_t bytes; uint8_t data[1500]; } datagram;

/* Sends a datagram over the link, with 28 bytes of IPv4 and UDP headers. Returns 1, or 0 if it is larger than the MTU of 1500
   bytes (sendto fails with EMSGSIZE then). */
static inline int send_datagram(live *l, const char *header, void *to, const uint8_t *data, size_t bytes) {
  datagram *it;
  if (bytes + 28 > 1500) return 0;
  if ((it = (datagram *)malloc(sizeof *it)) == NULL) stop(3, "out of memory", "");
  it->to = to;
  it->bytes = bytes;
  memcpy(it->data, data, bytes);
  must(l, live_send(l, header, (unsigned)(bytes + 28 < 40 ? 40 : bytes + 28), it));
  return 1;
}

static inline double seconds_since(const struct timespec *begin) {
  struct timespec now;
  clock_gettime(CLOCK_MONOTONIC, &now);
  return (double)(now.tv_sec - begin->tv_sec) + (double)(now.tv_nsec - begin->tv_nsec) / 1e9;
}

/* Ends the experiment, prints its counters, and closes the files. */
static inline void close_link(live *l, const struct timespec *begin) {
  must(l, live_end(l));
  printf("link: %s (made, delivered, held; dropped: denied, nopipe, noinstance, lost, full, codel, deleted, budget)\n", l->counters);
  fprintf(stderr, "%lu packets, %lu round trips, %.2f s of real time\n", l->sends, l->round_trips, seconds_since(begin));
  if ((l->transcript && fclose(l->transcript)) || (l->report && fclose(l->report))) stop(3, "a file can't be written", strerror(errno));
  if (live_close(l)) stop(3, "dnlab ended with an error", "");
}
#endif
