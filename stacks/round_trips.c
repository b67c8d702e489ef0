/* round_trips DNLAB PACKETS BURST: sends a burst of packets, advances time until all of them have arrived, and repeats this until
   PACKETS have arrived. Prints the time (s) and the number of waits for a reply. */
#define _POSIX_C_SOURCE 200809L
#include "live.h"
#include <time.h>

static void must(live *l, int status) { if (status) { fprintf(stderr, "round_trips: %s\n", live_error(l)); exit(3); } }

int main(int argc, char **argv) {
  struct timespec begin, end;
  unsigned long packets, burst, came = 0, before;
  live *l = argc == 4 ? live_open(argv[1]) : NULL;
  if (l == NULL) { fprintf(stderr, "usage: round_trips DNLAB PACKETS BURST\n"); return 2; }
  packets = strtoul(argv[2], NULL, 10);
  burst = strtoul(argv[3], NULL, 10);
  must(l, live_experiment(l, "round-trips", 1, 5000, 10000000));
  must(l, live_command(l, "pipe 1 config bw 1Gbit/s delay 1 queue 1000"));
  must(l, live_command(l, "add 100 pipe 1 ip from any to any"));
  before = l->round_trips;
  clock_gettime(CLOCK_MONOTONIC, &begin);
  while (came < packets) {
    for (unsigned long i = 0; i < burst; i++) must(l, live_send(l, "udp 10.0.0.1 1 10.0.1.1 2", 1000, l));
    for (unsigned long left = burst; left; ) {
      must(l, live_until_mine(l, LIVE_LATEST, burst == 1 ? 1 : 20000000));
      left -= l->count;
      came += l->count;
      live_clear(l);
    }
  }
  clock_gettime(CLOCK_MONOTONIC, &end);
  printf("%.6f %lu\n", (double)(end.tv_sec - begin.tv_sec) + (double)(end.tv_nsec - begin.tv_nsec) / 1e9, l->round_trips - before);
  must(l, live_end(l));
  return live_close(l);
}
