/* Transfers bulk data over SCTP (usrsctp, FreeBSD's stack in user space), over a link of dnlab. Client and server are in this
   program (README.md). */
#define _DEFAULT_SOURCE
#include "../link.h"
#include <sys/time.h>
#include <usrsctp.h>

#define LAST UINT64_C(600000000000) /* the transfer fails if it is not done by then (ns) */
#define TICK UINT64_C(10000000)     /* the stack's timers run every 10 ms */

typedef struct side { const char *header; struct side *peer; unsigned long datagrams, dropped, too_big; } side;

static live *l;
static side client = {.header = "udp 10.0.0.7 9899 10.0.1.7 9899"}, server = {.header = "udp 10.0.1.7 9899 10.0.0.7 9899"};
static struct socket *listening, *sending, *receiving;
static uint64_t total, written, received, accepted_at, finished_at, ticked;

/* Returns the link's time to the stack. This function replaces the one of the C library. */
int gettimeofday(struct timeval *restrict time, void *restrict zone) {
  uint64_t now = UINT64_C(1000000000) * UINT64_C(1000000000) + (l ? l->now : 0);
  (void)zone;
  time->tv_sec = (time_t)(now / 1000000000u);
  time->tv_usec = (suseconds_t)(now % 1000000000u / 1000u);
  return 0;
}

static int on_output(void *from, void *data, size_t bytes, uint8_t tos, uint8_t df) {
  side *it = from;
  (void)tos; (void)df;
  it->datagrams++;
  if (!send_datagram(l, it->header, it->peer, data, bytes)) it->too_big++;
  return 0;
}

static void check(const char *what, int code) { if (code) stop(4, what, strerror(errno)); }

static struct socket *socket_of(side *it, int port) {
  struct sockaddr_conn address = {.sconn_family = AF_CONN, .sconn_port = htons((uint16_t)port), .sconn_addr = it};
  /* Heartbeats are off, because their times are random. Path MTU discovery is off too, because the MTU is known. */
  struct sctp_paddrparams path = {.spp_flags = SPP_PMTUD_DISABLE | SPP_HB_DISABLE, .spp_pathmtu = 1400};
  int on = 1, room = 4 << 20;
  struct socket *s = usrsctp_socket(AF_CONN, SOCK_STREAM, IPPROTO_SCTP, NULL, NULL, 0, NULL);
  if (s == NULL) check("socket", -1);
  check("bind", usrsctp_bind(s, (struct sockaddr *)&address, sizeof address));
  check("socket", usrsctp_set_non_blocking(s, 1));
  check("nodelay", usrsctp_setsockopt(s, IPPROTO_SCTP, SCTP_NODELAY, &on, sizeof on));
  check("sndbuf", usrsctp_setsockopt(s, SOL_SOCKET, SO_SNDBUF, &room, sizeof room));
  check("rcvbuf", usrsctp_setsockopt(s, SOL_SOCKET, SO_RCVBUF, &room, sizeof room));
  check("path", usrsctp_setsockopt(s, IPPROTO_SCTP, SCTP_PEER_ADDR_PARAMS, &path, sizeof path));
  return s;
}

static void start(void) {
  struct sockaddr_conn there = {.sconn_family = AF_CONN, .sconn_port = htons(5001), .sconn_addr = &client};
  client.peer = &server;
  server.peer = &client;
  usrsctp_init_nothreads(0, on_output, NULL);
  usrsctp_sysctl_set_sctp_ecn_enable(0);
  usrsctp_enable_crc32c_offload();
  usrsctp_register_address(&client);
  usrsctp_register_address(&server);
  listening = socket_of(&server, 5001);
  sending = socket_of(&client, 5000);
  check("listen", usrsctp_listen(listening, 1));
  if (usrsctp_connect(sending, (struct sockaddr *)&there, sizeof there) && errno != EINPROGRESS) check("connect", -1);
}

static void send_all(void) {
  static uint8_t zeros[1300];
  while (written < total) {
    struct sctp_sndinfo info = {0};
    size_t bytes = total - written < sizeof zeros ? (size_t)(total - written) : sizeof zeros;
    ssize_t taken = usrsctp_sendv(sending, zeros, bytes, NULL, 0, &info, sizeof info, SCTP_SENDV_SNDINFO, 0);
    if (taken < 0) return;
    written += (uint64_t)taken;
  }
}

static void receive_all(void) {
  static uint8_t data[65536];
  for (;;) {
    struct sockaddr_storage from;
    struct sctp_rcvinfo info;
    socklen_t from_bytes = sizeof from, info_bytes = sizeof info;
    unsigned kind;
    int flags = 0;
    ssize_t bytes = usrsctp_recvv(receiving, data, sizeof data, (struct sockaddr *)&from, &from_bytes, &info, &info_bytes, &kind, &flags);
    if (bytes <= 0) break;
    if (!(flags & MSG_NOTIFICATION)) received += (uint64_t)bytes;
  }
  if (received >= total) finished_at = l->now;
}

/* Lets both ends send and receive, then advances time to the first delivery, drop or tick, until all data has arrived. */
static void transfer(uint64_t hold) {
  while (!l->is_over && l->now < LAST && !finished_at) {
    if (!receiving && (receiving = usrsctp_accept(listening, NULL, NULL)) != NULL) {
      usrsctp_set_non_blocking(receiving, 1);
      accepted_at = l->now;
    }
    if (receiving) { send_all(); receive_all(); }
    if (finished_at) return;
    must(l, live_until_mine(l, ticked + TICK, hold));
    for (size_t i = 0; i < l->count; i++) {
      datagram *d = l->events[i].payload;
      side *to = d->to;
      if (l->events[i].cause[0]) to->peer->dropped++; else usrsctp_conninput(to, d->data, d->bytes, 0);
      free(d);
    }
    live_clear(l);
    while (l->now >= ticked + TICK) { ticked += TICK; usrsctp_handle_timers(10); }
  }
}

static void tell(void) {
  struct sctpstat st;
  usrsctp_get_stat(&st);
  printf("sctp: accepted at %.1f ms, %" PRIu64 " bytes in %.3f s: %.2f Mbit/s\n", (double)accepted_at / 1e6, received,
         (double)(finished_at - accepted_at) / 1e9, (double)received * 8e3 / (double)(finished_at - accepted_at));
  printf("client: %lu datagrams, %lu dropped by the link, %u chunks sent again, %u timeouts, %lu too big; server: %lu datagrams, %lu dropped\n",
         client.datagrams, client.dropped, st.sctps_sendretransdata, st.sctps_timodata, client.too_big, server.datagrams, server.dropped);
}

int main(int argc, char **argv) {
  word words[] = {LINK_WORDS, {NULL, NULL, NULL}};
  struct timespec begin;
  clock_gettime(CLOCK_MONOTONIC, &begin);
  take_words(argc, argv, words);
  total = (uint64_t)(atof(value_of(words, "mbytes")) * 1e6);
  if (total == 0) stop(2, "mbytes is not a positive number", value_of(words, "mbytes"));
  l = link_of(argv, "sctp", words);
  start();
  transfer(strtoull(value_of(words, "hold"), NULL, 10));
  if (!finished_at) stop(1, "the transfer didn't end", l->is_over ? "the experiment's steps ran out" : "600 s of simulated time are over");
  tell();
  close_link(l, &begin);
  return 0;
}
