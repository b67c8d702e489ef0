/* Transfers bulk data over QUIC (ngtcp2, GnuTLS), over a link of dnlab. Client and server are in this program (README.md). */
#define _POSIX_C_SOURCE 200809L
#include "../link.h"
#include <arpa/inet.h>
#include <gnutls/gnutls.h>
#include <gnutls/x509.h>
#include <ngtcp2/ngtcp2.h>
#include <ngtcp2/ngtcp2_crypto.h>
#include <ngtcp2/ngtcp2_crypto_gnutls.h>
#include <stdarg.h>

#define LAST (UINT64_C(600) * NGTCP2_SECONDS) /* the transfer fails if it is not done by then (ns) */
#define MOST_PAYLOAD 1472

typedef struct end {
  const char *name, *header;
  struct end *peer;
  int is_server;
  ngtcp2_conn *conn;
  gnutls_session_t tls;
  ngtcp2_crypto_conn_ref ref;
  struct sockaddr_in local, remote;
  ngtcp2_path path;
  int64_t stream;
  uint64_t written, acked, received;
  int is_fin_sent, is_shaken;
  uint64_t datagrams, bytes, lost, dropped, too_big;
} end;

static live *l;
static end client = {.name = "client", .header = "udp 10.0.0.7 4000 10.0.1.7 443", .stream = -1};
static end server = {.name = "server", .header = "udp 10.0.1.7 443 10.0.0.7 4000", .is_server = 1, .stream = -1};
static uint64_t total, finished_at, shaken_at, random_state = UINT64_C(88172645463325252);
static gnutls_certificate_credentials_t credentials;
static ngtcp2_cc_algo algorithm;
static uint8_t zeros[65536];

static void check(const char *what, int code) { if (code) stop(4, what, ngtcp2_strerror(code)); }
static void check_tls(const char *what, int code) { if (code < 0) stop(4, what, gnutls_strerror(code)); }

/* Fills a buffer with the stack's random bytes, by a xorshift generator with a fixed seed, so that two runs are equal. */
static void fill(uint8_t *to, size_t bytes) {
  for (size_t i = 0; i < bytes; i++) {
    random_state ^= random_state << 13; random_state ^= random_state >> 7; random_state ^= random_state << 17;
    to[i] = (uint8_t)(random_state >> 24);
  }
}

static void on_rand(uint8_t *to, size_t bytes, const ngtcp2_rand_ctx *ctx) { (void)ctx; fill(to, bytes); }

static int on_new_id(ngtcp2_conn *c, ngtcp2_cid *id, uint8_t *token, size_t bytes, void *user) {
  (void)c; (void)user;
  id->datalen = bytes;
  fill(id->data, bytes);
  fill(token, NGTCP2_STATELESS_RESET_TOKENLEN);
  return 0;
}

static int on_data(ngtcp2_conn *c, uint32_t flags, int64_t id, uint64_t offset, const uint8_t *data, size_t bytes, void *user, void *s) {
  end *e = user;
  (void)offset; (void)data; (void)s;
  e->received += bytes;
  ngtcp2_conn_extend_max_stream_offset(c, id, bytes);
  ngtcp2_conn_extend_max_offset(c, bytes);
  if (flags & NGTCP2_STREAM_DATA_FLAG_FIN && !finished_at) finished_at = l->now;
  return 0;
}

static int on_acked(ngtcp2_conn *c, int64_t id, uint64_t offset, uint64_t bytes, void *user, void *s) {
  (void)c; (void)id; (void)offset; (void)s;
  ((end *)user)->acked += bytes;
  return 0;
}

static int on_handshake(ngtcp2_conn *c, void *user) {
  end *e = user;
  (void)c;
  e->is_shaken = 1;
  if (!e->is_server) shaken_at = l->now;
  return 0;
}

/* Counts the packets that ngtcp2 declares lost. Only its log has them. */
static void on_log(void *user, const char *form, ...) {
  char line[1000];
  va_list words;
  va_start(words, form);
  vsnprintf(line, sizeof line, form, words);
  va_end(words);
  if (strstr(line, " lost type=")) ((end *)user)->lost++;
}

static ngtcp2_conn *conn_of(ngtcp2_crypto_conn_ref *ref) { return ((end *)ref->user_data)->conn; }

static void set_callbacks(ngtcp2_callbacks *cb) {
  memset(cb, 0, sizeof *cb);
  cb->client_initial = ngtcp2_crypto_client_initial_cb;
  cb->recv_client_initial = ngtcp2_crypto_recv_client_initial_cb;
  cb->recv_crypto_data = ngtcp2_crypto_recv_crypto_data_cb;
  cb->encrypt = ngtcp2_crypto_encrypt_cb;
  cb->decrypt = ngtcp2_crypto_decrypt_cb;
  cb->hp_mask = ngtcp2_crypto_hp_mask_cb;
  cb->recv_retry = ngtcp2_crypto_recv_retry_cb;
  cb->update_key = ngtcp2_crypto_update_key_cb;
  cb->delete_crypto_aead_ctx = ngtcp2_crypto_delete_crypto_aead_ctx_cb;
  cb->delete_crypto_cipher_ctx = ngtcp2_crypto_delete_crypto_cipher_ctx_cb;
  cb->get_path_challenge_data = ngtcp2_crypto_get_path_challenge_data_cb;
  cb->version_negotiation = ngtcp2_crypto_version_negotiation_cb;
  cb->rand = on_rand;
  cb->get_new_connection_id = on_new_id;
  cb->recv_stream_data = on_data;
  cb->acked_stream_data_offset = on_acked;
  cb->handshake_completed = on_handshake;
}

static void set(end *e, ngtcp2_callbacks *cb, ngtcp2_settings *s, ngtcp2_transport_params *p) {
  set_callbacks(cb);
  ngtcp2_settings_default(s);
  s->initial_ts = l->now;
  s->cc_algo = algorithm;
  s->max_tx_udp_payload_size = MOST_PAYLOAD;
  s->log_printf = on_log;
  ngtcp2_transport_params_default(p);
  p->initial_max_stream_data_bidi_local = p->initial_max_stream_data_bidi_remote = p->initial_max_stream_data_uni = 16 << 20;
  p->initial_max_data = 16 << 20;
  p->initial_max_streams_bidi = p->initial_max_streams_uni = 10;
  p->max_idle_timeout = 30 * NGTCP2_SECONDS;
  e->ref.get_conn = conn_of;
  e->ref.user_data = e;
  e->path.local.addr = (struct sockaddr *)&e->local; e->path.local.addrlen = sizeof e->local;
  e->path.remote.addr = (struct sockaddr *)&e->remote; e->path.remote.addrlen = sizeof e->remote;
}

static void secure(end *e) {
  static const gnutls_datum_t alpn = {(unsigned char *)"live", 4};
  check_tls("tls", gnutls_init(&e->tls, (e->is_server ? GNUTLS_SERVER : GNUTLS_CLIENT) | GNUTLS_ENABLE_EARLY_DATA | GNUTLS_NO_END_OF_EARLY_DATA));
  check_tls("priority", gnutls_priority_set_direct(e->tls,
    "NORMAL:-VERS-ALL:+VERS-TLS1.3:-CIPHER-ALL:+AES-128-GCM:-GROUP-ALL:+GROUP-X25519:%DISABLE_TLS13_COMPAT_MODE", NULL));
  check("tls", e->is_server ? ngtcp2_crypto_gnutls_configure_server_session(e->tls) : ngtcp2_crypto_gnutls_configure_client_session(e->tls));
  gnutls_session_set_ptr(e->tls, &e->ref);
  check_tls("credentials", gnutls_credentials_set(e->tls, GNUTLS_CRD_CERTIFICATE, credentials));
  check_tls("alpn", gnutls_alpn_set_protocols(e->tls, &alpn, 1, GNUTLS_ALPN_MANDATORY));
  if (!e->is_server) check_tls("name", gnutls_server_name_set(e->tls, GNUTLS_NAME_DNS, "live", 4));
  ngtcp2_conn_set_tls_native_handle(e->conn, e->tls);
}

/* Makes a self-signed certificate with Ed25519. Its signatures all have the same length, so sizes don't depend on the key. */
static void certify(void) {
  gnutls_x509_privkey_t key;
  gnutls_x509_crt_t certificate;
  check_tls("tls", gnutls_global_init());
  check_tls("key", gnutls_x509_privkey_init(&key));
  check_tls("key", gnutls_x509_privkey_generate(key, GNUTLS_PK_EDDSA_ED25519, 0, 0));
  check_tls("certificate", gnutls_x509_crt_init(&certificate));
  gnutls_x509_crt_set_version(certificate, 3);
  gnutls_x509_crt_set_serial(certificate, "\x01", 1);
  gnutls_x509_crt_set_activation_time(certificate, 0);
  gnutls_x509_crt_set_expiration_time(certificate, 2000000000);
  gnutls_x509_crt_set_dn(certificate, "CN=live", NULL);
  gnutls_x509_crt_set_key(certificate, key);
  check_tls("certificate", gnutls_x509_crt_sign2(certificate, certificate, key, GNUTLS_DIG_SHA512, 0));
  check_tls("credentials", gnutls_certificate_allocate_credentials(&credentials));
  check_tls("credentials", gnutls_certificate_set_x509_key(credentials, &certificate, 1, key));
  gnutls_x509_crt_deinit(certificate);
  gnutls_x509_privkey_deinit(key);
}

static void start_client(void) {
  ngtcp2_callbacks cb; ngtcp2_settings s; ngtcp2_transport_params p; ngtcp2_cid theirs, ours;
  set(&client, &cb, &s, &p);
  theirs.datalen = 18; fill(theirs.data, 18);
  ours.datalen = 17; fill(ours.data, 17);
  check("client", ngtcp2_conn_client_new(&client.conn, &theirs, &ours, &client.path, NGTCP2_PROTO_VER_V1, &cb, &s, &p, NULL, &client));
  secure(&client);
}

static void start_server(const datagram *d) {
  ngtcp2_callbacks cb; ngtcp2_settings s; ngtcp2_transport_params p; ngtcp2_cid ours; ngtcp2_pkt_hd header;
  check("accept", ngtcp2_accept(&header, d->data, d->bytes));
  set(&server, &cb, &s, &p);
  p.original_dcid = header.dcid;
  ours.datalen = 18; fill(ours.data, 18);
  check("server", ngtcp2_conn_server_new(&server.conn, &header.scid, &ours, &server.path, header.version, &cb, &s, &p, NULL, &server));
  secure(&server);
}

/* Writes the next datagram of an end into a buffer. Returns its size in bytes, or 0 if the end has nothing to send now. */
static size_t say(end *e, uint8_t *to) {
  ngtcp2_pkt_info info;
  ngtcp2_ssize bytes, taken = -1;
  uint64_t left = total - e->written;
  int sends = !e->is_server && e->stream >= 0 && !e->is_fin_sent;
  ngtcp2_vec data = {zeros, left < sizeof zeros ? (size_t)left : sizeof zeros};
  uint32_t flags = sends && left <= sizeof zeros ? NGTCP2_WRITE_STREAM_FLAG_FIN : 0;
  bytes = ngtcp2_conn_writev_stream(e->conn, NULL, &info, to, MOST_PAYLOAD, &taken, flags, sends ? e->stream : -1, &data, sends ? 1 : 0, l->now);
  if (bytes == NGTCP2_ERR_STREAM_DATA_BLOCKED || bytes == NGTCP2_ERR_STREAM_SHUT_WR) {
    bytes = ngtcp2_conn_writev_stream(e->conn, NULL, &info, to, MOST_PAYLOAD, &taken, 0, -1, NULL, 0, l->now);
    taken = -1;
  }
  if (bytes < 0) check("write", (int)bytes);
  if (taken > 0) e->written += (uint64_t)taken;
  if (taken >= 0 && flags && e->written == total) e->is_fin_sent = 1;
  return (size_t)bytes;
}

static void say_all(end *e) {
  uint8_t said[1500];
  size_t bytes;
  if (!e->conn) return;
  if (!e->is_server && e->stream < 0 && e->is_shaken && ngtcp2_conn_open_bidi_stream(e->conn, &e->stream, NULL)) e->stream = -1;
  while ((bytes = say(e, said)) > 0) {
    e->datagrams++;
    e->bytes += bytes;
    if (!send_datagram(l, e->header, e->peer, said, bytes)) e->too_big++;
  }
  ngtcp2_conn_update_pkt_tx_time(e->conn, l->now);
}

static void receive(end *e, const datagram *d) {
  ngtcp2_pkt_info info = {0};
  if (!e->conn) start_server(d);
  check("read", ngtcp2_conn_read_pkt(e->conn, &e->path, &info, d->data, d->bytes, l->now));
}

static uint64_t expiry(const end *e) { return e->conn ? ngtcp2_conn_get_expiry(e->conn) : UINT64_MAX; }

static void expire(end *e) { if (expiry(e) <= l->now) check("expiry", ngtcp2_conn_handle_expiry(e->conn, l->now)); }

static void address(end *e, const char *mine, int port, const char *theirs, int their_port) {
  e->local.sin_family = e->remote.sin_family = AF_INET;
  e->local.sin_port = htons((uint16_t)port);
  e->remote.sin_port = htons((uint16_t)their_port);
  inet_pton(AF_INET, mine, &e->local.sin_addr);
  inet_pton(AF_INET, theirs, &e->remote.sin_addr);
}

/* Lets both ends send, then advances time to the first delivery, drop or timer, until all data is acknowledged. */
static void transfer(uint64_t hold) {
  while (!l->is_over && l->now < LAST && !(finished_at && client.acked >= total)) {
    uint64_t due;
    say_all(&client);
    say_all(&server);
    due = expiry(&client) < expiry(&server) ? expiry(&client) : expiry(&server);
    if (due > l->now) must(l, live_until_mine(l, due < LAST ? due : LAST, hold));
    for (size_t i = 0; i < l->count; i++) {
      datagram *d = l->events[i].payload;
      end *to = d->to;
      if (l->events[i].cause[0]) to->peer->dropped++; else receive(to, d);
      free(d);
    }
    live_clear(l);
    expire(&client);
    expire(&server);
  }
}

static void tell(void) {
  ngtcp2_conn_stat st;
  ngtcp2_conn_get_conn_stat(client.conn, &st);
  printf("quic: handshake %.1f ms, %" PRIu64 " bytes in %.3f s: %.2f Mbit/s\n", (double)shaken_at / 1e6, server.received,
         (double)(finished_at - shaken_at) / 1e9, (double)server.received * 8e3 / (double)(finished_at - shaken_at));
  printf("client: %" PRIu64 " datagrams, %" PRIu64 " bytes, %" PRIu64 " dropped by the link, %" PRIu64 " declared lost, %" PRIu64 " too big; "
         "server: %" PRIu64 " datagrams, %" PRIu64 " dropped\n", client.datagrams, client.bytes, client.dropped, client.lost, client.too_big,
         server.datagrams, server.dropped);
  printf("srtt %.2f ms, minimum rtt %.2f ms, window %" PRIu64 " bytes\n", (double)st.smoothed_rtt / 1e6, (double)st.min_rtt / 1e6, (uint64_t)st.cwnd);
}

int main(int argc, char **argv) {
  word words[] = {LINK_WORDS, {"cc", "cubic", "congestion control: cubic, reno or bbr"}, {NULL, NULL, NULL}};
  struct timespec begin;
  const char *cc;
  clock_gettime(CLOCK_MONOTONIC, &begin);
  take_words(argc, argv, words);
  cc = value_of(words, "cc");
  total = (uint64_t)(atof(value_of(words, "mbytes")) * 1e6);
  if (total == 0) stop(2, "mbytes is not a positive number", value_of(words, "mbytes"));
  if (strcmp(cc, "cubic") == 0) algorithm = NGTCP2_CC_ALGO_CUBIC;
  else if (strcmp(cc, "reno") == 0) algorithm = NGTCP2_CC_ALGO_RENO;
  else if (strcmp(cc, "bbr") == 0) algorithm = NGTCP2_CC_ALGO_BBR;
  else stop(2, "cc must be cubic, reno or bbr, not", cc);
  client.peer = &server; server.peer = &client;
  l = link_of(argv, "quic", words);
  address(&client, "10.0.0.7", 4000, "10.0.1.7", 443);
  address(&server, "10.0.1.7", 443, "10.0.0.7", 4000);
  certify();
  start_client();
  transfer(strtoull(value_of(words, "hold"), NULL, 10));
  if (!finished_at) stop(1, "the transfer didn't end", l->is_over ? "the experiment's steps ran out" : "600 s of simulated time are over");
  tell();
  close_link(l, &begin);
  return 0;
}
