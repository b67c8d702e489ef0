/* A sender of one's own over a link, in this process by libdnlab: its next packet goes out when the one before has come.
 *
 *   cc session.c $(pkg-config --cflags --libs dnlab) -o session
 *   ./session
 */
#include <dnlab.h>
#include <stdio.h>
#include <stdlib.h>
#include <string.h>

static uint8_t room[1 << 16];

/* Has the session take a line, and gives what it says, as a text; it ends the program where that can't be. */
static const char *say(dnlab_session *session, const char *line) {
  dnlab_answer answer;
  dnlab_take(session, (const uint8_t *)line, strlen(line), room, sizeof room - 1, &answer);
  if (answer.status != DNLAB_DONE) {
    fprintf(stderr, "status %u\n", answer.status);
    exit(3);
  }
  room[answer.length] = 0;
  if (strstr((char *)room, "#< fault") || strstr((char *)room, "#< refused")) {
    fprintf(stderr, "%s\n%s", line, (char *)room);
    exit(1);
  }
  return (char *)room;
}

/* The number behind a word of an answer. */
static unsigned long long number(const char *said, const char *word) {
  const char *found = strstr(said, word);
  return found ? strtoull(found + strlen(word), NULL, 10) : 0;
}

int main(void) {
  dnlab_session session = {NULL};
  dnlab_answer answer;
  char line[128];
  unsigned long long now = 0;
  dnlab_open(&session, &answer);
  if (answer.status != DNLAB_DONE) return 3;
  say(&session, "experiment mine seed 1 budget 10");
  say(&session, "@0 pipe 1 config bw 1Mbit/s delay 10");
  say(&session, "@0 add 100 pipe 1 ip from any to any");
  for (int k = 0; k < 3; k++) {
    snprintf(line, sizeof line, "@%llu inject udp 10.0.0.1 1000 10.0.1.1 2000 1000", now);
    unsigned long long packet = number(say(&session, line), "#< packet ");
    now = number(say(&session, "#> until @1000000000 first"), "#< now ");
    /* 8 ms in service and 10 ms of delay, and 1 ns until the sender can react. */
    printf("packet %llu: %llu\n", packet, now);
  }
  snprintf(line, sizeof line, "@%llu end", now);
  say(&session, line);
  dnlab_close(&session, &answer);
  return answer.status != DNLAB_DONE;
}
