/* Runs the scenario of standard input by libdnlab, and writes its report, as `dnlab alone` does.
 *
 *   cc report.c $(pkg-config --cflags --libs dnlab) -o report
 *   ./report < scenario.txt
 */
#include <dnlab.h>
#include <stdio.h>
#include <stdlib.h>

/* All of standard input; NULL where it can't be read or there is no memory for it. */
static uint8_t *read_all(size_t *length) {
  size_t room = 1 << 16;
  uint8_t *text = malloc(room);
  *length = 0;
  while (text) {
    size_t got = fread(text + *length, 1, room - *length, stdin);
    *length += got;
    if (got == 0) {
      if (!ferror(stdin)) return text;
      break;
    }
    if (*length == room) {
      uint8_t *larger = realloc(text, room *= 2);
      if (!larger) break;
      text = larger;
    }
  }
  free(text);
  return NULL;
}

int main(void) {
  size_t length, size = 1 << 16;
  uint8_t *text = read_all(&length), *room = malloc(size);
  if (!text || !room) return 3;
  dnlab_answer answer;
  dnlab_alone(text, length, room, size, &answer);
  if (answer.status == DNLAB_ROOM) {
    /* The answer says how much is wanted; the second call gives the same bytes. */
    size = answer.length;
    free(room);
    room = malloc(size);
    if (!room) return 3;
    dnlab_alone(text, length, room, size, &answer);
  }
  if (answer.status == DNLAB_DONE) {
    if (fwrite(room, 1, answer.length, stdout) != answer.length || fflush(stdout)) return 3;
  } else if (answer.status == DNLAB_FAULT) {
    fprintf(stderr, "line %llu: cause %u (dnlab.h names it)\n", (unsigned long long)answer.line, answer.cause);
  } else {
    fputs("memory\n", stderr);
  }
  free(text);
  free(room);
  return (int)answer.status;
}
