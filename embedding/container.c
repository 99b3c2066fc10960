/* Documents in a container of the program's own: the five functions on a file are this program's, and what a session is opened with is a
   number of its own. */
#include "geosvm.h"
#include <stdio.h>
#include <stdlib.h>
#include <string.h>

enum { DOCUMENTS = 8, MOST = 1 << 20 };
static struct {
  uint8_t *bytes;
  int64_t size;
  int calls; /* how many calls go well before all fail; -1: all go well */
} container[DOCUMENTS];

/* Whether a call fails. */
static int is_bad(int32_t number) {
  if (number < 0 || number >= DOCUMENTS) return 1;
  if (container[number].calls > 0) container[number].calls--;
  return container[number].calls == 0;
}

int64_t geosvm_io_read(int32_t number, void *buffer, size_t size, int64_t at) {
  if (is_bad(number) || at < 0) return -1;
  if (at >= container[number].size) return 0;
  if (size > (size_t)(container[number].size - at)) size = (size_t)(container[number].size - at);
  memcpy(buffer, container[number].bytes + at, size);
  return (int64_t)size;
}
/* It takes 100 bytes at most: the library carries on. */
int64_t geosvm_io_write(int32_t number, const void *bytes, size_t size, int64_t at) {
  if (size > 100) size = 100;
  if (is_bad(number) || at < 0 || at > MOST || size > (size_t)(MOST - at)) return -1;
  memcpy(container[number].bytes + at, bytes, size);
  if (at + (int64_t)size > container[number].size) container[number].size = at + (int64_t)size;
  return (int64_t)size;
}
int64_t geosvm_io_len(int32_t number) { return is_bad(number) ? -1 : container[number].size; }
int32_t geosvm_io_set_len(int32_t number, int64_t size) {
  if (is_bad(number) || size < 0 || size > MOST) return -1;
  if (size < container[number].size) memset(container[number].bytes + size, 0, (size_t)(container[number].size - size));
  container[number].size = size;
  return 0;
}
int32_t geosvm_io_sync(int32_t number) { return is_bad(number) ? -1 : 0; }

static void show(geosvm_session *s, const char *line) {
  uint8_t reply[256];
  size_t n = 0;
  int32_t code = geosvm_command(s, (const uint8_t *)line, strlen(line), reply, sizeof reply, &n);
  printf("%-24s %d %.*s", line, code, (int)n, (char *)reply);
}
/* Saves another number each time, while the calls of a save from one on fail, a later one each time, until a save goes well. After each
   try the document opens, and has that number or the one before. */
static void fail_each_call(geosvm_session *s, int32_t number) {
  uint8_t bytes[3];
  size_t n = 0;
  int before = -1, tries = 0;
  int32_t code = GEOSVM_FILE;
  for (; code == GEOSVM_FILE; tries++) {
    char line[32];
    snprintf(line, sizeof line, "vwrite 0001 0 %06x", (unsigned)tries);
    if (geosvm_open(s, number, 8) != 0 || geosvm_command(s, (const uint8_t *)line, strlen(line), bytes, 3, &n) != 0) break;
    container[number].calls = tries + 1;
    code = geosvm_save(s);
    container[number].calls = -1;
    geosvm_close(s);
    if (geosvm_open(s, number, 8) != 0 || geosvm_vread(s, 1, bytes, 3, &n) != 0) break;
    int now = bytes[0] << 16 | bytes[1] << 8 | bytes[2];
    if (now != tries && (code == 0 || (before >= 0 && now != before))) break;
    before = now;
    geosvm_close(s);
  }
  printf("a save by %d calls: %d, and %s\n", tries - 1, code, before == tries - 1 ? "it is there" : "something else is");
}
int main(void) {
  geosvm_session s[DOCUMENTS];
  for (int i = 0; i < DOCUMENTS; i++) {
    s[i] = GEOSVM_CLOSED;
    container[i].calls = -1;
    container[i].bytes = calloc(1, MOST);
    printf("create %d: %d\n", i, geosvm_create(&s[i], i, 8));
  }
  show(&s[3], "newraw 1 3");
  show(&s[3], "vwrite 0001 0 616263");
  printf("save: %d\n", geosvm_save(&s[3]));
  printf("close: %d\n", geosvm_close(&s[3]));
  printf("open again: %d\n", geosvm_open(&s[3], 3, 8));
  show(&s[3], "vread 0001");
  container[3].calls = 0;
  show(&s[3], "vwrite 0001 0 646566");
  printf("save where the container fails: %d\n", geosvm_save(&s[3]));
  show(&s[3], "vread 0001");
  container[3].calls = -1;
  printf("save: %d\n", geosvm_save(&s[3]));
  geosvm_close(&s[3]);
  fail_each_call(&s[3], 3);
  const int32_t code = geosvm_open_path(&s[3], "no.document", GEOSVM_PATH_CREATE);
  printf("by a path: %d, %s\n", code, strerror(geosvm_last_error()));
  printf("create number 99: ");
  geosvm_session none = GEOSVM_CLOSED;
  printf("%d\n", geosvm_create(&none, 99, 8));
  for (int i = 0; i < DOCUMENTS; i++) {
    geosvm_close(&s[i]);
    free(container[i].bytes);
  }
  return 0;
}
