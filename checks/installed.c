/* A program over the installed library, in C99 and in C++11: it tells the version, makes a document at its path, edits it, takes an edit
   back, saves it, and opens it again, to be read.

       installed FILE */
#include <geosvm.h>

#include <stdio.h>
#include <string.h>

static int count_failed = 0;

static void must(int is_so, const char *what) {
  if (is_so) return;
  printf("FAILED %s\n", what);
  count_failed++;
}
#define MUST(is_so) must(is_so, #is_so)

static const uint8_t abc[] = {'a', 'b', 'c'}, xyz[] = {'x', 'y', 'z'};

static void make(const char *path) {
  geosvm_session s = GEOSVM_CLOSED;
  uint16_t block = 0, chunk = 0;
  MUST(geosvm_open_path(&s, path, GEOSVM_PATH_EMPTY) == GEOSVM_OK);
  MUST(geosvm_newheap(&s, 7, &block) == GEOSVM_OK && block == 1);
  MUST(geosvm_alloc(&s, block, sizeof abc, &chunk) == GEOSVM_OK && chunk == 16);
  MUST(geosvm_write(&s, block, chunk, 0, abc, sizeof abc) == GEOSVM_OK);
  MUST(geosvm_write(&s, block, chunk, 0, xyz, sizeof xyz) == GEOSVM_OK);
  MUST(geosvm_undo(&s) == GEOSVM_OK);
  MUST(geosvm_save(&s) == GEOSVM_OK);
  MUST(geosvm_vfree(&s, block) == GEOSVM_OK);
  MUST(geosvm_close(&s) == GEOSVM_OK);
}

static void look(const char *path) {
  static geosvm_session s = GEOSVM_CLOSED;
  uint8_t bytes[8];
  size_t length = 0;
  MUST(geosvm_open_path(&s, path, GEOSVM_PATH_READ) == GEOSVM_OK);
  MUST(geosvm_read(&s, 1, 16, bytes, sizeof bytes, &length) == GEOSVM_OK);
  MUST(length == sizeof abc && memcmp(bytes, abc, sizeof abc) == 0);
  MUST(geosvm_undo(&s) == GEOSVM_NOTHING_TO_UNDO);
  MUST(geosvm_close(&s) == GEOSVM_OK);
}

int main(int count, char **words) {
  if (count != 2) return 2;
  make(words[1]);
  look(words[1]);
  printf("%d.%d.%d %s %s\n", GEOSVM_VERSION_MAJOR, GEOSVM_VERSION_MINOR, GEOSVM_VERSION_PATCH, GEOSVM_VERSION, geosvm_version());
  return count_failed != 0;
}
