/* One session of several threads, behind a mutex: two that edit and take back, one that saves now and then, and one that looks. Run it in
   an empty folder.

       threads_try [EDITS] */
#include "geosvm.h"
#include <pthread.h>
#include <stdio.h>
#include <stdlib.h>

enum { BLOCKS = 100 };
static geosvm_session s;
static pthread_mutex_t mutex = PTHREAD_MUTEX_INITIALIZER;
static uint8_t marks[BLOCKS]; /* the first byte of each block, as it has to be */
static int edits = 20000, made;
static long wrong, saves;

#define MUST(is_so) ((is_so) ? 0 : (wrong++, printf("WRONG, line %d: %s\n", __LINE__, #is_so)))

/* One edit in each turn, every third of which is taken back. */
static void *edit(void *at) {
  const int id = *(const int *)at;
  bool is_done = false;
  for (uint32_t i = 0; !is_done; i++) {
    const uint16_t block = (uint16_t)(1 + (i * 7 + (uint32_t)id) % BLOCKS);
    const uint8_t mark = (uint8_t)(i + 1);
    pthread_mutex_lock(&mutex);
    is_done = made >= edits;
    if (!is_done) {
      made++;
      MUST(geosvm_vwrite(&s, block, 0, &mark, 1) == GEOSVM_OK);
      if (i % 3 == 0) MUST(geosvm_undo(&s) == GEOSVM_OK);
      else marks[block - 1] = mark;
      if (i % 100 == 0) MUST(geosvm_forget(&s, 50) == GEOSVM_OK);
    }
    pthread_mutex_unlock(&mutex);
  }
  return NULL;
}

static void *save(void *unused) {
  bool is_done = false;
  (void)unused;
  while (!is_done) {
    pthread_mutex_lock(&mutex);
    is_done = made >= edits;
    MUST((saves++ % 2 == 0 ? geosvm_update(&s) : geosvm_save(&s)) == GEOSVM_OK);
    pthread_mutex_unlock(&mutex);
  }
  return NULL;
}

static void look_at_all(void) {
  for (uint16_t block = 1; block <= BLOCKS; block++) {
    uint8_t bytes[16];
    size_t length = 0;
    MUST(geosvm_vread(&s, block, bytes, sizeof bytes, &length) == GEOSVM_OK && length == sizeof bytes);
    MUST(bytes[0] == marks[block - 1]);
  }
}

static void *look(void *unused) {
  bool is_done = false;
  (void)unused;
  while (!is_done) {
    pthread_mutex_lock(&mutex);
    is_done = made >= edits;
    look_at_all();
    pthread_mutex_unlock(&mutex);
  }
  return NULL;
}

int main(int count, char **words) {
  int ids[2] = {0, 3};
  pthread_t threads[4];
  uint16_t block = 0;
  if (count > 1) edits = atoi(words[1]);
  MUST(geosvm_open_path(&s, "threads.document", GEOSVM_PATH_EMPTY) == GEOSVM_OK);
  for (int i = 0; i < BLOCKS; i++) MUST(geosvm_newraw(&s, 1, 16, &block) == GEOSVM_OK);
  pthread_create(&threads[0], NULL, edit, &ids[0]);
  pthread_create(&threads[1], NULL, edit, &ids[1]);
  pthread_create(&threads[2], NULL, save, NULL);
  pthread_create(&threads[3], NULL, look, NULL);
  for (int i = 0; i < 4; i++) pthread_join(threads[i], NULL);
  MUST(geosvm_save(&s) == GEOSVM_OK && geosvm_close(&s) == GEOSVM_OK);
  MUST(geosvm_open_path(&s, "threads.document", GEOSVM_PATH_READ) == GEOSVM_OK);
  look_at_all();
  MUST(geosvm_close(&s) == GEOSVM_OK && saves > 0);
  printf("%s edits of one session in four threads: %ld wrong answers\n", made == edits ? "all" : "NOT ALL", wrong);
  return wrong != 0;
}
