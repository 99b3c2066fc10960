/* Copies of blocks in other documents: what they have, that they are undone and redone, and that nothing is changed where memory or a call
   on a file is refused, each in turn. Linked with `--wrap` of malloc, realloc, pread64 and pwrite64. */
#define _GNU_SOURCE
#include "geosvm.h"
#include <errno.h>
#include <stdio.h>
#include <stdlib.h>
#include <string.h>
#include <unistd.h>

/* Which request for memory, or which call on a file, is refused, counted from 1 on where that isn't 0. */
static int refused_request, requests, refused_call, calls;
void *__real_malloc(size_t size);
void *__real_realloc(void *at, size_t size);
ssize_t __real_pread64(int number, void *buffer, size_t size, off64_t at);
ssize_t __real_pwrite64(int number, const void *bytes, size_t size, off64_t at);
void *__wrap_malloc(size_t size) { return refused_request != 0 && ++requests == refused_request ? NULL : __real_malloc(size); }
void *__wrap_realloc(void *at, size_t size) {
  return refused_request != 0 && ++requests == refused_request ? NULL : __real_realloc(at, size);
}
static bool fails(void) {
  if (refused_call == 0 || ++calls != refused_call) return false;
  errno = ENOSPC;
  return true;
}
ssize_t __wrap_pread64(int number, void *buffer, size_t size, off64_t at) { return fails() ? -1 : __real_pread64(number, buffer, size, at); }
ssize_t __wrap_pwrite64(int number, const void *bytes, size_t size, off64_t at) {
  return fails() ? -1 : __real_pwrite64(number, bytes, size, at);
}

static long wrong;
static void must(bool is_so, const char *what, int line) {
  if (is_so) return;
  wrong++;
  printf("WRONG, line %d: %s; request %d, call %d\n", line, what, refused_request, refused_call);
}
#define MUST(is_so) must(is_so, #is_so, __LINE__)
#define OK(call) MUST((call) == GEOSVM_OK)
#define TEXT(text) (const uint8_t *)text, sizeof text - 1

/* A sum of all that look-ups see of a block, but for its handle. */
static uint64_t mixed(uint64_t sum, const void *bytes, size_t size) {
  for (size_t i = 0; i < size; i++) sum = (sum ^ ((const uint8_t *)bytes)[i]) * 1099511628211u;
  return (sum ^ size) * 1099511628211u;
}
static uint64_t sum_of_block(geosvm_session *s, uint16_t block) {
  static uint16_t chunks[32752];
  static uint8_t bytes[65520];
  uint8_t is_heap = 0;
  uint16_t user_id = 0, heap_type = 0;
  uint32_t size = 0;
  size_t count = 0, length = 0;
  OK(geosvm_info(s, block, &is_heap, &user_id, &size));
  uint64_t sum = mixed(mixed(mixed(14695981039346656037u, &is_heap, 1), &user_id, 2), &size, 4);
  if (!is_heap) {
    OK(geosvm_vread(s, block, bytes, sizeof bytes, &length));
    return mixed(sum, bytes, length);
  }
  OK(geosvm_gettype(s, block, &heap_type));
  OK(geosvm_chunks(s, block, chunks, 32752, &count));
  sum = mixed(mixed(sum, &heap_type, 2), chunks, 2 * count);
  for (size_t i = 0; i < count; i++) {
    OK(geosvm_read(s, block, chunks[i], bytes, sizeof bytes, &length));
    sum = mixed(sum, bytes, length);
  }
  return sum;
}
/* The same of a document. */
static uint64_t sum_of(geosvm_session *s) {
  static uint16_t blocks[8192];
  size_t count = 0;
  uint16_t map = 0;
  OK(geosvm_list(s, blocks, 8192, &count));
  OK(geosvm_mapblock(s, &map));
  uint64_t sum = mixed(mixed(14695981039346656037u, blocks, 2 * count), &map, 2);
  for (size_t i = 0; i < count; i++) {
    const uint64_t block = sum_of_block(s, blocks[i]);
    sum = mixed(sum, &block, sizeof block);
  }
  return sum;
}
static size_t undos(geosvm_session *s) {
  size_t count = 0;
  OK(geosvm_undos(s, &count));
  return count;
}

/* Copies a block, and looks at the copy, at its undo and at its redo. */
static void copied(const char *what, geosvm_session *from, uint16_t block, geosvm_session *to) {
  const uint64_t before = sum_of(to), source = sum_of(from);
  const size_t steps = undos(to);
  uint16_t copy = 77;
  OK(geosvm_copy_block(from, block, to, &copy));
  const uint64_t after = sum_of(to);
  MUST(copy != 0 && after != before && sum_of_block(to, copy) == sum_of_block(from, block));
  MUST(from == to || sum_of(from) == source);
  MUST(undos(to) == steps + 1);
  OK(geosvm_undo(to));
  MUST(sum_of(to) == before);
  OK(geosvm_redo(to));
  MUST(sum_of(to) == after);
  printf("%s: block %04x\n", what, copy);
}

/* A heap with arrays of each kind, and with handles that are free between. */
static uint16_t make_arrays(geosvm_session *s) {
  uint16_t block = 0, array = 0, elements = 0, names = 0, token = 0;
  OK(geosvm_newheap(s, 300, &block));
  OK(geosvm_settype(s, block, 9));
  for (int i = 0; i < 5; i++) OK(geosvm_alloc(s, block, (uint32_t)i * 3, &token));
  OK(geosvm_acreate(s, block, 0, 4, &array));
  OK(geosvm_ainsert(s, block, array, 0, TEXT("Kitchen")));
  OK(geosvm_ecreate(s, block, 0, &elements));
  OK(geosvm_eadd(s, block, elements, TEXT("pen"), &token));
  OK(geosvm_ncreate(s, block, 1, &names));
  OK(geosvm_nadd(s, block, names, TEXT("left"), TEXT("\1"), true, &token));
  for (uint16_t chunk = 16; chunk < 24; chunk += 4) OK(geosvm_free(s, block, chunk));
  return block;
}

/* The heap whose one chunk has the last handle that there is room for: its table fills it. */
static uint16_t make_full(geosvm_session *s) {
  uint16_t block = 0, chunk = 0;
  OK(geosvm_begin(s));
  OK(geosvm_newheap(s, 0, &block));
  for (uint16_t last = 0; geosvm_alloc(s, block, 0, &last) == GEOSVM_OK;) chunk = last;
  for (uint16_t it = 16; it < chunk; it += 2) OK(geosvm_free(s, block, it));
  OK(geosvm_end(s));
  return block;
}

static void each_kind(geosvm_session *from, geosvm_session *to) {
  uint16_t block = 0, heap = make_arrays(from), token = 0;
  size_t count = 0;
  copied("arrays, with gaps", from, heap, to);
  OK(geosvm_eadd(to, 1, 28, TEXT("pen"), &token));
  OK(geosvm_ecount(to, 1, 28, token, &count));
  printf("  an element array there counts on: token %u, %zu references\n", token, count);
  OK(geosvm_nfind(to, 1, 30, TEXT("left"), &token));
  OK(geosvm_newheap(from, 0, &block));
  copied("an empty heap", from, block, to);
  OK(geosvm_alloc(from, block, 65498, &token));
  copied("a heap of one chunk that fills it", from, block, to);
  copied("a heap whose handles fill it", from, make_full(from), to);
  OK(geosvm_newraw(from, 65535, 0, &block));
  copied("an empty raw block", from, block, to);
  OK(geosvm_newraw(from, 5, 65520, &block));
  OK(geosvm_vwrite(from, block, 65517, TEXT("end")));
  copied("a raw block of the most bytes", from, block, to);
  copied("in the same document", from, heap, from);
}

/* As a part of a group that is open, and in what is refused. */
static void in_groups(geosvm_session *from, geosvm_session *to) {
  geosvm_session closed = GEOSVM_CLOSED;
  const uint64_t before = sum_of(to);
  const size_t steps = undos(to);
  uint16_t copy = 77, other = 77;
  OK(geosvm_begin(to));
  OK(geosvm_copy_block(from, 1, to, &copy));
  OK(geosvm_copy_block(from, 2, to, &other));
  OK(geosvm_end(to));
  MUST(undos(to) == steps + 1 && copy != other);
  OK(geosvm_undo(to));
  MUST(sum_of(to) == before);
  MUST(geosvm_copy_block(from, 8000, to, &copy) == GEOSVM_NO_BLOCK && copy == 0);
  copy = 77;
  MUST(geosvm_copy_block(from, 0, to, &copy) == GEOSVM_NO_BLOCK && copy == 0);
  copy = 77;
  MUST(geosvm_copy_block(&closed, 1, to, &copy) == GEOSVM_NOT_OPEN && copy == 0);
  copy = 77;
  MUST(geosvm_copy_block(from, 1, &closed, &copy) == GEOSVM_NOT_OPEN && copy == 0);
  MUST(sum_of(to) == before && undos(to) == steps);
  OK(geosvm_redo(to));
  OK(geosvm_undo(to));
  puts("in groups, and refused");
}

/* How a copy is taken back: by an abandon, or, in a group of the program's own or beside a lock, by freeing it. */
enum manner { PLAIN, IN_GROUP, LOCKED };

/* Each request for memory, or each call on a file, is refused in turn, until a copy is made. */
static void refused_in_turn(geosvm_session *from, geosvm_session *to, int *which, int *counter, int32_t wanted, enum manner manner) {
  static const char *const manners[] = {"", ", in a group", ", beside a lock"};
  const uint64_t before = sum_of(to);
  const size_t steps = undos(to);
  int32_t code = wanted;
  int tries = 0;
  if (manner == LOCKED) OK(geosvm_lock(to, 2));
  for (int number = 1; code != GEOSVM_OK; number++, tries++) {
    uint16_t copy = 77;
    if (manner == IN_GROUP) OK(geosvm_begin(to));
    *which = number, *counter = 0;
    code = geosvm_copy_block(from, 1, to, &copy);
    *which = 0;
    if (manner == IN_GROUP) OK(geosvm_end(to));
    MUST(code == GEOSVM_OK || (code == wanted && copy == 0));
    MUST(code != GEOSVM_FILE || geosvm_last_error() == ENOSPC);
    if (code != GEOSVM_OK) MUST(sum_of(to) == before && (manner != PLAIN || undos(to) == steps));
    else MUST(sum_of_block(to, copy) == sum_of_block(from, 1));
  }
  if (manner == LOCKED) OK(geosvm_unlock(to, 2));
  while (undos(to) > steps) OK(geosvm_undo(to));
  MUST(sum_of(to) == before);
  printf("%s refused%s: %s\n", wanted == GEOSVM_MEMORY ? "memory" : "a call", manners[manner],
         tries > (wanted == GEOSVM_MEMORY ? 5 : 1) ? "each in turn" : "NONE");
}

int main(void) {
  geosvm_session from = GEOSVM_CLOSED, to = GEOSVM_CLOSED, third = GEOSVM_CLOSED;
  OK(geosvm_open_path(&from, "from.document", GEOSVM_PATH_EMPTY));
  OK(geosvm_open_path(&to, NULL, GEOSVM_PATH_MEMORY));
  each_kind(&from, &to);
  in_groups(&from, &to);
  for (enum manner manner = PLAIN; manner <= LOCKED; manner++) {
    refused_in_turn(&from, &to, &refused_request, &requests, GEOSVM_MEMORY, manner);
    refused_in_turn(&from, &to, &refused_call, &calls, GEOSVM_FILE, manner);
  }
  OK(geosvm_save_as_path(&to, "to.document", 0));
  OK(geosvm_open_path(&third, NULL, GEOSVM_PATH_MEMORY));
  copied("back from what was saved", &to, 1, &third);
  OK(geosvm_close(&from));
  OK(geosvm_close(&to));
  OK(geosvm_close(&third));
  printf("%ld wrong answers\n", wrong);
  return wrong != 0;
}
