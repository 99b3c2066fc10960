/* Sessions from C: each call of geosvm.h once and more. Run it in an empty folder. */
#define _GNU_SOURCE
#include "geosvm.h"
#include <fcntl.h>
#include <pthread.h>
#include <stdio.h>
#include <stdlib.h>
#include <string.h>
#include <sys/file.h>
#include <unistd.h>

/* To be copied: a document is opened by its path, or made, edited and saved; where any of that is refused it is told why. */
static int32_t note(const char *path, const char *text) {
  geosvm_session s = GEOSVM_CLOSED;
  uint16_t block = 0, chunk = 0;
  int32_t code = geosvm_open_path(&s, path, GEOSVM_PATH_CREATE);
  if (code == GEOSVM_OK) code = geosvm_newheap(&s, 7, &block);
  if (code == GEOSVM_OK) code = geosvm_alloc(&s, block, (uint32_t)strlen(text), &chunk);
  if (code == GEOSVM_OK) code = geosvm_write(&s, block, chunk, 0, (const uint8_t *)text, strlen(text));
  if (code == GEOSVM_OK) code = geosvm_save(&s);
  if (code == GEOSVM_FILE) printf("%s: %s\n", path, strerror(geosvm_last_error()));
  else if (code != GEOSVM_OK) printf("%s: %s\n", path, geosvm_code_text(code));
  geosvm_close(&s);
  return code;
}

static const char *name_of(int32_t code) {
  static _Thread_local char name[32];
  size_t n = 0;
  if (code == GEOSVM_OK) return "ok";
  if (geosvm_fault_name(code, (uint8_t *)name, sizeof name - 1, &n) != GEOSVM_OK)
    n = (size_t)snprintf(name, sizeof name, "code %d", code);
  name[n] = 0;
  return name;
}
static int32_t say(geosvm_session *s, const char *line, char *reply, size_t room) {
  size_t n = 0;
  int32_t code = geosvm_command(s, (const uint8_t *)line, strlen(line), (uint8_t *)reply, room - 1, &n);
  if (n > room - 1) n = room - 1;
  if (n && reply[n - 1] == '\n') n--;
  reply[n] = 0;
  return code;
}
static void show(geosvm_session *s, const char *line) {
  char reply[256];
  int32_t code = say(s, line, reply, sizeof reply);
  printf("%-26s %s: %s\n", line, name_of(code), reply);
}
#define TELL(call) printf("%-26s %s\n", #call, name_of(call))
#define TEXT(text) (const uint8_t *)text, sizeof text - 1

/* For a program that opens files itself: to be read and written, and locked before anything is done to it. So it isn't opened with
   O_TRUNC, which would cut a document that another program has open; geosvm_create makes a new one of it anyway. */
static int file(const char *path) {
  int fd = open(path, O_RDWR | O_CREAT, 0644);
  if (fd < 0 || flock(fd, LOCK_EX | LOCK_NB) != 0) { perror(path); exit(1); }
  return fd;
}

static void edits(geosvm_session *s) {
  uint8_t bytes[16];
  size_t n = 0;
  puts("-- edits");
  show(s, "newheap 7");
  show(s, "newraw 9 5");
  show(s, "alloc 0001 3");
  show(s, "write 0001 0010 0 616263");
  show(s, "vwrite 0002 1 78797a");
  show(s, "vwrite 0002 4 78797a");
  TELL(geosvm_read(s, 1, 16, bytes, sizeof bytes, &n));
  printf("%zu bytes: %.*s\n", n, (int)n, (char *)bytes);
  TELL(geosvm_vread(s, 2, bytes, 2, &n));
  printf("%zu bytes, of which 2 fit: %02x %02x\n", n, bytes[0], bytes[1]);
  TELL(geosvm_read(s, 1, 9999, bytes, sizeof bytes, &n));
  printf("%zu bytes\n", n);
  puts("-- undo and groups");
  TELL(geosvm_undo(s));
  show(s, "vread 0002");
  TELL(geosvm_redo(s));
  show(s, "vread 0002");
  TELL(geosvm_redo(s));
  TELL(geosvm_end(s));
  TELL(geosvm_begin(s));
  show(s, "vwrite 0002 0 3132");
  TELL(geosvm_save(s));
  TELL(geosvm_abandon(s));
  TELL(geosvm_begin(s));
  show(s, "vwrite 0002 0 3132");
  show(s, "vwrite 0002 2 3334");
  TELL(geosvm_end(s));
  show(s, "vread 0002");
  TELL(geosvm_undo(s));
  show(s, "vread 0002");
  puts("-- locks");
  uint8_t count = 77;
  TELL(geosvm_lock(s, 2));
  TELL(geosvm_lock(s, 2));
  TELL(geosvm_locks(s, 2, &count));
  printf("locked %d times\n", count);
  TELL(geosvm_dirty(s, 2));
  TELL(geosvm_undo(s));
  TELL(geosvm_unlock(s, 2));
  TELL(geosvm_unlock(s, 2));
  TELL(geosvm_unlock(s, 2));
  TELL(geosvm_dirty(s, 2));
  TELL(geosvm_lock(s, 9));
  TELL(geosvm_locks(s, 9, &count));
  printf("locked %d times\n", count);
}

/* Bytes that are lent stay where they are, however many other blocks come into the frames that are left. */
static void lent(geosvm_session *s) {
  geosvm_session closed = GEOSVM_CLOSED;
  const uint8_t *chunk = NULL, *raw = NULL, *again = NULL;
  char reply[256];
  size_t n = 77, m = 77;
  puts("-- bytes lent");
  TELL(geosvm_locked_chunk(&closed, 1, 16, &chunk, &n));
  TELL(geosvm_locked_chunk(s, 1, 16, &chunk, &n));
  printf("%zu bytes, %s\n", n, chunk == NULL ? "nowhere" : "somewhere");
  TELL(geosvm_lock(s, 1));
  TELL(geosvm_lock(s, 2));
  TELL(geosvm_locked_chunk(s, 1, 16, &chunk, &n));
  printf("%zu bytes: %.*s\n", n, (int)n, (const char *)chunk);
  TELL(geosvm_locked_raw(s, 2, &raw, &m));
  printf("%zu bytes: %02x %02x %02x %02x %02x\n", m, raw[0], raw[1], raw[2], raw[3], raw[4]);
  TELL(geosvm_locked_chunk(s, 9, 16, &again, &n));
  TELL(geosvm_locked_chunk(s, 2, 16, &again, &n));
  TELL(geosvm_locked_raw(s, 1, &again, &n));
  TELL(geosvm_locked_chunk(s, 1, 9999, &again, &n));
  printf("%zu bytes, %s\n", n, again == NULL ? "nowhere" : "somewhere");
  long bad = 0;
  for (int i = 0; i < 16; i++) bad += say(s, "newraw 1 65520", reply, sizeof reply) != GEOSVM_OK;
  for (uint16_t block = 3; block < 19; block++) bad += geosvm_vread(s, block, (uint8_t *)reply, 1, &n) != GEOSVM_CUT_OFF;
  printf("16 blocks through 6 frames: %ld wrong answers\n", bad);
  TELL(geosvm_name(s, TEXT("Make")));
  TELL(geosvm_locked_chunk(s, 1, 16, &again, &n));
  printf("%.*s, %s\n", (int)n, (const char *)chunk, again == chunk ? "where it was" : "elsewhere");
  TELL(geosvm_locked_raw(s, 2, &again, &m));
  printf("%02x %02x %02x %02x %02x, %s\n", raw[0], raw[1], raw[2], raw[3], raw[4], again == raw ? "where it was" : "elsewhere");
  show(s, "insert 0001 0010 1 2");
  show(s, "write 0001 0010 1 7879");
  TELL(geosvm_locked_chunk(s, 1, 16, &chunk, &n));
  printf("%zu bytes: %.*s\n", n, (int)n, (const char *)chunk);
  TELL(geosvm_unlock(s, 1));
  TELL(geosvm_unlock(s, 2));
  TELL(geosvm_locked_raw(s, 2, &raw, &m));
}

/* Elements of a large array where they lie: 17 of 4,096 bytes, of which a block has 15. */
static void lent_runs(geosvm_session *s) {
  geosvm_session closed = GEOSVM_CLOSED;
  const uint8_t *run = NULL, *more = NULL;
  static char line[8300];
  char reply[256];
  uint16_t block = 77, other = 77;
  size_t n = 77, m = 77;
  long bad = 0;
  puts("-- elements lent");
  show(s, "hcreate 7 4096");
  for (int i = 0; i < 17; i++) {
    size_t at = (size_t)snprintf(line, 32, "hinsert 0013 %d ", i);
    for (int k = 0; k < 4096; k++, at += 2) snprintf(line + at, 3, "%02x", (unsigned)i & 255);
    bad += say(s, line, reply, sizeof reply) != GEOSVM_OK;
  }
  printf("17 elements: %ld wrong answers\n", bad);
  TELL(geosvm_lock_run(&closed, 19, 13, &block, &run, &n));
  printf("block %u, %zu bytes, %s\n", block, n, run == NULL ? "nowhere" : "somewhere");
  TELL(geosvm_lock_run(s, 19, 13, &block, &run, &n));
  printf("block %u, %zu bytes: %u and %u\n", block, n, run[0], run[4096]);
  TELL(geosvm_lock_run(s, 19, 15, &other, &more, &m));
  printf("block %u, %zu bytes: %u and %u\n", other, m, more[0], more[4096]);
  show(s, "hdelete 0013 0 1");
  printf("%u and %u\n", run[0], more[0]);
  TELL(geosvm_unlock(s, block));
  TELL(geosvm_unlock(s, other));
  TELL(geosvm_lock_run(s, 19, 17, &block, &run, &n));
  printf("block %u, %zu bytes, %s\n", block, n, run == NULL ? "nowhere" : "somewhere");
  TELL(geosvm_lock_run(s, 99, 0, &block, &run, &n));
  TELL(geosvm_lock_run(s, 1, 0, &block, &run, &n));
  TELL(geosvm_lock_run(s, 2, 0, &block, &run, &n));
  show(s, "hcreate 7 0");
  show(s, "hinsert 0016 0 616263");
  TELL(geosvm_lock_run(s, 22, 0, &block, &run, &n));
}

static void commits(geosvm_session *s, int fd) {
  puts("-- commits");
  TELL(geosvm_update(s));
  show(s, "vwrite 0002 0 0a0b0c0d0e");
  TELL(geosvm_revert(s));
  show(s, "list");
  TELL(geosvm_undo(s));
  show(s, "newraw 1 4");
  TELL(geosvm_save(s));
  show(s, "vwrite 0001 0 0102");
  TELL(geosvm_close(s));
  TELL(geosvm_open(s, fd, 8));
  show(s, "vread 0001");
}

/* Saves into another file, undoes there, and opens the one that was left. */
static void another_file(geosvm_session *s, int fd) {
  geosvm_session left = GEOSVM_CLOSED;
  int other = file("other.document");
  puts("-- another file");
  show(s, "vwrite 0001 0 0304");
  TELL(geosvm_save_as(s, -7));
  TELL(geosvm_save_as(s, other));
  TELL(geosvm_open(&left, fd, 8));
  show(&left, "vread 0001");
  show(s, "vread 0001");
  TELL(geosvm_undo(s));
  show(s, "vread 0001");
  TELL(geosvm_update(s));
  TELL(geosvm_revert(s));
  show(s, "vread 0001");
  TELL(geosvm_close(&left));
  TELL(geosvm_begin(s));
  TELL(geosvm_save_as(s, fd));
  TELL(geosvm_close(s));
  TELL(geosvm_save_as(s, fd));
  TELL(geosvm_open(s, fd, 8));
  close(other);
}

static void refusals(geosvm_session *s, int fd) {
  geosvm_session closed = GEOSVM_CLOSED;
  uint8_t reply[4] = "....";
  size_t n = 77;
  puts("-- refusals");
  TELL(geosvm_open(s, fd, 8));
  TELL(geosvm_open(&closed, fd, 0));
  TELL(geosvm_open(&closed, fd, 65));
  TELL(geosvm_open(&closed, -7, 8));
  int text = open("/etc/passwd", O_RDONLY);
  TELL(geosvm_open(&closed, text, 8));
  TELL(geosvm_create(&closed, text, 8));
  close(text);
  TELL(geosvm_undo(&closed));
  TELL(geosvm_close(&closed));
  TELL(geosvm_command(&closed, (const uint8_t *)"list", 4, reply, sizeof reply, &n));
  printf("%zu bytes\n", n);
  TELL(geosvm_command(s, (const uint8_t *)"list", 4, reply, sizeof reply, &n));
  printf("%zu bytes, of which 4 fit: %.4s\n", n, (char *)reply);
  show(s, "saveas");
  show(s, "nonsense");
  show(s, "");
  TELL(geosvm_fault_name(30, reply, sizeof reply, &n));
}

#define GIVES(call, value) (printf("%-26s %s\n", #call, name_of(call)), printf("  gives %zu\n", (size_t)(value)))

static void show_bytes(const uint8_t *bytes, size_t n) {
  printf("  gives");
  for (size_t i = 0; i < n; i++) printf(" %02x", bytes[i]);
  puts("");
}
static void show_handles(const uint16_t *handles, size_t n) {
  printf("  gives");
  for (size_t i = 0; i < n; i++) printf(" %04x", handles[i]);
  puts("");
}

static void named_blocks(geosvm_session *s) {
  uint8_t bytes[16], is_heap = 77;
  uint16_t block = 77, chunk = 77, user_id = 77, heap_type = 77, list[8];
  uint32_t size = 77;
  size_t n = 77;
  puts("-- blocks and chunks, by name");
  GIVES(geosvm_newheap(s, 7, &block), block);
  GIVES(geosvm_newraw(s, 9, 4, &block), block);
  GIVES(geosvm_newraw(s, 9, 65521, &block), block);
  GIVES(geosvm_alloc(s, 1, 3, &chunk), chunk);
  TELL(geosvm_write(s, 1, 16, 0, TEXT("abc")));
  TELL(geosvm_insert(s, 1, 16, 1, 2));
  TELL(geosvm_delete(s, 1, 16, 0, 1));
  TELL(geosvm_read(s, 1, 16, bytes, sizeof bytes, &n));
  show_bytes(bytes, n);
  TELL(geosvm_resize(s, 1, 16, 3));
  GIVES(geosvm_alloc(s, 1, 65520, &chunk), chunk);
  TELL(geosvm_info(s, 1, &is_heap, &user_id, &size));
  printf("  gives %u: user ID %u, %u bytes\n", is_heap, user_id, size);
  TELL(geosvm_vwrite(s, 2, 2, TEXT("xyz")));
  TELL(geosvm_vwrite(s, 2, 2, TEXT("yz")));
  TELL(geosvm_vread(s, 2, bytes, sizeof bytes, &n));
  show_bytes(bytes, n);
  TELL(geosvm_attach(s, 2, TEXT("\0\0end")));
  TELL(geosvm_info(s, 2, &is_heap, &user_id, &size));
  printf("  gives %u: user ID %u, %u bytes\n", is_heap, user_id, size);
  TELL(geosvm_info(s, 9, &is_heap, &user_id, &size));
  printf("  gives %u: user ID %u, %u bytes\n", is_heap, user_id, size);
  TELL(geosvm_settype(s, 1, 300));
  GIVES(geosvm_gettype(s, 1, &heap_type), heap_type);
  TELL(geosvm_map(s, 1));
  GIVES(geosvm_mapblock(s, &block), block);
  TELL(geosvm_vfree(s, 1));
  GIVES(geosvm_vcopy(s, 2, &block), block);
  TELL(geosvm_uid(s, 3, 8));
  GIVES(geosvm_find(s, 8, 0, &block), block);
  GIVES(geosvm_find(s, 8, 3, &block), block);
  TELL(geosvm_list(s, list, 8, &n));
  show_handles(list, n);
  TELL(geosvm_list(s, list, 2, &n));
  printf("%zu blocks, of which 2 fit\n", n);
  show_handles(list, 2);
}

static void named_arrays(geosvm_session *s) {
  uint8_t bytes[16];
  uint16_t chunk = 77, token = 77, list[8];
  size_t n = 77;
  puts("-- arrays, by name");
  GIVES(geosvm_acreate(s, 1, 2, 0, &chunk), chunk);
  TELL(geosvm_ainsert(s, 1, 18, 0, TEXT("hi")));
  TELL(geosvm_ainsert(s, 1, 18, 0, TEXT("yo")));
  TELL(geosvm_aset(s, 1, 18, 1, TEXT("ho")));
  GIVES(geosvm_acount(s, 1, 18, &n), n);
  TELL(geosvm_aget(s, 1, 18, 1, bytes, sizeof bytes, &n));
  show_bytes(bytes, n);
  TELL(geosvm_aget(s, 1, 18, 2, bytes, sizeof bytes, &n));
  show_bytes(bytes, n);
  TELL(geosvm_adelete(s, 1, 18, 0, 1));
  TELL(geosvm_aresize(s, 1, 18, 0, 3));
  TELL(geosvm_azero(s, 1, 18));
  GIVES(geosvm_acount(s, 1, 18, &n), n);
  GIVES(geosvm_ecreate(s, 1, 0, &chunk), chunk);
  GIVES(geosvm_eadd(s, 1, 20, TEXT("pen"), &token), token);
  GIVES(geosvm_eadd(s, 1, 20, TEXT("ink"), &token), token);
  GIVES(geosvm_eadd(s, 1, 20, TEXT("pen"), &token), token);
  TELL(geosvm_eref(s, 1, 20, 0));
  TELL(geosvm_eref(s, 1, 20, 9));
  GIVES(geosvm_ecount(s, 1, 20, 0, &n), n);
  TELL(geosvm_eunref(s, 1, 20, 1));
  GIVES(geosvm_eused(s, 1, 20, &n), n);
  GIVES(geosvm_eadd(s, 1, 20, TEXT("cap"), &token), token);
  TELL(geosvm_echange(s, 1, 20, 1, TEXT("cup")));
  TELL(geosvm_edata(s, 1, 20, 1, bytes, sizeof bytes, &n));
  show_bytes(bytes, n);
  TELL(geosvm_edelete(s, 1, 20, 0));
  GIVES(geosvm_etoken(s, 1, 20, 0, &token), token);
  GIVES(geosvm_eindex(s, 1, 20, 1, &n), n);
  GIVES(geosvm_ncreate(s, 1, 1, &chunk), chunk);
  GIVES(geosvm_nadd(s, 1, 22, TEXT("left"), TEXT("\1"), false, &token), token);
  GIVES(geosvm_nadd(s, 1, 22, TEXT("left"), TEXT("\2"), true, &token), token);
  GIVES(geosvm_nadd(s, 1, 22, TEXT("right"), TEXT("12"), true, &token), token);
  GIVES(geosvm_ncount(s, 1, 22, 0, &n), n);
  TELL(geosvm_ndata(s, 1, 22, 0, bytes, sizeof bytes, &n));
  show_bytes(bytes, n);
  TELL(geosvm_nname(s, 1, 22, 0, TEXT("right")));
  GIVES(geosvm_nfind(s, 1, 22, TEXT("right"), &token), token);
  GIVES(geosvm_nfind(s, 1, 22, TEXT("left"), &token), token);
  TELL(geosvm_ntext(s, 1, 22, 0, bytes, 3, &n));
  printf("%zu bytes, of which 3 fit\n", n);
  show_bytes(bytes, 3);
  TELL(geosvm_nunref(s, 1, 22, 0));
  TELL(geosvm_free(s, 1, 16));
  TELL(geosvm_chunks(s, 1, list, 8, &n));
  show_handles(list, n);
}

static void named_chains(geosvm_session *s) {
  uint16_t block = 77, list[8] = {77};
  uint8_t equal = 77;
  size_t n = 77;
  puts("-- chains, by name");
  TELL(geosvm_vwrite(s, 2, 0, TEXT("\3\0")));
  TELL(geosvm_walk(s, 2, list, 8, &n));
  show_handles(list, n);
  GIVES(geosvm_chsize(s, 2, &n), n);
  GIVES(geosvm_chcopy(s, 2, &block), block);
  GIVES(geosvm_chequal(s, 2, 4, &equal), equal);
  GIVES(geosvm_chequal(s, 2, 3, &equal), equal);
  GIVES(geosvm_chequal(s, 2, 1, &equal), equal);
  TELL(geosvm_chfree(s, 4));
  TELL(geosvm_walk(s, 4, list, 8, &n));
  printf("%zu blocks\n", n);
  GIVES(geosvm_undos(s, &n), n);
  TELL(geosvm_undo(s));
  GIVES(geosvm_redos(s, &n), n);
  TELL(geosvm_close(s));
  GIVES(geosvm_newheap(s, 7, &block), block);
  TELL(geosvm_vwrite(s, 2, 0, TEXT("xyz")));
  GIVES(geosvm_undos(s, &n), n);
  TELL(geosvm_list(s, list, 8, &n));
  printf("%zu blocks\n", n);
}

/* Steps that are joined, forgotten and limited, and whether the document is as it was saved and as it was updated. */
static void steps(void) {
  geosvm_session s = GEOSVM_CLOSED, closed = GEOSVM_CLOSED;
  int fd = file("steps.document");
  uint16_t block = 77;
  size_t n = 77;
  puts("-- steps");
  TELL(geosvm_create(&s, fd, 8));
  GIVES(geosvm_modified(&s, &n), n);
  GIVES(geosvm_newraw(&s, 1, 4, &block), block);
  TELL(geosvm_join(&s));
  TELL(geosvm_save(&s));
  TELL(geosvm_vwrite(&s, 1, 0, TEXT("a")));
  GIVES(geosvm_modified(&s, &n), n);
  TELL(geosvm_update(&s));
  GIVES(geosvm_modified(&s, &n), n);
  TELL(geosvm_undo(&s));
  GIVES(geosvm_modified(&s, &n), n);
  TELL(geosvm_redo(&s));
  TELL(geosvm_vwrite(&s, 1, 1, TEXT("b")));
  TELL(geosvm_vwrite(&s, 1, 2, TEXT("c")));
  TELL(geosvm_join(&s));
  GIVES(geosvm_undos(&s, &n), n);
  TELL(geosvm_undo(&s));
  show(&s, "vread 0001");
  GIVES(geosvm_modified(&s, &n), n);
  TELL(geosvm_redo(&s));
  show(&s, "vread 0001");
  TELL(geosvm_join(&s));
  TELL(geosvm_undo(&s));
  show(&s, "vread 0001");
  GIVES(geosvm_modified(&s, &n), n);
  TELL(geosvm_redo(&s));
  GIVES(geosvm_modified(&s, &n), n);
  TELL(geosvm_begin(&s));
  TELL(geosvm_join(&s));
  TELL(geosvm_forget(&s, 1));
  TELL(geosvm_abandon(&s));
  GIVES(geosvm_undos(&s, &n), n);
  TELL(geosvm_forget(&s, 0));
  TELL(geosvm_undo(&s));
  TELL(geosvm_limit_undo(&s, 2));
  for (int i = 0; i < 3; i++) TELL(geosvm_vwrite(&s, 1, 3, TEXT("d")));
  GIVES(geosvm_undos(&s, &n), n);
  TELL(geosvm_limit_undo(&s, 0));
  TELL(geosvm_vwrite(&s, 1, 3, TEXT("e")));
  GIVES(geosvm_undos(&s, &n), n);
  TELL(geosvm_close(&s));
  TELL(geosvm_open(&s, fd, 8));
  show(&s, "vread 0001");
  GIVES(geosvm_modified(&s, &n), n);
  TELL(geosvm_close(&s));
  TELL(geosvm_join(&closed));
  TELL(geosvm_forget(&closed, 1));
  TELL(geosvm_limit_undo(&closed, 1));
  GIVES(geosvm_modified(&closed, &n), n);
  close(fd);
}

#define NAMED(call) (TELL(call), show_bytes(name, n < sizeof name ? n : sizeof name))

/* Names of steps, which go with them. */
static void step_names(void) {
  static const uint8_t long_name[65];
  geosvm_session s = GEOSVM_CLOSED, closed = GEOSVM_CLOSED;
  uint8_t name[64];
  int fd = file("names.document");
  uint16_t block = 77;
  size_t n = 77;
  puts("-- names of steps");
  TELL(geosvm_create(&s, fd, 8));
  TELL(geosvm_name(&s, TEXT("Make")));
  NAMED(geosvm_undo_name(&s, name, sizeof name, &n));
  GIVES(geosvm_newraw(&s, 1, 2, &block), block);
  NAMED(geosvm_undo_name(&s, name, sizeof name, &n));
  TELL(geosvm_name(&s, TEXT("Make")));
  TELL(geosvm_vwrite(&s, 1, 0, TEXT("a")));
  TELL(geosvm_name(&s, TEXT("Type")));
  NAMED(geosvm_undo_name(&s, name, sizeof name, &n));
  NAMED(geosvm_redo_name(&s, name, sizeof name, &n));
  TELL(geosvm_undo(&s));
  NAMED(geosvm_undo_name(&s, name, sizeof name, &n));
  NAMED(geosvm_redo_name(&s, name, sizeof name, &n));
  TELL(geosvm_redo_name(&s, name, 2, &n));
  printf("%zu bytes, of which 2 fit\n", n);
  show_bytes(name, 2);
  TELL(geosvm_redo(&s));
  TELL(geosvm_vwrite(&s, 1, 1, TEXT("b")));
  NAMED(geosvm_undo_name(&s, name, sizeof name, &n));
  TELL(geosvm_join(&s));
  NAMED(geosvm_undo_name(&s, name, sizeof name, &n));
  TELL(geosvm_name(&s, long_name, 65));
  TELL(geosvm_name(&s, long_name, 64));
  TELL(geosvm_undo_name(&s, name, sizeof name, &n));
  printf("%zu bytes\n", n);
  TELL(geosvm_name(&s, long_name, 0));
  NAMED(geosvm_undo_name(&s, name, sizeof name, &n));
  TELL(geosvm_begin(&s));
  TELL(geosvm_name(&s, TEXT("Type")));
  NAMED(geosvm_undo_name(&s, name, sizeof name, &n));
  NAMED(geosvm_redo_name(&s, name, sizeof name, &n));
  TELL(geosvm_close(&s));
  TELL(geosvm_name(&closed, TEXT("Type")));
  NAMED(geosvm_undo_name(&closed, name, sizeof name, &n));
  NAMED(geosvm_redo_name(&closed, name, sizeof name, &n));
  close(fd);
}

static void show_places(const geosvm_place *places, size_t room, size_t first, size_t count) {
  static const char *const kinds[] = {"all", "map", "attributes", "block", "chunk", "run"};
  printf("  gives %zu:", count);
  for (size_t i = 0; i < room && first + i < count; i++) {
    const geosvm_place *p = &places[i];
    printf(" %s %04x %04x %u %u %u;", kinds[p->kind], p->block, p->chunk, p->at, p->before, p->after);
  }
  puts("");
}
#define PLACES(call) (TELL(call), show_places(told, 4, 0, n))

/* Where edits, undos, groups and a revert change the document, and where an undo, a redo and an abandon would. */
static void places(void) {
  geosvm_session s = GEOSVM_CLOSED, closed = GEOSVM_CLOSED;
  geosvm_place told[4];
  uint8_t bytes[16];
  int fd = file("places.document");
  uint16_t block = 77, chunk = 77, token = 77;
  size_t n = 77;
  puts("-- places");
  TELL(geosvm_create(&s, fd, 8));
  PLACES(geosvm_touched(&s, 0, told, 4, &n));
  PLACES(geosvm_undo_places(&s, 0, told, 4, &n));
  GIVES(geosvm_newheap(&s, 7, &block), block);
  PLACES(geosvm_touched(&s, 0, told, 4, &n));
  GIVES(geosvm_alloc(&s, 1, 9, &chunk), chunk);
  PLACES(geosvm_touched(&s, 0, told, 4, &n));
  TELL(geosvm_splice(&s, 1, 16, 2, 3, TEXT("abcde")));
  PLACES(geosvm_touched(&s, 0, told, 4, &n));
  TELL(geosvm_read(&s, 1, 16, bytes, sizeof bytes, &n));
  show_bytes(bytes, n);
  TELL(geosvm_splice(&s, 1, 16, 9, 3, TEXT("xyz")));
  PLACES(geosvm_touched(&s, 0, told, 4, &n));
  PLACES(geosvm_undo_places(&s, 0, told, 4, &n));
  TELL(geosvm_undo(&s));
  PLACES(geosvm_touched(&s, 0, told, 4, &n));
  PLACES(geosvm_redo_places(&s, 0, told, 4, &n));
  GIVES(geosvm_newraw(&s, 9, 4, &block), block);
  TELL(geosvm_vsplice(&s, 2, 1, 2, TEXT("x")));
  PLACES(geosvm_touched(&s, 0, told, 4, &n));
  TELL(geosvm_vread(&s, 2, bytes, sizeof bytes, &n));
  show_bytes(bytes, n);
  TELL(geosvm_vsplice(&s, 2, 4, 0, TEXT("x")));
  TELL(geosvm_uid(&s, 2, 5));
  PLACES(geosvm_touched(&s, 0, told, 4, &n));
  TELL(geosvm_map(&s, 2));
  PLACES(geosvm_touched(&s, 0, told, 4, &n));
  GIVES(geosvm_ncreate(&s, 1, 1, &chunk), chunk);
  GIVES(geosvm_nadd(&s, 1, chunk, TEXT("left"), TEXT("\1"), false, &token), token);
  PLACES(geosvm_touched(&s, 0, told, 4, &n));
  TELL(geosvm_nset(&s, 1, chunk, token, TEXT("\2")));
  PLACES(geosvm_touched(&s, 0, told, 4, &n));
  TELL(geosvm_ndata(&s, 1, chunk, token, bytes, sizeof bytes, &n));
  show_bytes(bytes, n);
  TELL(geosvm_nset(&s, 1, chunk, 5, TEXT("\2")));
  TELL(geosvm_nset(&s, 1, chunk, token, TEXT("\2\3")));
  PLACES(geosvm_abandon_places(&s, 0, told, 4, &n));
  TELL(geosvm_begin(&s));
  for (uint32_t i = 0; i < 6; i++) TELL(geosvm_insert(&s, 1, 16, i, 1));
  PLACES(geosvm_undo_places(&s, 0, told, 4, &n));
  TELL(geosvm_end(&s));
  PLACES(geosvm_touched(&s, 0, told, 4, &n));
  for (size_t first = 0; first < 9; first += 4) {
    printf("from %zu on: ", first);
    TELL(geosvm_undo_places(&s, first, told, 4, &n));
    show_places(told, 4, first, n);
  }
  TELL(geosvm_undo_places(&s, 6, told, 0, &n));
  TELL(geosvm_undo_places(&s, 5, told, 0, &n));
  told[0].kind = 77;
  TELL(geosvm_undo_places(&s, 7, told, 4, &n));
  TELL(geosvm_undo_places(&s, SIZE_MAX, told, 4, &n));
  printf("  gives %zu, and puts %s\n", n, told[0].kind == 77 ? "none" : "some");
  TELL(geosvm_begin(&s));
  TELL(geosvm_resize(&s, 1, 16, 4));
  PLACES(geosvm_abandon_places(&s, 0, told, 4, &n));
  TELL(geosvm_abandon(&s));
  PLACES(geosvm_touched(&s, 0, told, 4, &n));
  TELL(geosvm_save(&s));
  TELL(geosvm_revert(&s));
  PLACES(geosvm_touched(&s, 0, told, 4, &n));
  TELL(geosvm_close(&s));
  PLACES(geosvm_touched(&closed, 0, told, 4, &n));
  close(fd);
}

/* An array of a hundred blocks, lent run by run, with one frame beside that of its root. Each element is its own number. */
static void many_runs(void) {
  enum { ELEMENTS = 825000, PIECE = 7500 };
  static uint8_t piece[8 * PIECE];
  geosvm_session s = GEOSVM_CLOSED;
  const uint8_t *run = NULL;
  uint16_t root = 77, block = 77;
  int fd = file("runs.document");
  size_t n = 0, runs = 0, wrong = 0;
  puts("-- many elements lent");
  TELL(geosvm_create(&s, fd, 2));
  GIVES(geosvm_hcreate(&s, 7, 8, &root), root);
  for (uint32_t i = 0; i < ELEMENTS; i += PIECE) {
    for (uint32_t k = 0; k < PIECE; k++)
      for (int b = 0; b < 4; b++) piece[8 * k + (size_t)b] = piece[8 * k + 4 + (size_t)b] = (uint8_t)((i + k) >> (8 * b));
    wrong += geosvm_hinsert(&s, root, i, piece, sizeof piece) != GEOSVM_OK;
  }
  for (uint32_t i = 0; i < ELEMENTS && wrong == 0; i += (uint32_t)(n / 8), runs++) {
    wrong += geosvm_lock_run(&s, root, i, &block, &run, &n) != GEOSVM_OK || n == 0 || n % 8 != 0;
    for (size_t at = 0; at < n; at += 4) {
      uint32_t number = i + (uint32_t)(at / 8);
      for (int b = 0; b < 4; b++) wrong += run[at + (size_t)b] != (uint8_t)(number >> (8 * b));
    }
    wrong += geosvm_unlock(&s, block) != GEOSVM_OK;
  }
  printf("%d elements in %zu runs, %zu wrong\n", ELEMENTS, runs, wrong);
  TELL(geosvm_close(&s));
  close(fd);
}

/* Large arrays: a text of more than a block, elements of any sizes, and what is refused of both. */
static void large_arrays(void) {
  static uint8_t many[70000];
  geosvm_session s = GEOSVM_CLOSED, closed = GEOSVM_CLOSED;
  geosvm_place told[4];
  uint8_t bytes[16];
  uint16_t root = 77, list[8];
  int fd = file("large.document");
  size_t n = 77;
  puts("-- large arrays");
  memset(many, 'x', sizeof many);
  TELL(geosvm_create(&s, fd, 8));
  GIVES(geosvm_hcreate(&s, 7, 4097, &root), root);
  GIVES(geosvm_hcreate(&s, 7, 1, &root), root);
  PLACES(geosvm_touched(&s, 0, told, 4, &n));
  TELL(geosvm_hinsert(&s, 1, 0, TEXT("hello")));
  TELL(geosvm_hset(&s, 1, 0, TEXT("J")));
  TELL(geosvm_hinsert(&s, 1, 5, TEXT("y")));
  GIVES(geosvm_hcount(&s, 1, &n), n);
  TELL(geosvm_hread(&s, 1, 0, 6, bytes, sizeof bytes, &n));
  show_bytes(bytes, n);
  TELL(geosvm_hread(&s, 1, 1, 4, bytes, 2, &n));
  printf("%zu bytes, of which 2 fit\n", n);
  show_bytes(bytes, 2);
  TELL(geosvm_hdelete(&s, 1, 1, 2));
  TELL(geosvm_hget(&s, 1, 1, bytes, sizeof bytes, &n));
  show_bytes(bytes, n);
  TELL(geosvm_hget(&s, 1, 4, bytes, sizeof bytes, &n));
  show_bytes(bytes, n);
  TELL(geosvm_hread(&s, 1, 3, 2, bytes, sizeof bytes, &n));
  TELL(geosvm_hinsert(&s, 1, 5, TEXT("!")));
  TELL(geosvm_hset(&s, 1, 3, TEXT("!!")));
  TELL(geosvm_hdelete(&s, 1, 3, 2));
  GIVES(geosvm_undos(&s, &n), n);
  TELL(geosvm_undo(&s));
  TELL(geosvm_hinsert(&s, 1, 6, many, sizeof many));
  PLACES(geosvm_touched(&s, 0, told, 4, &n));
  GIVES(geosvm_hcount(&s, 1, &n), n);
  TELL(geosvm_walk(&s, 1, list, 8, &n));
  show_handles(list, n);
  GIVES(geosvm_chsize(&s, 1, &n), n);
  TELL(geosvm_hset(&s, 1, 65509, TEXT("ab")));
  PLACES(geosvm_touched(&s, 0, told, 4, &n));
  TELL(geosvm_hread(&s, 1, 65508, 4, bytes, sizeof bytes, &n));
  show_bytes(bytes, n);
  GIVES(geosvm_hread(&s, 1, 0, 65520, bytes, sizeof bytes, &n), n);
  GIVES(geosvm_hread(&s, 1, 0, 65521, bytes, sizeof bytes, &n), n);
  TELL(geosvm_hdelete(&s, 1, 6, 70000));
  PLACES(geosvm_touched(&s, 0, told, 4, &n));
  TELL(geosvm_lock(&s, 1));
  TELL(geosvm_hinsert(&s, 1, 0, TEXT("")));
  TELL(geosvm_hset(&s, 1, 0, TEXT("H")));
  TELL(geosvm_hdelete(&s, 1, 0, 1));
  GIVES(geosvm_hcount(&s, 1, &n), n);
  GIVES(geosvm_hcreate(&s, 8, 0, &root), root);
  TELL(geosvm_unlock(&s, 1));
  TELL(geosvm_hinsert(&s, 3, 0, TEXT("one")));
  TELL(geosvm_hinsert(&s, 3, 1, TEXT("")));
  TELL(geosvm_hset(&s, 3, 1, TEXT("two")));
  GIVES(geosvm_hcount(&s, 3, &n), n);
  TELL(geosvm_hget(&s, 3, 1, bytes, sizeof bytes, &n));
  show_bytes(bytes, n);
  TELL(geosvm_hread(&s, 3, 0, 2, bytes, sizeof bytes, &n));
  TELL(geosvm_hinsert(&s, 3, 0, many, 65509));
  TELL(geosvm_hinsert(&s, 3, 0, many, 65508));
  TELL(geosvm_walk(&s, 3, list, 8, &n));
  show_handles(list, n);
  GIVES(geosvm_hget(&s, 3, 0, bytes, sizeof bytes, &n), n);
  TELL(geosvm_map(&s, 5));
  TELL(geosvm_hdelete(&s, 3, 0, 1));
  GIVES(geosvm_hcreate(&s, 7, 2, &root), root);
  TELL(geosvm_hinsert(&s, 6, 0, TEXT("abc")));
  TELL(geosvm_hinsert(&s, 6, 0, TEXT("abcd")));
  GIVES(geosvm_hcount(&s, 6, &n), n);
  GIVES(geosvm_hcount(&s, 2, &n), n);
  TELL(geosvm_hget(&s, 99, 0, bytes, sizeof bytes, &n));
  TELL(geosvm_save(&s));
  TELL(geosvm_close(&s));
  TELL(geosvm_open(&s, fd, 8));
  TELL(geosvm_hread(&s, 1, 0, 6, bytes, sizeof bytes, &n));
  show_bytes(bytes, n);
  TELL(geosvm_vwrite(&s, 2, 2, TEXT("\2")));
  TELL(geosvm_hget(&s, 1, 0, bytes, sizeof bytes, &n));
  GIVES(geosvm_hcount(&s, 1, &n), n);
  TELL(geosvm_close(&s));
  GIVES(geosvm_hcreate(&closed, 7, 1, &root), root);
  TELL(geosvm_hinsert(&closed, 1, 0, TEXT("hello")));
  TELL(geosvm_hset(&closed, 1, 0, TEXT("hello")));
  TELL(geosvm_hdelete(&closed, 1, 0, 1));
  GIVES(geosvm_hcount(&closed, 1, &n), n);
  GIVES(geosvm_hget(&closed, 1, 0, bytes, sizeof bytes, &n), n);
  GIVES(geosvm_hread(&closed, 1, 0, 1, bytes, sizeof bytes, &n), n);
  close(fd);
}

/* Names and sentences of codes: those of faults are the names that replies have. */
static void codes(void) {
  puts("-- codes");
  for (int32_t code = -1; code <= 105; code++) {
    uint8_t name[16];
    size_t n = 0;
    const int32_t told = geosvm_fault_name(code, name, sizeof name, &n);
    const bool is_fault = code >= 1 && code <= 29;
    if ((told == GEOSVM_OK) != is_fault) printf("%d: WRONG, no name\n", code);
    if (is_fault && (strlen(geosvm_code_name(code)) != n || memcmp(geosvm_code_name(code), name, n) != 0)) printf("%d: WRONG\n", code);
    if (code < 31 || code > 98) printf("%d %s: %s\n", code, geosvm_code_name(code), geosvm_code_text(code));
  }
  printf("%s, %s\n", geosvm_code_name(INT32_MIN), geosvm_code_text(INT32_MAX));
}

/* The longest reply is that of a whole raw block. */
static void longest(geosvm_session *s) {
  static uint8_t reply[GEOSVM_REPLY_MOST];
  size_t n = 0;
  const char *line = "vread 0002";
  puts("-- the longest reply");
  show(s, "newraw 1 65520");
  printf("%s: ", name_of(geosvm_command(s, (const uint8_t *)line, strlen(line), reply, sizeof reply, &n)));
  printf("%zu bytes\n", n);
}

/* Ten sessions of a thread's own, edited in turns. */
static void *worker(void *at) {
  long id = (long)at, bad = 0;
  enum { SESSIONS = 10, ROUNDS = 20 };
  geosvm_session s[SESSIONS];
  int fd[SESSIONS];
  char path[64], line[64], reply[256];
  for (int i = 0; i < SESSIONS; i++) {
    s[i] = GEOSVM_CLOSED;
    snprintf(path, sizeof path, "many-%ld-%d.document", id, i);
    fd[i] = file(path);
    bad += geosvm_create(&s[i], fd[i], 8) != GEOSVM_OK;
    bad += say(&s[i], "newraw 1 4", reply, sizeof reply) != GEOSVM_OK || strcmp(reply, "block 0001") != 0;
  }
  for (int round = 0; round < ROUNDS; round++)
    for (int i = 0; i < SESSIONS; i++) {
      snprintf(line, sizeof line, "vwrite 0001 0 %04x%04x", (int)id * SESSIONS + i, round);
      bad += say(&s[i], line, reply, sizeof reply) != GEOSVM_OK || strcmp(reply, "ok") != 0;
    }
  for (int i = 0; i < SESSIONS; i++) {
    uint8_t bytes[4];
    size_t n;
    bad += geosvm_undo(&s[i]) != GEOSVM_OK || geosvm_save(&s[i]) != GEOSVM_OK || geosvm_close(&s[i]) != GEOSVM_OK;
    bad += geosvm_open(&s[i], fd[i], 1) != GEOSVM_OK;
    bad += geosvm_vread(&s[i], 1, bytes, sizeof bytes, &n) != GEOSVM_OK || n != 4;
    bad += bytes[1] != id * SESSIONS + i || bytes[3] != ROUNDS - 2;
    bad += geosvm_close(&s[i]) != GEOSVM_OK;
    close(fd[i]);
  }
  return (void *)bad;
}

/* The versions of the two slots: 3 where it has checksums. */
static void show_versions(int fd) {
  uint8_t first = 0, second = 0;
  if (pread(fd, &first, 1, 5) != 1 || pread(fd, &second, 1, 517) != 1) perror("pread");
  printf("versions: %d %d\n", first, second);
}

/* Checksums are asked for: a new document has them, and one that is there gets them with its next commit, and keeps them. */
static void checksums(void) {
  geosvm_session s = GEOSVM_CLOSED;
  int fd = file("summed.document");
  puts("-- checksums");
  TELL(geosvm_create(&s, fd, 8));
  TELL(geosvm_close(&s));
  show_versions(fd);
  TELL(geosvm_open_checksums(&s, fd, 8));
  TELL(geosvm_close(&s));
  show_versions(fd);
  TELL(geosvm_open_checksums(&s, fd, 8));
  TELL(geosvm_save(&s));
  TELL(geosvm_close(&s));
  show_versions(fd);
  TELL(geosvm_open(&s, fd, 8));
  TELL(geosvm_save(&s));
  TELL(geosvm_close(&s));
  show_versions(fd);
  TELL(geosvm_create_checksums(&s, fd, 8));
  TELL(geosvm_close(&s));
  show_versions(fd);
  TELL(geosvm_open_checksums(&s, fd, 0));
  TELL(geosvm_create_checksums(&s, -7, 8));
  close(fd);
}

int main(void) {
  geosvm_session s = GEOSVM_CLOSED;
  TELL(note("first.document", "abc"));
  TELL(note("first.document", "and more"));
  TELL(note("nowhere/first.document", "abc"));
  int fd = file("one.document");
  TELL(geosvm_create(&s, fd, 8));
  edits(&s);
  lent(&s);
  lent_runs(&s);
  commits(&s, fd);
  another_file(&s, fd);
  refusals(&s, fd);
  longest(&s);
  codes();
  geosvm_session moved = s; /* moved, and the old place forgotten */
  s = GEOSVM_CLOSED;
  TELL(geosvm_close(&moved));
  TELL(geosvm_close(&moved));
  TELL(geosvm_create(&s, fd, 8));
  named_blocks(&s);
  named_arrays(&s);
  named_chains(&s);
  steps();
  step_names();
  places();
  large_arrays();
  many_runs();
  checksums();
  pthread_t thread[4];
  long bad = 0;
  void *result;
  for (long i = 0; i < 4; i++) pthread_create(&thread[i], NULL, worker, (void *)i);
  for (int i = 0; i < 4; i++) {
    pthread_join(thread[i], &result);
    bad += (long)result;
  }
  printf("-- 4 threads, 10 sessions each, 800 edits: %ld wrong answers\n", bad);
  close(fd);
  return 0;
}
