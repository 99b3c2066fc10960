/* Each call of the system behind a session's path fails in turn: what is answered, that no descriptor and no file is left over, and that
   the files that were there have what they had. The functions of the C library that make these calls are this program's. Run it in an
   empty folder. */
#define _GNU_SOURCE
#include "geosvm.h"
#include <dirent.h>
#include <errno.h>
#include <fcntl.h>
#include <stdarg.h>
#include <stdio.h>
#include <stdlib.h>
#include <string.h>
#include <sys/file.h>
#include <sys/mman.h>
#include <sys/stat.h>
#include <sys/syscall.h>
#include <unistd.h>

/* Which call fails, counted from 1 on where that isn't 0, and by which error. */
static int failing, error, count;
static const char *failed;    /* the call that did */
static const char *on_lock;   /* a file that takes the place of "a.document" before the next lock is taken */
static const char *on_making; /* one that does so before the next file is made */
static int folder_syncs;      /* how often a folder was synced */
static bool is_synced;        /* whether all that was written was */
static bool is_kept_first;    /* whether that was so at each rename */
static const char *only;      /* the only calls that are counted, where it isn't NULL */

static bool fails(const char *call) {
  if (failing == 0 || (only != NULL && strcmp(only, call) != 0) || ++count != failing) return false;
  failed = call;
  errno = error;
  return true;
}
#define CALL(call, system, ...) (fails(call) ? -1 : syscall(system, __VA_ARGS__))

static int opens(const char *path, int flags, va_list more) {
  if (on_making != NULL && (flags & O_EXCL) != 0) {
    syscall(SYS_rename, on_making, "a.document");
    on_making = NULL;
  }
  const mode_t mode = flags & (O_CREAT | O_TMPFILE) ? va_arg(more, mode_t) : 0;
  return (int)CALL("open", SYS_openat, AT_FDCWD, path, flags, mode);
}
#define OPENS(name) \
  int name(const char *path, int flags, ...) { \
    va_list more; \
    va_start(more, flags); \
    const int number = opens(path, flags, more); \
    va_end(more); \
    return number; \
  }
OPENS(open)
OPENS(open64)
int flock(int number, int operation) {
  if (on_lock != NULL) {
    syscall(SYS_rename, on_lock, "a.document");
    on_lock = NULL;
  }
  return (int)CALL("flock", SYS_flock, number, operation);
}
int fsync(int number) {
  struct stat64 status;
  const int result = (int)CALL("fsync", SYS_fsync, number);
  syscall(SYS_fstat, number, &status);
  if (result == 0 && S_ISDIR(status.st_mode)) folder_syncs++;
  else if (result == 0) is_synced = true;
  return result;
}
int ftruncate64(int number, off64_t size) { return (int)CALL("ftruncate", SYS_ftruncate, number, size); }
ssize_t pread64(int number, void *buffer, size_t size, off64_t at) { return CALL("pread", SYS_pread64, number, buffer, size, at); }
ssize_t pwrite64(int number, const void *bytes, size_t size, off64_t at) {
  is_synced = false;
  return CALL("pwrite", SYS_pwrite64, number, bytes, size, at);
}
off64_t lseek64(int number, off64_t at, int whence) { return CALL("lseek", SYS_lseek, number, at, whence); }
int fstat64(int number, struct stat64 *status) { return (int)CALL("fstat", SYS_fstat, number, status); }
int stat64(const char *path, struct stat64 *status) { return (int)CALL("stat", SYS_stat, path, status); }
int fchmod(int number, mode_t mode) { return (int)CALL("fchmod", SYS_fchmod, number, mode); }
int rename(const char *from, const char *to) {
  is_kept_first = is_kept_first && is_synced;
  return (int)CALL("rename", SYS_rename, from, to);
}
int memfd_create(const char *name, unsigned flags) { return (int)CALL("memfd_create", SYS_memfd_create, name, flags); }
int mkostemp64(char *path, int flags) {
  static unsigned number;
  snprintf(path + strlen(path) - 6, 7, "%06u", number++);
  return (int)CALL("mkostemp", SYS_openat, AT_FDCWD, path, O_RDWR | O_CREAT | O_EXCL | flags, 0600);
}

static long wrong;
static void must(bool is_so, const char *what, int line) {
  if (is_so) return;
  wrong++;
  printf("WRONG, line %d, %s: call %d, %s, by %s\n", line, what, failing, failed == NULL ? "none" : failed, strerrorname_np(error));
}
#define MUST(is_so) must(is_so, #is_so, __LINE__)

static void clear(void) {
  DIR *folder = opendir(".");
  for (const struct dirent *it; (it = readdir(folder)) != NULL;) unlink(it->d_name);
  closedir(folder);
}
static int count_files(void) {
  int number = 0;
  DIR *folder = opendir(".");
  for (const struct dirent *it; (it = readdir(folder)) != NULL;) number += it->d_name[0] != '.';
  closedir(folder);
  return number;
}
static int count_open(void) {
  int number = 0;
  for (int i = 0; i < 100; i++) number += fcntl(i, F_GETFD) >= 0;
  return number;
}

/* A document that is known by a byte, or an empty file where that is 0. */
static void make(const char *path, uint8_t mark) {
  geosvm_session s = GEOSVM_CLOSED;
  const uint8_t bytes[1] = {mark};
  uint16_t block = 0;
  if (mark == 0) {
    close(open(path, O_RDWR | O_CREAT, 0666));
    return;
  }
  MUST(geosvm_open_path(&s, path, GEOSVM_PATH_NEW) == GEOSVM_OK);
  MUST(geosvm_newraw(&s, 1, 1, &block) == GEOSVM_OK && geosvm_vwrite(&s, 1, 0, bytes, 1) == GEOSVM_OK);
  MUST(geosvm_save(&s) == GEOSVM_OK && geosvm_close(&s) == GEOSVM_OK);
}
static int mark_in(geosvm_session *s) {
  uint8_t bytes[1] = {0};
  size_t length = 0;
  return geosvm_vread(s, 1, bytes, 1, &length) == GEOSVM_OK ? bytes[0] : 0;
}
/* What the file opens to: its mark, 0 for an empty document or file, -1 where there is no file, -2 where it is none. */
static int mark_at(const char *path) {
  geosvm_session s = GEOSVM_CLOSED;
  struct stat64 status;
  if (stat64(path, &status) != 0) return -1;
  if (status.st_size == 0) return 0;
  const int mark = geosvm_open_path(&s, path, GEOSVM_PATH_READ) == GEOSVM_OK ? mark_in(&s) : -2;
  geosvm_close(&s);
  return mark;
}

/* The file before, as a mark; by which flags it is opened; and the mark afterwards. */
struct opening {
  const char *name;
  int before;
  uint32_t flags;
  int after;
};
static const struct opening openings[] = {
    {"an old one", 1, GEOSVM_PATH_EXISTING, 1}, {"an old one, to be read", 1, GEOSVM_PATH_READ, 1},
    {"an old one, or a new one", 1, GEOSVM_PATH_CREATE, 1}, {"one that is missing, made", -1, GEOSVM_PATH_CREATE, 0},
    {"a new one", -1, GEOSVM_PATH_NEW, 0}, {"an empty file", 0, GEOSVM_PATH_CREATE, 0},
    {"one that is missing, emptied", -1, GEOSVM_PATH_EMPTY, 0}, {"an old one, emptied", 1, GEOSVM_PATH_EMPTY, 0},
    {"memory", -1, GEOSVM_PATH_MEMORY, 0}, {"an old one, for checksums", 1, GEOSVM_PATH_CREATE | GEOSVM_PATH_CHECKSUMS, 1},
    {"a new one with checksums", -1, GEOSVM_PATH_NEW | GEOSVM_PATH_CHECKSUMS, 0},
};

/* One try of it, in which one call fails; whether one did. */
static bool try_opening(const struct opening *it, int number, bool goes_well) {
  geosvm_session s = GEOSVM_CLOSED;
  const int open_before = count_open();
  clear();
  if (it->before >= 0) make("a.document", (uint8_t)it->before);
  failing = number, count = 0, failed = NULL, folder_syncs = 0;
  const int32_t code = geosvm_open_path(&s, it->flags == GEOSVM_PATH_MEMORY ? NULL : "a.document", it->flags);
  failing = 0;
  if (failed == NULL || goes_well) {
    MUST(code == GEOSVM_OK);
    MUST(mark_in(&s) == it->after);
    MUST(folder_syncs == (it->before <= 0 && it->flags != GEOSVM_PATH_MEMORY));
  } else {
    MUST(code == GEOSVM_FILE && geosvm_last_error() == error);
    MUST(geosvm_undos(&s, &(size_t){0}) == GEOSVM_NOT_OPEN);
  }
  MUST((geosvm_close(&s) == GEOSVM_OK) == (code == GEOSVM_OK));
  MUST(count_open() == open_before);
  const int mark = mark_at("a.document");
  const bool is_emptied = it->flags == GEOSVM_PATH_EMPTY && it->before > 0;
  if (code != GEOSVM_OK && !is_emptied) MUST(mark == it->before);
  if (code == GEOSVM_OK) MUST(it->flags == GEOSVM_PATH_MEMORY ? mark == -1 : mark == it->after);
  MUST(count_files() == (mark >= 0 || is_emptied));
  return failed != NULL;
}

static void try_openings(void) {
  for (size_t i = 0; i < sizeof openings / sizeof openings[0]; i++) {
    int number = 1;
    error = EIO;
    while (try_opening(&openings[i], number, false)) number++;
    error = ENOSPC;
    for (int again = 1; again < number; again++) try_opening(&openings[i], again, false);
    printf("%s: %s\n", openings[i].name, number > 3 ? "each call failed" : "NO CALL");
  }
}

/* A signal interrupts a call, once: nothing is told. */
static void try_interruptions(void) {
  static const char *const calls[] = {"open", "flock", "fsync", "ftruncate", "pread", "pwrite"};
  error = EINTR;
  for (size_t i = 0; i < sizeof openings / sizeof openings[0]; i++)
    for (size_t call = 0; call < sizeof calls / sizeof calls[0]; call++) {
      int number = 1;
      only = calls[call];
      while (try_opening(&openings[i], number, true)) number++;
    }
  only = NULL;
  puts("interrupted calls are made again");
}

/* A save into "b.document", which had a mark before, or is missing; one call fails. */
static bool try_saving(int before, uint32_t flags, int number) {
  geosvm_session s = GEOSVM_CLOSED;
  const uint8_t bytes[1] = {9};
  size_t modified = 0;
  clear();
  make("a.document", 1);
  if (before >= 0) make("b.document", (uint8_t)before);
  const int open_before = count_open();
  MUST(geosvm_open_path(&s, "a.document", GEOSVM_PATH_EXISTING) == GEOSVM_OK);
  MUST(geosvm_vwrite(&s, 1, 0, bytes, 1) == GEOSVM_OK);
  failing = number, count = 0, failed = NULL, folder_syncs = 0, is_kept_first = true;
  const int32_t code = geosvm_save_as_path(&s, "b.document", flags);
  failing = 0;
  MUST(failed == NULL ? code == GEOSVM_OK : code == GEOSVM_FILE && geosvm_last_error() == error);
  MUST(is_kept_first && (code != GEOSVM_OK || folder_syncs == 1));
  MUST(mark_in(&s) == 9 && geosvm_modified(&s, &modified) == GEOSVM_OK);
  const bool has_moved = modified == (GEOSVM_AS_SAVED | GEOSVM_AS_UPDATED);
  const bool is_beside = has_moved && failed != NULL && strcmp(failed, "rename") == 0;
  MUST(has_moved ? code == GEOSVM_OK || is_beside || strcmp(failed, "fsync") == 0 : code != GEOSVM_OK);
  MUST(geosvm_undo(&s) == GEOSVM_OK && geosvm_redo(&s) == GEOSVM_OK);
  MUST(count_open() == open_before + 1);
  MUST(count_files() == 1 + (before >= 0 || (has_moved && !is_beside)) + is_beside);
  if (!has_moved && failed != NULL && strcmp(failed, "fsync") != 0) MUST(geosvm_save(&s) == GEOSVM_OK);
  MUST(geosvm_close(&s) == GEOSVM_OK && count_open() == open_before);
  const int own = mark_at("a.document");
  MUST(has_moved ? own == 1 : own == 9 || own == 1);
  MUST(mark_at("b.document") == (has_moved && !is_beside ? 9 : before));
  return failed != NULL;
}

static void try_savings(void) {
  static const int errors[] = {EIO, ENOSPC};
  for (int i = 0; i < 2; i++) {
    int number[3] = {1, 1, 1};
    error = errors[i];
    while (try_saving(-1, 0, number[0])) number[0]++;
    while (try_saving(-1, GEOSVM_PATH_NEW, number[1])) number[1]++;
    while (try_saving(2, 0, number[2])) number[2]++;
    puts(number[0] > 15 && number[1] > 15 && number[2] > 15 ? "saved as: each call failed" : "saved as: NO CALL");
  }
}

/* What others do between the calls. */
static void try_others(void) {
  geosvm_session s = GEOSVM_CLOSED;
  uint16_t block = 0;
  clear();
  make("a.document", 1);
  make("b.document", 2);
  on_lock = "b.document";
  MUST(geosvm_open_path(&s, "a.document", GEOSVM_PATH_EXISTING) == GEOSVM_OK && mark_in(&s) == 2);
  MUST(geosvm_close(&s) == GEOSVM_OK);
  puts("another file took the place before the lock: that is opened");
  make("b.document", 3);
  on_lock = "b.document";
  MUST(geosvm_open_path(&s, "a.document", GEOSVM_PATH_EMPTY) == GEOSVM_OK && geosvm_close(&s) == GEOSVM_OK);
  MUST(mark_at("a.document") == 0 && count_files() == 1);
  clear();
  make("b.document", 4);
  on_making = "b.document";
  MUST(geosvm_open_path(&s, "a.document", GEOSVM_PATH_CREATE) == GEOSVM_OK && mark_in(&s) == 4);
  MUST(geosvm_close(&s) == GEOSVM_OK);
  make("b.document", 5);
  unlink("a.document");
  on_making = "b.document";
  MUST(geosvm_open_path(&s, "a.document", GEOSVM_PATH_NEW) == GEOSVM_FILE && geosvm_last_error() == EEXIST && mark_at("a.document") == 5);
  puts("another file came before one was made: that is opened, or refused");
  clear();
  failing = 1, count = 0, error = EWOULDBLOCK, only = "flock";
  MUST(geosvm_open_path(&s, "a.document", GEOSVM_PATH_NEW) == GEOSVM_FILE && geosvm_last_error() == EWOULDBLOCK);
  failing = 0, only = NULL;
  MUST(mark_at("a.document") == 0);
  puts("somebody has locked the file that was made: it is theirs, and stays");
  clear();
  failing = 1, count = 0, error = ENOSYS, only = "memfd_create";
  MUST(geosvm_open_path(&s, NULL, GEOSVM_PATH_MEMORY) == GEOSVM_OK);
  failing = 0, only = NULL;
  MUST(geosvm_newraw(&s, 1, 4, &block) == GEOSVM_OK && geosvm_save(&s) == GEOSVM_OK && geosvm_close(&s) == GEOSVM_OK);
  MUST(count_files() == 0);
  puts("no memfd_create: a temporary file without a name");
}

int main(void) {
  setenv("TMPDIR", ".", 1);
  try_openings();
  try_interruptions();
  try_savings();
  try_others();
  printf("%ld wrong answers\n", wrong);
  return wrong != 0;
}
