/*
** failing_calls.c: a library that is loaded before the C library (LD_PRELOAD). It tells each call on files that a program makes, and has
** one of them fail, or each from one on. failing_calls.py says by the environment which:
**
**   CALLS_TOLD      the file to which each call is told, on a line
**   CALLS_BARE      where it is there, no bytes are told
**   FAILING_CALL    which calls are counted: a name and what it is of, as "pwrite file" or "fsync folder"
**   FAILING_NUMBER  which of these fails, from 1 on; none where it isn't there
**   FAILING_HOW     the number of the error, or "short": no more than half of the bytes are moved
**   FAILING_LASTS   where it is there, each fails from that one on
**
** A call is of "input", "output", "errors", "null", "folder" or "file". Its line has its name, what it is of, the number of the file in
** its folder, where in the file and how many bytes, what came of it (less than 0: the error), and the bytes written or the path.
*/
#define _GNU_SOURCE
#include <errno.h>
#include <fcntl.h>
#include <stdarg.h>
#include <stdio.h>
#include <stdlib.h>
#include <string.h>
#include <sys/stat.h>
#include <sys/syscall.h>
#include <unistd.h>

enum { TOLD_TO = 1000, MOST_BYTES = 1 << 18 };

static int told_to = -1;
static const char *failing, *how;
static long failing_number, count;
static int lasts, is_bare;

__attribute__((constructor)) static void begin(void) {
  const char *path = getenv("CALLS_TOLD"), *number = getenv("FAILING_NUMBER");
  if (path) {
    /* A number that no call of the program gets. */
    int low = (int)syscall(SYS_openat, AT_FDCWD, path, O_WRONLY | O_CREAT | O_APPEND, 0600);
    told_to = (int)syscall(SYS_fcntl, low, F_DUPFD_CLOEXEC, TOLD_TO);
    syscall(SYS_close, low);
  }
  is_bare = getenv("CALLS_BARE") != NULL;
  failing = getenv("FAILING_CALL");
  how = getenv("FAILING_HOW");
  lasts = getenv("FAILING_LASTS") != NULL;
  failing_number = failing && number ? atol(number) : 0;
}

/* What a number is of, and the number of its file in the folder. */
static const char *kind_of(int number, unsigned long *node) {
  static const char *const streams[] = {"input", "output", "errors"};
  struct stat it;
  *node = 0;
  if (syscall(SYS_newfstatat, number, "", &it, AT_EMPTY_PATH) != 0) return number >= 0 && number < 3 ? streams[number] : "nothing";
  *node = it.st_ino;
  if (S_ISDIR(it.st_mode)) return "folder";
  if (number >= 0 && number < 3) return streams[number];
  return S_ISCHR(it.st_mode) ? "null" : "file";
}

static const char *kind_of_path(const char *path) {
  struct stat it;
  if (strcmp(path, "/dev/null") == 0) return "null";
  return syscall(SYS_newfstatat, AT_FDCWD, path, &it, 0) == 0 && S_ISDIR(it.st_mode) ? "folder" : "file";
}

static void tell(const char *call, const char *kind, unsigned long node, long at, size_t size, long result, const char *more) {
  static char line[MOST_BYTES * 2 + 300];
  int error = errno;
  int length = snprintf(line, sizeof line, "%s %s %lu %ld %zu %ld %s\n", call, kind, node, at, size, result < 0 ? -(long)error : result, more);
  if (told_to >= 0 && syscall(SYS_write, told_to, line, (size_t)length) != length) _exit(99);
  errno = error;
}

static int fails(const char *call, const char *kind) {
  size_t length = strlen(call);
  if (failing_number == 0 || strncmp(failing, call, length) != 0 || failing[length] != ' ' || strcmp(failing + length + 1, kind) != 0)
    return 0;
  count++;
  return lasts ? count >= failing_number : count == failing_number;
}

static int is_short(void) { return how && strcmp(how, "short") == 0; }

static long failed(void) {
  errno = how ? atoi(how) : EIO;
  return -1;
}

static const char *hex_of(const unsigned char *bytes, size_t size) {
  static char text[MOST_BYTES * 2 + 1];
  static const char digits[] = "0123456789abcdef";
  if (size > MOST_BYTES) _exit(99);
  for (size_t i = 0; i < size; i++) {
    text[2 * i] = digits[bytes[i] >> 4];
    text[2 * i + 1] = digits[bytes[i] & 15];
  }
  text[2 * size] = 0;
  return text;
}

/* A call that moves bytes. */
static ssize_t move(const char *call, long system, int number, void *bytes, size_t size, long at) {
  unsigned long node;
  const char *kind = kind_of(number, &node);
  int is_failing = fails(call, kind);
  size_t asked = is_failing && is_short() && size > 1 ? size / 2 : size;
  ssize_t result = is_failing && !is_short() ? failed() : syscall(system, number, bytes, asked, at);
  int writes = system == SYS_write || system == SYS_pwrite64;
  tell(call, kind, node, at, size, result, writes && result > 0 && !is_bare ? hex_of(bytes, (size_t)result) : "");
  return result;
}

ssize_t read(int number, void *buffer, size_t size) { return move("read", SYS_read, number, buffer, size, 0); }
ssize_t write(int number, const void *bytes, size_t size) { return move("write", SYS_write, number, (void *)bytes, size, 0); }
ssize_t pread(int number, void *buffer, size_t size, off_t at) { return move("pread", SYS_pread64, number, buffer, size, at); }
ssize_t pread64(int number, void *buffer, size_t size, off_t at) { return move("pread", SYS_pread64, number, buffer, size, at); }
ssize_t pwrite(int number, const void *bytes, size_t size, off_t at) { return move("pwrite", SYS_pwrite64, number, (void *)bytes, size, at); }
ssize_t pwrite64(int number, const void *bytes, size_t size, off_t at) { return move("pwrite", SYS_pwrite64, number, (void *)bytes, size, at); }

/* A call on a number that moves none. */
static long act(const char *call, long system, int number, long first, long second) {
  unsigned long node;
  const char *kind = kind_of(number, &node);
  long result = fails(call, kind) ? failed() : syscall(system, number, first, second);
  tell(call, kind, node, first, 0, result, "");
  return result;
}

int ftruncate(int number, off_t size) { return (int)act("ftruncate", SYS_ftruncate, number, size, 0); }
int ftruncate64(int number, off_t size) { return (int)act("ftruncate", SYS_ftruncate, number, size, 0); }
int fsync(int number) { return (int)act("fsync", SYS_fsync, number, 0, 0); }
int fdatasync(int number) { return (int)act("fsync", SYS_fdatasync, number, 0, 0); }
int flock(int number, int operation) { return (int)act("flock", SYS_flock, number, operation, 0); }
int close(int number) { return (int)act("close", SYS_close, number, 0, 0); }
off_t lseek(int number, off_t at, int whence) { return act("lseek", SYS_lseek, number, at, whence); }
off_t lseek64(int number, off_t at, int whence) { return act("lseek", SYS_lseek, number, at, whence); }
int fchmod(int number, mode_t mode) { return (int)act("fchmod", SYS_fchmod, number, (long)mode, 0); }
int fchown(int number, uid_t owner, gid_t group) { return (int)act("fchown", SYS_fchown, number, (long)owner, (long)group); }

static int opens(int folder, const char *path, int flags, mode_t mode) {
  const char *kind = kind_of_path(path);
  unsigned long node = 0;
  long result = fails("open", kind) ? failed() : syscall(SYS_openat, folder, path, flags, mode);
  if (result >= 0) kind_of((int)result, &node);
  tell("open", kind, node, flags, 0, result, path);
  return (int)result;
}

#define OPENS(name, parameters, folder) \
  int name parameters { \
    mode_t mode = 0; \
    if (flags & (O_CREAT | O_TMPFILE)) { \
      va_list more; \
      va_start(more, flags); \
      mode = va_arg(more, mode_t); \
      va_end(more); \
    } \
    return opens(folder, path, flags, mode); \
  }
OPENS(open, (const char *path, int flags, ...), AT_FDCWD)
OPENS(open64, (const char *path, int flags, ...), AT_FDCWD)
OPENS(openat, (int folder, const char *path, int flags, ...), folder)
OPENS(openat64, (int folder, const char *path, int flags, ...), folder)

/* A call on a path, of a number's file where it is empty. */
int statx(int folder, const char *restrict path, int flags, unsigned mask, struct statx *restrict it) {
  unsigned long node = 0;
  const char *kind = *path ? kind_of_path(path) : kind_of(folder, &node);
  long result = fails("stat", kind) ? failed() : syscall(SYS_statx, folder, path, flags, mask, it);
  tell("stat", kind, node, 0, 0, result, path);
  return (int)result;
}

static long renames(int from_folder, const char *from, int to_folder, const char *to) {
  long result = fails("rename", "file") ? failed() : syscall(SYS_renameat, from_folder, from, to_folder, to);
  char both[8192];
  snprintf(both, sizeof both, "%s\t%s", from, to);
  tell("rename", "file", 0, 0, 0, result, both);
  return result;
}

int rename(const char *from, const char *to) { return (int)renames(AT_FDCWD, from, AT_FDCWD, to); }
int renameat(int from_folder, const char *from, int to_folder, const char *to) { return (int)renames(from_folder, from, to_folder, to); }

static long unlinks(int folder, const char *path, int flags) {
  long result = fails("unlink", "file") ? failed() : syscall(SYS_unlinkat, folder, path, flags);
  tell("unlink", "file", 0, 0, 0, result, path);
  return result;
}

int unlink(const char *path) { return (int)unlinks(AT_FDCWD, path, 0); }
int unlinkat(int folder, const char *path, int flags) { return (int)unlinks(folder, path, flags); }
