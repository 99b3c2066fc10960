/*
** files.c: the six functions of geosvm.h for programs whose documents are files, each by the descriptor of its file. A call that a signal
** interrupts is made again.
**
** They are weak, so those that a program defines are called in their place, in the archive as in the shared library. Where it defines all
** but geosvm_io_begin, the one here is called with a number of the program's own, and any session may go on by that.
*/
#define _POSIX_C_SOURCE 200809L
#define _FILE_OFFSET_BITS 64
#include "private.h"
#include <fcntl.h>
#include <stdbool.h>
#include <sys/stat.h>
#include <sys/types.h>
#include <unistd.h>

/* Two numbers may be one file by dup, by its name or by another name of it. */
static bool are_one_file(int32_t file, int32_t other) {
  struct stat here, there;
  if (fstat(file, &here) != 0 || fstat(other, &there) != 0) return true;
  if (here.st_dev != there.st_dev || here.st_ino != there.st_ino) return false;
  errno = EBUSY;
  return true;
}

static int32_t begin(int32_t file, int32_t own) {
  int flags;
  if (owner_of_functions() != OF_LIBRARY) return 0;
  flags = fcntl(file, F_GETFL);
  if (flags < 0) return -1;
  if ((flags & O_APPEND) != 0) {
    errno = EINVAL;
    return -1;
  }
  return own >= 0 && are_one_file(file, own) ? -1 : 0;
}

static int64_t read_at(int32_t file, void *buffer, size_t size, int64_t at) {
  ssize_t count;
  CARRIED_ON(count, pread(file, buffer, size, (off_t)at));
  return count;
}

/* The system has EBADF or EINVAL for a change of a file that is open to be read alone. */
static int64_t changed(int32_t file, int64_t result) {
  const int error = errno, flags = result < 0 ? fcntl(file, F_GETFL) : -1;
  errno = flags >= 0 && (flags & O_ACCMODE) == O_RDONLY ? EROFS : error;
  return result;
}

static int64_t write_at(int32_t file, const void *bytes, size_t size, int64_t at) {
  ssize_t count;
  CARRIED_ON(count, pwrite(file, bytes, size, (off_t)at));
  return changed(file, count);
}

static int64_t length(int32_t file) { return lseek(file, 0, SEEK_END); }

static int32_t set_length(int32_t file, int64_t size) {
  int status;
  CARRIED_ON(status, ftruncate(file, (off_t)size));
  return (int32_t)changed(file, status);
}

static int32_t sync_file(int32_t file) {
  int status;
  CARRIED_ON(status, fsync(file));
  return status;
}

#define INSTEAD(function) __attribute__((weak, alias(function)))
int32_t geosvm_io_begin(int32_t number, int32_t own) INSTEAD("begin");
int64_t geosvm_io_read(int32_t number, void *buffer, size_t size, int64_t at) INSTEAD("read_at");
int64_t geosvm_io_write(int32_t number, const void *bytes, size_t size, int64_t at) INSTEAD("write_at");
int64_t geosvm_io_len(int32_t number) INSTEAD("length");
int32_t geosvm_io_set_len(int32_t number, int64_t size) INSTEAD("set_length");
int32_t geosvm_io_sync(int32_t number) INSTEAD("sync_file");

enum owner owner_of_functions(void) {
  const int count = (geosvm_io_read == read_at) + (geosvm_io_write == write_at) + (geosvm_io_len == length) +
                    (geosvm_io_set_len == set_length) + (geosvm_io_sync == sync_file);
  return count == 5 ? OF_LIBRARY : count == 0 ? OF_PROGRAM : OF_BOTH;
}
