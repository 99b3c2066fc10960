/*
** channel.c: the program's end of the channel by which the library reaches its files.
**
** The library asks for each call on a file by a message of 24 bytes: what it asks for, seven zeros, an offset, and how many bytes, both
** of these in eight bytes, the low byte first. Bytes that are to be read or written are moved next, straight from and to where the
** library has them. It calls read and write for all of that, which the archive has under the names below (see build.sh), so nothing
** leaves the process: a message is answered by the functions geosvm_io_* of geosvm.h before the call that brought it returns.
**
** A message that asks whether a session may begin on a file has, in place of the offset, the number of the file that the session is in, or
** -1, by its two's complement.
**
** A message that can't be carried out is answered as a write that failed, and so are bytes that weren't taken. After a read that gave
** too little the library asks whether that was the file's end. Nothing else is expected after any failure, so it may go on by a message.
**
** Why a function has failed is kept, for geosvm_last_error.
*/
#include "private.h"

#if defined(__STDC_VERSION__) && __STDC_VERSION__ >= 201112L
#define PER_THREAD _Thread_local
#else
#define PER_THREAD __thread
#endif

intptr_t geosvm_channel_read(int32_t number, void *buffer, size_t size);
intptr_t geosvm_channel_write(int32_t number, const void *bytes, size_t size);

enum { MESSAGE_LENGTH = 24 };

/* What a message asks for. */
enum operation { NOTHING, READ, READ_END, WRITE, LEN, SET_LEN, SYNC, BEGIN };

/* What the last message of this thread asked for and isn't done yet. A message and all that follows it lie within one call of the
   library, so there is one at a time, however many sessions a thread has. */
static PER_THREAD struct {
  enum operation operation; /* NOTHING: a message comes next */
  int64_t at;
  uint64_t left;  /* how many bytes are still to be moved */
  int64_t length; /* of the file, where that was asked for */
  bool has_failed; /* whether the last read that gave too little has failed */
} pending;

static PER_THREAD int last_error;

int geosvm_last_error(void) { return last_error; }

void note_failure(int error) {
  last_error = error != 0 ? error : EIO;
  errno = last_error;
}

/* Calls a function of the program's, and keeps why it failed. errno stays as it was where it didn't. */
#define TRIED(result, has_failed, call) \
  do { \
    const int before = errno; \
    errno = 0; \
    result = call; \
    if (has_failed) note_failure(errno); \
    else errno = before; \
  } while (0)

/* What can't be asked for has failed too. */
static bool failed_by(int error) {
  note_failure(error);
  return false;
}

static uint64_t number_at(const uint8_t *text) {
  uint64_t number = 0;
  for (int i = 8; i-- > 0;) number = number << 8 | text[i];
  return number;
}

/* The number of a file that stands in place of an offset, in its low four bytes. */
static int32_t file_number_of(uint64_t at) {
  const uint32_t low = (uint32_t)at;
  return low <= INT32_MAX ? (int32_t)low : (int32_t)(low - 0x80000000u) + INT32_MIN;
}

static bool may_begin(int32_t number, int32_t own) {
  int32_t status;
  if (owner_of_functions() == OF_BOTH) return failed_by(ENOSYS);
  TRIED(status, status != 0, geosvm_io_begin(number, own));
  return status == 0;
}

/* Carries out what a message asks for, or keeps it until its bytes come. */
static bool is_carried_out(int32_t number, const uint8_t *message) {
  const uint64_t at = number_at(message + 8), size = number_at(message + 16);
  int32_t status;
  pending.operation = NOTHING;
  if (message[0] == BEGIN) return may_begin(number, file_number_of(at));
  if (at > INT64_MAX || size > INT64_MAX - at) return failed_by(EFBIG);
  switch (message[0]) {
  case READ:
  case WRITE:
    pending.operation = size == 0 ? NOTHING : message[0] == READ ? READ : WRITE;
    pending.at = (int64_t)at;
    pending.left = size;
    pending.has_failed = false;
    return true;
  case READ_END:
    if (!pending.has_failed) note_failure(ENODATA);
    return !pending.has_failed;
  case LEN:
    pending.operation = LEN;
    TRIED(pending.length, pending.length < 0, geosvm_io_len(number));
    return pending.length >= 0;
  case SET_LEN:
    TRIED(status, status != 0, geosvm_io_set_len(number, (int64_t)size));
    return status == 0;
  case SYNC:
    TRIED(status, status != 0, geosvm_io_sync(number));
    return status == 0;
  default:
    return failed_by(ENOSYS);
  }
}

/* Whether a function of the program can have moved so many bytes. */
static bool is_part(int64_t count, size_t size) {
  return count > 0 && (uint64_t)count <= size && (uint64_t)count <= pending.left;
}

/* What read or write answers where a function of the program moved so many bytes. */
static intptr_t moved(int64_t count, size_t size) {
  if (is_part(count, size)) {
    pending.at += count;
    pending.left -= (uint64_t)count;
    if (pending.left == 0) pending.operation = NOTHING;
    return (intptr_t)count;
  }
  pending.operation = NOTHING;
  pending.has_failed = count != 0;
  return count == 0 ? 0 : -1;
}

intptr_t geosvm_channel_read(int32_t number, void *buffer, size_t size) {
  int64_t count;
  if (pending.operation == READ) {
    TRIED(count, count != 0 && !is_part(count, size), geosvm_io_read(number, buffer, size, pending.at));
    return moved(count, size);
  }
  if (pending.operation != LEN || size != 8) return -1;
  for (int i = 0; i < 8; i++) ((uint8_t *)buffer)[i] = (uint8_t)((uint64_t)pending.length >> 8 * i);
  pending.operation = NOTHING;
  return 8;
}

intptr_t geosvm_channel_write(int32_t number, const void *bytes, size_t size) {
  int64_t count;
  if (pending.operation == WRITE) {
    TRIED(count, !is_part(count, size), geosvm_io_write(number, bytes, size, pending.at));
    return moved(count, size);
  }
  return size == MESSAGE_LENGTH && is_carried_out(number, bytes) ? MESSAGE_LENGTH : -1;
}
