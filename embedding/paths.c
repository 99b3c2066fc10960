/*
** paths.c: sessions on files by their paths. A file is locked before anything in it is cut or written, and stays locked as long as its
** session has it; one that is made is taken away again where its document can't be made.
**
** Nothing of it is proved. paths_try.c tries it, and paths_fail.c with each call of the system failing in turn.
*/
#define _GNU_SOURCE
#define _FILE_OFFSET_BITS 64
#include "private.h"
#include <fcntl.h>
#include <stdbool.h>
#include <stdio.h>
#include <stdlib.h>
#include <string.h>
#include <sys/file.h>
#include <sys/mman.h>
#include <sys/stat.h>
#include <unistd.h>

enum { FRAMES = 64, MODE = 0666, MOST_TRIES = 16 };

/* A file that was opened. */
struct opened {
  int number;   /* its descriptor, which is never 0, 1 or 2; less than 0 where there is none */
  bool is_made; /* whether there was no file */
  bool is_empty;
};

/* Closes a descriptor, which changes no errno. */
static void close_quietly(int number) {
  const int error = errno;
  if (number >= 0) close(number);
  errno = error;
}

/* A descriptor that nobody takes for a standard stream, where one of these is closed. */
static int above_streams(int number) {
  int above;
  if (number < 0 || number > 2) return number;
  above = fcntl(number, F_DUPFD_CLOEXEC, 3);
  close_quietly(number);
  return above;
}

/* Without waiting: another program needn't come to a pipe's other end. */
static int open_at(const char *path, int flags) {
  int number;
  CARRIED_ON(number, open(path, flags | O_CLOEXEC | O_NONBLOCK | O_NOCTTY, MODE));
  return number;
}

/* The descriptor of what lies at a path, or of what is made there, where the flags say so. */
static int find_or_make(const char *path, uint32_t flags, bool *is_made) {
  int number = -1;
  if (flags != GEOSVM_PATH_NEW) {
    number = open_at(path, flags == GEOSVM_PATH_READ ? O_RDONLY : O_RDWR);
    if (number >= 0 || errno != ENOENT || flags == GEOSVM_PATH_EXISTING || flags == GEOSVM_PATH_READ) return number;
  }
  number = open_at(path, O_RDWR | O_CREAT | O_EXCL);
  *is_made = number >= 0;
  if (number >= 0 || errno != EEXIST || flags == GEOSVM_PATH_NEW) return number;
  /* Somebody has made it meanwhile, or the path is a link to a file that isn't there. */
  return open_at(path, O_RDWR | O_CREAT);
}

static struct opened open_or_make(const char *path, uint32_t flags) {
  struct opened file = {-1, false, false};
  file.number = above_streams(find_or_make(path, flags, &file.is_made));
  if (file.number < 0 && file.is_made) unlink(path);
  return file;
}

/* Whether a file lies at a path; ESTALE where another one does, or none. */
static bool lies_at(const struct stat *file, const char *path) {
  struct stat there;
  const int result = stat(path, &there);
  if (result == 0 && file->st_dev == there.st_dev && file->st_ino == there.st_ino) return true;
  if (result == 0 || errno == ENOENT) errno = ESTALE;
  return false;
}

/* Takes away a file that was made here and has the lock, unless the path is another file's by now. */
static void unmake(const struct opened *file, const char *path) {
  const int error = errno;
  struct stat status;
  if (file->is_made && fstat(file->number, &status) == 0 && lies_at(&status, path)) unlink(path);
  errno = error;
}

/* Locks a regular file that lies at its path still. Where somebody else has the lock a file that was made here is theirs. */
static bool is_locked(struct opened *file, const char *path, int lock) {
  struct stat status;
  int result;
  if (fstat(file->number, &status) != 0) return false;
  if (!S_ISREG(status.st_mode)) {
    errno = S_ISDIR(status.st_mode) ? EISDIR : ENOTSUP;
    return false;
  }
  CARRIED_ON(result, flock(file->number, lock | LOCK_NB));
  if (result != 0 && errno == EWOULDBLOCK) file->is_made = false;
  if (result != 0 || !lies_at(&status, path)) return false;
  /* Its size is what it was when the lock came. */
  if (fstat(file->number, &status) != 0) return false;
  file->is_empty = status.st_size == 0;
  result = fcntl(file->number, F_GETFL);
  return result >= 0 && fcntl(file->number, F_SETFL, result & ~O_NONBLOCK) == 0;
}

/* Gives a file up that no session has: one that was made is gone again. */
static void give_up(struct opened *file, const char *path) {
  unmake(file, path);
  close_quietly(file->number);
  file->number = -1;
}

/* The file at a path, locked. It is looked for anew where it lost its name before it was locked, to a file that took its place. */
static struct opened open_locked(const char *path, uint32_t flags) {
  const int lock = flags == GEOSVM_PATH_READ ? LOCK_SH : LOCK_EX;
  struct opened file = {-1, false, false};
  for (int tries = 0; tries < MOST_TRIES; tries++) {
    file = open_or_make(path, flags);
    if (file.number < 0 || is_locked(&file, path, lock)) return file;
    give_up(&file, path);
    if (errno != ESTALE) return file;
  }
  errno = EWOULDBLOCK;
  return file;
}

/* The folder that a file lies in, to be synced; less than 0 where it can't be opened. `path` has no symbolic links. */
static int open_folder(const char *path) {
  const size_t length = (size_t)(strrchr(path, '/') - path);
  char *folder = strndup(path, length == 0 ? 1 : length);
  int number = -1;
  if (folder != NULL) CARRIED_ON(number, open(folder, O_RDONLY | O_DIRECTORY | O_CLOEXEC));
  free(folder);
  return above_streams(number);
}

static bool is_synced(int folder) {
  int result;
  CARRIED_ON(result, fsync(folder));
  return result == 0;
}

/* Puts the name of a new file on the disk. */
static bool has_kept_name(const char *path) {
  char *whole = realpath(path, NULL);
  const int folder = whole == NULL ? -1 : open_folder(whole);
  const bool is_kept = folder >= 0 && is_synced(folder);
  close_quietly(folder);
  free(whole);
  return is_kept;
}

/* A file without a name where temporary files lie. */
static int open_temporary(void) {
  const char *folder = secure_getenv("TMPDIR");
  char path[4096];
  const int length = snprintf(path, sizeof path, "%s/geosvm.XXXXXX", folder == NULL || *folder == 0 ? "/tmp" : folder);
  int number;
  if (length < 0 || (size_t)length >= sizeof path) {
    errno = ENAMETOOLONG;
    return -1;
  }
  number = mkostemp(path, O_CLOEXEC);
  if (number >= 0) unlink(path);
  return number;
}

/* A file without a name in memory, or elsewhere where the system has none such. */
static struct opened open_unnamed(void) {
  struct opened file = {memfd_create("geosvm", MFD_CLOEXEC), false, true};
  if (file.number < 0 && errno == ENOSYS) file.number = open_temporary();
  file.number = above_streams(file.number);
  return file;
}

static int32_t failed(int error) {
  if (error == ENOMEM) return GEOSVM_MEMORY;
  note_failure(error);
  return GEOSVM_FILE;
}

/* Makes an empty document of a file, which is as it was where it was empty and that is refused. */
static int32_t create_in(geosvm_session *s, const struct opened *file, const char *path, bool checksums) {
  int32_t code;
  if (path != NULL && (file->is_made || file->is_empty) && !has_kept_name(path)) return failed(errno);
  code = checksums ? geosvm_create_checksums(s, file->number, FRAMES) : geosvm_create(s, file->number, FRAMES);
  if (code != GEOSVM_OK && file->is_empty) (void)!ftruncate(file->number, 0);
  return code;
}

static int32_t open_in(geosvm_session *s, const struct opened *file, bool checksums) {
  return checksums ? geosvm_open_checksums(s, file->number, FRAMES) : geosvm_open(s, file->number, FRAMES);
}

/* What is read alone gets no checksums. */
static bool is_choice(const char *path, uint32_t flags, bool checksums) {
  switch (flags) {
  case GEOSVM_PATH_EXISTING:
  case GEOSVM_PATH_CREATE:
  case GEOSVM_PATH_NEW:
  case GEOSVM_PATH_EMPTY:
    return path != NULL;
  case GEOSVM_PATH_READ:
    return path != NULL && !checksums;
  default:
    return flags == GEOSVM_PATH_MEMORY && path == NULL;
  }
}

int32_t geosvm_open_path(geosvm_session *s, const char *path, uint32_t flags) {
  const bool checksums = (flags & GEOSVM_PATH_CHECKSUMS) != 0;
  struct opened file;
  bool is_new;
  int32_t code;
  if (s->private_is_open) return GEOSVM_OPEN_ALREADY;
  flags &= ~GEOSVM_PATH_CHECKSUMS;
  if (!is_choice(path, flags, checksums)) return GEOSVM_BAD_ARGUMENT;
  if (owner_of_functions() != OF_LIBRARY) return failed(ENOTSUP);
  file = flags == GEOSVM_PATH_MEMORY ? open_unnamed() : open_locked(path, flags);
  if (file.number < 0) return failed(errno);
  is_new = flags == GEOSVM_PATH_CREATE ? file.is_empty : flags != GEOSVM_PATH_EXISTING && flags != GEOSVM_PATH_READ;
  code = is_new ? create_in(s, &file, path, checksums) : open_in(s, &file, checksums);
  if (code == GEOSVM_OK) s->private_file = file.number;
  else give_up(&file, path);
  return code;
}

/* A new file beside the one whose place it is to take, which is locked meanwhile: an empty one where there was none, for its name. */
struct beside {
  struct opened old;
  char *path;      /* of the old one, without symbolic links */
  char *made_path; /* of the new one */
  int made;        /* the new one's descriptor */
  int folder;      /* that of the folder in which both lie */
};

/* Gives a new file the owner and the mode of another one, and takes its lock. */
static bool is_like(int number, const struct stat *other) {
  struct stat own;
  int result;
  CARRIED_ON(result, flock(number, LOCK_EX | LOCK_NB));
  if (result != 0 || fstat(number, &own) != 0) return false;
  if ((own.st_uid != other->st_uid || own.st_gid != other->st_gid) && fchown(number, other->st_uid, other->st_gid) != 0) return false;
  return fchmod(number, other->st_mode & 07777) == 0;
}

/* A new file whose name begins so; its last six letters are chosen. */
static int open_new(char *path) {
  const int low = mkostemp(path, O_CLOEXEC), number = above_streams(low);
  if (low >= 0 && number < 0) unlink(path);
  return number;
}

/* Makes the new file; errno says why it can't be made. */
static bool is_made_beside(struct beside *files, const char *path, uint32_t flags) {
  struct stat status;
  files->old = open_locked(path, flags == 0 ? GEOSVM_PATH_CREATE : flags);
  if (files->old.number < 0) return false;
  files->path = realpath(path, NULL);
  if (files->path == NULL || fstat(files->old.number, &status) != 0) return false;
  if (status.st_nlink != 1) {
    errno = EMLINK;
    return false;
  }
  files->folder = open_folder(files->path);
  files->made_path = malloc(strlen(files->path) + sizeof ".XXXXXX");
  if (files->folder < 0 || files->made_path == NULL) return false;
  strcat(strcpy(files->made_path, files->path), ".XXXXXX");
  files->made = open_new(files->made_path);
  return files->made >= 0 && is_like(files->made, &status);
}

/* Lets the new file take the place of the old one. */
static bool has_taken_place(const struct beside *files) {
  return rename(files->made_path, files->path) == 0 && is_synced(files->folder);
}

static void end_beside(struct beside *files) {
  close_quietly(files->folder);
  close_quietly(files->old.number);
  free(files->path);
  free(files->made_path);
}

/* Saves into a file that was made beside; 0 where it has its place by now, or what is to be answered. */
static int32_t save_beside(geosvm_session *s, struct beside *files) {
  const int32_t code = geosvm_save_as(s, files->made);
  if (code != GEOSVM_OK) return code;
  s->private_file = files->made;
  return has_taken_place(files) ? GEOSVM_OK : failed(errno);
}

int32_t geosvm_save_as_path(geosvm_session *s, const char *path, uint32_t flags) {
  struct beside files = {{-1, false, false}, NULL, NULL, -1, -1};
  int32_t code;
  if (!s->private_is_open) return GEOSVM_NOT_OPEN;
  if (path == NULL || (flags & ~GEOSVM_PATH_NEW) != 0) return GEOSVM_BAD_ARGUMENT;
  if (owner_of_functions() != OF_LIBRARY) return failed(ENOTSUP);
  code = is_made_beside(&files, path, flags) ? save_beside(s, &files) : failed(errno);
  if (code != GEOSVM_OK) {
    if (files.old.number >= 0) unmake(&files.old, path);
    if (files.made >= 0 && s->private_file != files.made) {
      unlink(files.made_path);
      close_quietly(files.made);
    }
  }
  end_beside(&files);
  return code;
}
