/*
** embedded.c: a program over the library for C that does what geosvm does, as far as failing_calls.py asks for it:
**
**     embedded [--new] [--as FILE2] FILE
**
** Each line of standard input is given to geosvm_command, and its reply written; a line `saveas` is a geosvm_save_as. FILE is opened by its
** path, FILE2 by a descriptor of this program's own.
*/
#define _GNU_SOURCE
#include "geosvm.h"
#include <errno.h>
#include <fcntl.h>
#include <stdio.h>
#include <string.h>
#include <sys/file.h>
#include <unistd.h>

static uint8_t reply[GEOSVM_REPLY_MOST];

static const char *fault(int32_t code) {
  static uint8_t name[64];
  size_t length = 0;
  geosvm_fault_name(code, name, sizeof name - 1, &length);
  name[length < sizeof name ? length : sizeof name - 1] = 0;
  return (const char *)name;
}

static int refused(const char *what, int32_t code) {
  fprintf(stderr, "geosvm: %s %d %s\n", what, code, fault(code));
  return 1;
}

/* open, again where a signal interrupts it */
static int opens(const char *path, int flags) {
  int file;
  do file = open(path, flags, 0666);
  while (file < 0 && errno == EINTR);
  return file;
}

/* The descriptor of a file that is locked, and whose name is on the disk where it was made; less than 0 where it can't be had. */
static int opened(const char *path, int flags) {
  int folder, status;
  const int file = opens(path, O_RDWR | flags);
  if (file < 0) return -1;
  if (flags & O_CREAT) {
    if ((folder = opens(".", O_RDONLY | O_DIRECTORY)) < 0) return -1;
    do status = fsync(folder);
    while (status < 0 && errno == EINTR);
    if (status < 0) return -1;
    close(folder);
  }
  do status = flock(file, LOCK_EX | LOCK_NB);
  while (status < 0 && errno == EINTR);
  return status < 0 ? -1 : file;
}

static void answer(geosvm_session *s, const char *line, size_t length, int target) {
  size_t count = 0;
  if (strcmp(line, "saveas") == 0) {
    const int32_t code = geosvm_save_as(s, target);
    printf(code == GEOSVM_OK ? "ok\n" : "no %d %s\n", code, fault(code));
    return;
  }
  geosvm_command(s, (const uint8_t *)line, length, reply, sizeof reply, &count);
  fwrite(reply, 1, count, stdout);
}

int main(int argc, char **argv) {
  geosvm_session s = GEOSVM_CLOSED;
  const char *path = NULL, *second = NULL;
  int makes = 0, target = -1;
  char line[4096];
  for (int i = 1; i < argc; i++) {
    if (strcmp(argv[i], "--new") == 0) makes = 1;
    else if (strcmp(argv[i], "--as") == 0 && i + 1 < argc) second = argv[++i];
    else path = argv[i];
  }
  if (!path) return 2;
  if (second && (target = opened(second, O_CREAT)) < 0) return refused("target", GEOSVM_FILE);
  const int32_t code = geosvm_open_path(&s, path, makes ? GEOSVM_PATH_CREATE : GEOSVM_PATH_EXISTING);
  if (code != GEOSVM_OK) return refused(makes ? "create" : "open", code);
  while (fgets(line, sizeof line, stdin)) {
    line[strcspn(line, "\n")] = 0;
    answer(&s, line, strlen(line), target);
  }
  if (ferror(stdin)) {
    fprintf(stderr, "geosvm: read fault\n");
    return 1;
  }
  if (geosvm_close(&s) != GEOSVM_OK) return 3;
  if (fflush(stdout) != 0) {
    fprintf(stderr, "geosvm: write fault\n");
    return 1;
  }
  return 0;
}
