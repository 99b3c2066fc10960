/* What a program may do wrong with files: each is refused, and no file loses anything. Run it in an empty folder. */
#define _GNU_SOURCE
#include "geosvm.h"
#include <fcntl.h>
#include <signal.h>
#include <stdio.h>
#include <stdlib.h>
#include <string.h>
#include <sys/file.h>
#include <sys/resource.h>
#include <sys/wait.h>
#include <unistd.h>

static const char *name_of(int32_t code) {
  static char name[32];
  size_t n = 0;
  if (code == GEOSVM_OK) return "ok";
  if (geosvm_fault_name(code, (uint8_t *)name, sizeof name - 1, &n) != GEOSVM_OK)
    n = (size_t)snprintf(name, sizeof name, "code %d", code);
  name[n] = 0;
  return name;
}
#define TELL(call) printf("%-34s %s\n", #call, name_of(call))

static int opened(const char *path, int flags) {
  int fd = open(path, O_RDWR | flags, 0644);
  if (fd < 0) { perror(path); exit(1); }
  return fd;
}

/* The bytes of a file, to be compared with what it has later. */
struct bytes { size_t length; uint8_t bytes[1 << 20]; };
static void read_file(const char *path, struct bytes *file) {
  int fd = open(path, O_RDONLY);
  ssize_t n = read(fd, file->bytes, sizeof file->bytes);
  if (n < 0) { perror(path); exit(1); }
  file->length = (size_t)n;
  close(fd);
}
static void copy_file(const char *path, const char *copy) {
  static struct bytes file;
  int fd = opened(copy, O_CREAT | O_TRUNC);
  read_file(path, &file);
  if (write(fd, file.bytes, file.length) != (ssize_t)file.length) { perror(copy); exit(1); }
  close(fd);
}
static void compare(const char *path, const struct bytes *before) {
  static struct bytes now;
  read_file(path, &now);
  bool same = now.length == before->length && memcmp(now.bytes, before->bytes, now.length) == 0;
  printf("%s: %s\n", path, same ? "as before" : "CHANGED");
}

/* A document with one raw block of 4 bytes, which is saved and closed. */
static void make(const char *path, uint8_t byte) {
  geosvm_session s = GEOSVM_CLOSED;
  uint16_t block = 0;
  uint8_t bytes[4] = { byte, byte, byte, byte };
  int fd = opened(path, O_CREAT);
  if (geosvm_create(&s, fd, 8) != GEOSVM_OK || geosvm_newraw(&s, 1, 4, &block) != GEOSVM_OK ||
      geosvm_vwrite(&s, block, 0, bytes, 4) != GEOSVM_OK || geosvm_save(&s) != GEOSVM_OK || geosvm_close(&s) != GEOSVM_OK) {
    printf("%s can't be made\n", path);
    exit(1);
  }
  close(fd);
}
static void show(geosvm_session *s) {
  uint8_t bytes[4] = { 0 };
  size_t n = 0;
  int32_t code = geosvm_vread(s, 1, bytes, sizeof bytes, &n);
  printf("block 1: %s, %zu bytes: %02x%02x%02x%02x\n", name_of(code), n, bytes[0], bytes[1], bytes[2], bytes[3]);
}

/* Another program takes the file's lock before all else, as geosvm.h asks for, and doesn't get it. */
static void two_programs(void) {
  static struct bytes before;
  puts("-- two programs on one file");
  int fd = opened("one.document", 0);
  if (flock(fd, LOCK_EX | LOCK_NB) != 0) { perror("flock"); exit(1); }
  read_file("one.document", &before);
  fflush(stdout);
  pid_t child = fork();
  if (child == 0) {
    int other = open("one.document", O_RDWR | O_CREAT, 0644);
    _exit(flock(other, LOCK_EX | LOCK_NB) == 0);
  }
  int status = 0;
  waitpid(child, &status, 0);
  printf("the second one: %s\n", WIFEXITED(status) && WEXITSTATUS(status) == 0 ? "refused" : "HAS THE FILE");
  compare("one.document", &before);
  close(fd);
}

/* A session is saved into its own file, by each number that this file can have. */
static void own_file(void) {
  geosvm_session s = GEOSVM_CLOSED;
  static struct bytes before;
  uint8_t more[2] = { 9, 9 };
  puts("-- a save-as into the session's own file");
  int fd = opened("one.document", 0), twice = dup(fd), again = opened("one.document", 0);
  if (link("one.document", "link.document") != 0) { perror("link"); exit(1); }
  int linked = opened("link.document", 0);
  TELL(geosvm_open(&s, fd, 8));
  TELL(geosvm_vwrite(&s, 1, 0, more, 2));
  read_file("one.document", &before);
  TELL(geosvm_save_as(&s, fd));
  TELL(geosvm_save_as(&s, twice));
  TELL(geosvm_save_as(&s, again));
  TELL(geosvm_save_as(&s, linked));
  compare("one.document", &before);
  show(&s);
  TELL(geosvm_save(&s));
  TELL(geosvm_close(&s));
  TELL(geosvm_open(&s, again, 8));
  show(&s);
  TELL(geosvm_close(&s));
  close(fd), close(twice), close(again), close(linked);
}

/* What is written to a descriptor that appends goes to the file's end, wherever it was to go. */
static void appending(void) {
  geosvm_session s = GEOSVM_CLOSED;
  static struct bytes before;
  puts("-- a descriptor that appends");
  int fd = opened("one.document", 0), end = opened("two.document", O_APPEND);
  read_file("two.document", &before);
  TELL(geosvm_open(&s, end, 8));
  TELL(geosvm_create(&s, end, 8));
  TELL(geosvm_open(&s, fd, 8));
  TELL(geosvm_save_as(&s, end));
  compare("two.document", &before);
  show(&s);
  TELL(geosvm_close(&s));
  close(fd), close(end);
}

static void no_document(void) {
  geosvm_session s = GEOSVM_CLOSED;
  static struct bytes before;
  puts("-- no document");
  int fd = opened("letter.text", O_CREAT);
  for (int i = 0; i < 200; i++)
    if (write(fd, "Dear reader, \n", 14) != 14) { perror("letter.text"); exit(1); }
  read_file("letter.text", &before);
  TELL(geosvm_open(&s, fd, 8));
  compare("letter.text", &before);
  close(fd);
}

/* Opening and closing write nothing, also after edits. */
static void nothing_saved(void) {
  geosvm_session s = GEOSVM_CLOSED;
  static struct bytes before;
  uint8_t more[2] = { 5, 5 };
  puts("-- opened and closed");
  int fd = opened("two.document", 0);
  read_file("two.document", &before);
  TELL(geosvm_open(&s, fd, 8));
  TELL(geosvm_close(&s));
  compare("two.document", &before);
  TELL(geosvm_open(&s, fd, 8));
  TELL(geosvm_vwrite(&s, 1, 0, more, 2));
  TELL(geosvm_close(&s));
  compare("two.document", &before);
  close(fd);
}

/* What a file opens to, by a copy of it. */
static void show_saved(const char *path) {
  geosvm_session s = GEOSVM_CLOSED;
  copy_file(path, "copy.document");
  int fd = opened("copy.document", 0);
  TELL(geosvm_open(&s, fd, 8));
  show(&s);
  TELL(geosvm_close(&s));
  close(fd);
}

/* The system lets the program write no further: a save is refused, the file opens to what it had, and the session goes on. */
static void no_room(void) {
  geosvm_session s = GEOSVM_CLOSED;
  struct rlimit limit, none;
  uint8_t more[2] = { 7, 7 };
  puts("-- no room");
  signal(SIGXFSZ, SIG_IGN);
  getrlimit(RLIMIT_FSIZE, &limit);
  none = limit;
  none.rlim_cur = 1;
  int fd = opened("two.document", 0);
  TELL(geosvm_open(&s, fd, 8));
  TELL(geosvm_vwrite(&s, 1, 0, more, 2));
  fflush(stdout);
  setrlimit(RLIMIT_FSIZE, &none);
  int32_t code = geosvm_save(&s);
  setrlimit(RLIMIT_FSIZE, &limit);
  printf("%-34s %s\n", "geosvm_save(&s), with no room", name_of(code));
  show(&s);
  show_saved("two.document");
  TELL(geosvm_save(&s));
  TELL(geosvm_close(&s));
  show_saved("two.document");
  close(fd);
}

int main(void) {
  make("one.document", 1);
  make("two.document", 2);
  two_programs();
  own_file();
  appending();
  no_document();
  nothing_saved();
  no_room();
  return 0;
}
