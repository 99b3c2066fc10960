/* Sessions on files by their paths: what each way of opening makes, what is refused, and that nothing is lost. Run it in an empty folder. */
#define _GNU_SOURCE
#include "geosvm.h"
#include <dirent.h>
#include <errno.h>
#include <fcntl.h>
#include <signal.h>
#include <stdio.h>
#include <stdlib.h>
#include <string.h>
#include <sys/file.h>
#include <sys/resource.h>
#include <sys/stat.h>
#include <sys/wait.h>
#include <unistd.h>

static const char *error_name(int error) {
  const char *name = error == 0 ? "none" : strerrorname_np(error);
  return name == NULL ? "no error" : name;
}
/* Tells a call, what it answers, and why where that is GEOSVM_FILE. */
static int32_t tell(const char *call, int32_t code) {
  printf("%-58s %s%s%s\n", call, geosvm_code_name(code), code == GEOSVM_FILE ? " " : "",
         code == GEOSVM_FILE ? error_name(geosvm_last_error()) : "");
  return code;
}
#define TELL(call) tell(#call, call)

static void stop(const char *what) {
  perror(what);
  exit(1);
}

/* How many descriptors this program has, and whether a child program would get one that it shouldn't. */
static int count_open(void) {
  int count = 0;
  for (int i = 3; i < 200; i++) {
    const int flags = fcntl(i, F_GETFD);
    count += flags >= 0;
    if (flags >= 0 && (flags & FD_CLOEXEC) == 0) printf("a child gets descriptor %d\n", i);
  }
  return count;
}

static int by_name(const struct dirent **a, const struct dirent **b) { return strcmp((*a)->d_name, (*b)->d_name); }
static void show_folder(void) {
  struct dirent **names;
  const int count = scandir(".", &names, NULL, by_name);
  printf("  files:");
  for (int i = 0; i < count; i++) {
    if (names[i]->d_name[0] != '.') printf(" %s", names[i]->d_name);
    free(names[i]);
  }
  free(names);
  puts("");
}

static void write_file(const char *path, const char *text) {
  FILE *file = fopen(path, "w");
  if (file == NULL || fputs(text, file) < 0 || fclose(file) != 0) stop(path);
}

/* The bytes of a file, to be compared with what it has later. */
struct bytes {
  size_t length;
  uint8_t bytes[1 << 16];
};
static void read_file(const char *path, struct bytes *file) {
  const int fd = open(path, O_RDONLY);
  const ssize_t length = read(fd, file->bytes, sizeof file->bytes);
  if (length < 0) stop(path);
  file->length = (size_t)length;
  close(fd);
}
static void compare(const char *path, const struct bytes *before) {
  static struct bytes now;
  read_file(path, &now);
  printf("  %s: %s\n", path,
         now.length == before->length && memcmp(now.bytes, before->bytes, now.length) == 0 ? "as before" : "CHANGED");
}

/* The first byte of block 1, by which a document is known. */
static int mark_of(geosvm_session *s) {
  uint8_t bytes[8];
  size_t length = 0;
  const int32_t code = geosvm_vread(s, 1, bytes, sizeof bytes, &length);
  return code == GEOSVM_OK && length == 4 ? bytes[0] : -code;
}
static int32_t set_mark(geosvm_session *s, uint8_t mark) {
  const uint8_t bytes[4] = {mark, mark, mark, mark};
  return geosvm_vwrite(s, 1, 0, bytes, sizeof bytes);
}
static void make(const char *path, uint8_t mark) {
  geosvm_session s = GEOSVM_CLOSED;
  uint16_t block = 0;
  if (geosvm_open_path(&s, path, GEOSVM_PATH_EMPTY) != GEOSVM_OK || geosvm_newraw(&s, 1, 4, &block) != GEOSVM_OK ||
      set_mark(&s, mark) != GEOSVM_OK || geosvm_save(&s) != GEOSVM_OK || geosvm_close(&s) != GEOSVM_OK)
    stop(path);
}
static void show_mark(const char *path) {
  geosvm_session s = GEOSVM_CLOSED;
  const int32_t code = geosvm_open_path(&s, path, GEOSVM_PATH_READ);
  printf("  %s: %s, mark %d\n", path, geosvm_code_name(code), code == GEOSVM_OK ? mark_of(&s) : 0);
  geosvm_close(&s);
}

static void arguments(void) {
  static geosvm_session s = GEOSVM_CLOSED;
  puts("-- arguments");
  TELL(geosvm_open_path(&s, NULL, GEOSVM_PATH_CREATE));
  TELL(geosvm_open_path(&s, "a.document", GEOSVM_PATH_MEMORY));
  TELL(geosvm_open_path(&s, "a.document", GEOSVM_PATH_CREATE | GEOSVM_PATH_READ));
  TELL(geosvm_open_path(&s, "a.document", GEOSVM_PATH_NEW | GEOSVM_PATH_EMPTY));
  TELL(geosvm_open_path(&s, "a.document", GEOSVM_PATH_READ | GEOSVM_PATH_CHECKSUMS));
  TELL(geosvm_open_path(&s, "a.document", 64));
  TELL(geosvm_open_path(&s, NULL, GEOSVM_PATH_MEMORY | GEOSVM_PATH_NEW));
  TELL(geosvm_save_as_path(&s, "a.document", 0));
  TELL(geosvm_open_path(&s, NULL, GEOSVM_PATH_MEMORY));
  TELL(geosvm_open_path(&s, "a.document", GEOSVM_PATH_CREATE));
  TELL(geosvm_save_as_path(&s, NULL, 0));
  TELL(geosvm_save_as_path(&s, "a.document", GEOSVM_PATH_EMPTY));
  TELL(geosvm_save_as_path(&s, "a.document", GEOSVM_PATH_CHECKSUMS));
  TELL(geosvm_close(&s));
  s = GEOSVM_CLOSED;
  TELL(geosvm_close(&s));
  show_folder();
}

/* What each way makes of no file, and of a document. */
static void ways(void) {
  geosvm_session s = GEOSVM_CLOSED;
  struct bytes *before = malloc(sizeof *before);
  puts("-- no file");
  TELL(geosvm_open_path(&s, "a.document", GEOSVM_PATH_EXISTING));
  TELL(geosvm_open_path(&s, "a.document", GEOSVM_PATH_READ));
  TELL(geosvm_open_path(&s, "", GEOSVM_PATH_CREATE));
  TELL(geosvm_open_path(&s, "nowhere/a.document", GEOSVM_PATH_NEW));
  show_folder();
  TELL(geosvm_open_path(&s, "a.document", GEOSVM_PATH_CREATE));
  TELL(geosvm_close(&s));
  TELL(geosvm_open_path(&s, "b.document", GEOSVM_PATH_NEW));
  TELL(geosvm_close(&s));
  TELL(geosvm_open_path(&s, "c.document", GEOSVM_PATH_EMPTY));
  TELL(geosvm_close(&s));
  show_folder();
  puts("-- a document");
  make("a.document", 1);
  read_file("a.document", before);
  TELL(geosvm_open_path(&s, "a.document", GEOSVM_PATH_NEW));
  compare("a.document", before);
  TELL(geosvm_open_path(&s, "a.document", GEOSVM_PATH_CREATE));
  printf("  mark %d\n", mark_of(&s));
  TELL(geosvm_close(&s));
  compare("a.document", before);
  TELL(geosvm_open_path(&s, "./a.document", GEOSVM_PATH_EXISTING));
  TELL(set_mark(&s, 2));
  TELL(geosvm_update(&s));
  TELL(geosvm_close(&s));
  show_mark("a.document");
  TELL(geosvm_open_path(&s, "a.document", GEOSVM_PATH_EMPTY));
  printf("  mark %d\n", mark_of(&s));
  TELL(geosvm_close(&s));
  unlink("b.document"), unlink("c.document");
  printf("descriptors: %d\n", count_open());
  free(before);
}

/* The versions of the two slots: 3 where it has checksums. */
static void show_versions(const char *path) {
  static struct bytes now;
  read_file(path, &now);
  printf("  %s: versions %d %d\n", path, now.bytes[5], now.bytes[517]);
}

/* Changes one byte of the block with a mark. */
static void spoil(const char *path, uint8_t mark) {
  static struct bytes now;
  const uint8_t bytes[4] = {mark, mark, mark, mark};
  const uint8_t *at;
  read_file(path, &now);
  at = memmem(now.bytes, now.length, bytes, sizeof bytes);
  const int fd = open(path, O_WRONLY);
  if (at == NULL || pwrite(fd, "?", 1, at - now.bytes) != 1) stop(path);
  close(fd);
}

/* A document that is made has checksums where they are asked for, and one that is there has them with its next commit. */
static void checksums(void) {
  geosvm_session s = GEOSVM_CLOSED;
  struct bytes *before = malloc(sizeof *before);
  puts("-- checksums");
  TELL(geosvm_open_path(&s, "b.document", GEOSVM_PATH_EXISTING | GEOSVM_PATH_CHECKSUMS));
  TELL(geosvm_open_path(&s, "b.document", GEOSVM_PATH_NEW | GEOSVM_PATH_CHECKSUMS));
  TELL(geosvm_close(&s));
  show_versions("b.document");
  TELL(geosvm_open_path(&s, "b.document", GEOSVM_PATH_EMPTY));
  TELL(geosvm_close(&s));
  show_versions("b.document");
  TELL(geosvm_open_path(&s, "b.document", GEOSVM_PATH_EMPTY | GEOSVM_PATH_CHECKSUMS));
  TELL(geosvm_close(&s));
  show_versions("b.document");
  make("b.document", 18);
  read_file("b.document", before);
  TELL(geosvm_open_path(&s, "b.document", GEOSVM_PATH_CREATE | GEOSVM_PATH_CHECKSUMS));
  compare("b.document", before);
  TELL(geosvm_update(&s));
  TELL(geosvm_close(&s));
  show_versions("b.document");
  TELL(geosvm_open_path(&s, "b.document", GEOSVM_PATH_EXISTING));
  printf("  mark %d\n", mark_of(&s));
  TELL(geosvm_save_as_path(&s, "c.document", 0));
  TELL(geosvm_close(&s));
  show_versions("c.document");
  spoil("c.document", 18);
  TELL(geosvm_open_path(&s, "c.document", GEOSVM_PATH_EXISTING));
  unlink("c.document");
  TELL(geosvm_open_path(&s, NULL, GEOSVM_PATH_MEMORY | GEOSVM_PATH_CHECKSUMS));
  TELL(geosvm_save_as_path(&s, "c.document", GEOSVM_PATH_NEW));
  TELL(geosvm_close(&s));
  show_versions("c.document");
  unlink("b.document"), unlink("c.document");
  printf("descriptors: %d\n", count_open());
  free(before);
}

/* What is no document, and no file. */
static void others(void) {
  geosvm_session s = GEOSVM_CLOSED;
  struct bytes *before = malloc(sizeof *before);
  puts("-- no document");
  write_file("letter.text", "Dear reader, this is a letter and no document, though it has as many bytes as one may begin with.\n");
  read_file("letter.text", before);
  TELL(geosvm_open_path(&s, "letter.text", GEOSVM_PATH_EXISTING));
  TELL(geosvm_open_path(&s, "letter.text", GEOSVM_PATH_CREATE));
  TELL(geosvm_open_path(&s, "letter.text", GEOSVM_PATH_NEW));
  TELL(geosvm_open_path(&s, "letter.text", GEOSVM_PATH_READ));
  compare("letter.text", before);
  write_file("none.document", "");
  TELL(geosvm_open_path(&s, "none.document", GEOSVM_PATH_EXISTING));
  TELL(geosvm_open_path(&s, "none.document", GEOSVM_PATH_NEW));
  TELL(geosvm_open_path(&s, "none.document", GEOSVM_PATH_CREATE));
  TELL(geosvm_close(&s));
  show_mark("none.document");
  puts("-- no file of that kind");
  if (mkdir("folder", 0777) != 0 || mkfifo("pipe", 0666) != 0) stop("folder");
  for (uint32_t flags = 0; flags <= GEOSVM_PATH_READ; flags = flags == 0 ? 1 : flags * 2) {
    printf("by %u:\n", flags);
    TELL(geosvm_open_path(&s, "folder", flags));
    TELL(geosvm_open_path(&s, "pipe", flags));
    TELL(geosvm_open_path(&s, "letter.text/a", flags));
  }
  TELL(geosvm_open_path(&s, "/dev/null", GEOSVM_PATH_EXISTING));
  show_folder();
  rmdir("folder"), unlink("pipe"), unlink("letter.text"), unlink("none.document");
  printf("descriptors: %d\n", count_open());
  free(before);
}

static void links(void) {
  geosvm_session s = GEOSVM_CLOSED;
  puts("-- links");
  make("a.document", 3);
  if (symlink("a.document", "link") != 0 || symlink("b.document", "loose") != 0) stop("link");
  TELL(geosvm_open_path(&s, "link", GEOSVM_PATH_EXISTING));
  printf("  mark %d\n", mark_of(&s));
  TELL(geosvm_close(&s));
  TELL(geosvm_open_path(&s, "link", GEOSVM_PATH_NEW));
  TELL(geosvm_open_path(&s, "loose", GEOSVM_PATH_EXISTING));
  TELL(geosvm_open_path(&s, "loose", GEOSVM_PATH_NEW));
  show_folder();
  TELL(geosvm_open_path(&s, "loose", GEOSVM_PATH_CREATE));
  TELL(geosvm_close(&s));
  show_folder();
  unlink("loose"), unlink("b.document"), unlink("link");
}

/* A file that a session has is refused to all others, before anything in it is cut. */
static void locked(void) {
  geosvm_session s = GEOSVM_CLOSED, other = GEOSVM_CLOSED, memory = GEOSVM_CLOSED;
  struct bytes *before = malloc(sizeof *before);
  puts("-- a file that a session has");
  make("a.document", 4);
  read_file("a.document", before);
  TELL(geosvm_open_path(&s, "a.document", GEOSVM_PATH_EXISTING));
  TELL(geosvm_open_path(&memory, NULL, GEOSVM_PATH_MEMORY));
  TELL(geosvm_open_path(&other, "a.document", GEOSVM_PATH_EXISTING));
  TELL(geosvm_open_path(&other, "a.document", GEOSVM_PATH_CREATE));
  TELL(geosvm_open_path(&other, "a.document", GEOSVM_PATH_EMPTY));
  TELL(geosvm_open_path(&other, "a.document", GEOSVM_PATH_READ));
  TELL(geosvm_save_as_path(&memory, "a.document", 0));
  TELL(geosvm_save_as_path(&s, "a.document", 0));
  compare("a.document", before);
  printf("  mark %d\n", mark_of(&s));
  const int fd = open("a.document", O_RDWR);
  printf("  its lock: %s\n", flock(fd, LOCK_SH | LOCK_NB) == 0 ? "NONE" : error_name(errno));
  TELL(geosvm_close(&s));
  printf("  its lock: %s\n", flock(fd, LOCK_EX | LOCK_NB) == 0 ? "none" : error_name(errno));
  close(fd);
  TELL(geosvm_close(&memory));
  show_folder();
  printf("descriptors: %d\n", count_open());
  free(before);
}

/* The answer of a child program that opens the file and, where that goes well, saves another mark in it. */
static int32_t in_child(const char *path, uint32_t flags, uint8_t mark) {
  int status = 0;
  fflush(stdout);
  const pid_t child = fork();
  if (child == 0) {
    geosvm_session s = GEOSVM_CLOSED;
    int32_t code = geosvm_open_path(&s, path, flags);
    if (code == GEOSVM_OK && mark != 0) code = set_mark(&s, mark);
    if (code == GEOSVM_OK && mark != 0) code = geosvm_save(&s);
    if (code == GEOSVM_FILE && geosvm_last_error() == EWOULDBLOCK) code = 77;
    _exit(code);
  }
  waitpid(child, &status, 0);
  if (!WIFEXITED(status)) return -1;
  if (WEXITSTATUS(status) == 77) printf("in use: ");
  return WEXITSTATUS(status) == 77 ? GEOSVM_FILE : WEXITSTATUS(status);
}
#define CHILD(call) printf("%-58s %s\n", #call, geosvm_code_name(call))

/* Two sessions that read beside one that writes, in both orders, in this program and in others. */
static void readers(void) {
  geosvm_session first = GEOSVM_CLOSED, second = GEOSVM_CLOSED, writer = GEOSVM_CLOSED;
  puts("-- two read, and one that writes has to wait");
  make("a.document", 5);
  TELL(geosvm_open_path(&first, "a.document", GEOSVM_PATH_READ));
  TELL(geosvm_open_path(&second, "a.document", GEOSVM_PATH_READ));
  CHILD(in_child("a.document", GEOSVM_PATH_READ, 0));
  TELL(geosvm_open_path(&writer, "a.document", GEOSVM_PATH_EXISTING));
  CHILD(in_child("a.document", GEOSVM_PATH_EMPTY, 6));
  printf("  marks %d %d\n", mark_of(&first), mark_of(&second));
  TELL(geosvm_close(&first));
  CHILD(in_child("a.document", GEOSVM_PATH_EXISTING, 6));
  printf("  mark %d\n", mark_of(&second));
  TELL(geosvm_close(&second));
  CHILD(in_child("a.document", GEOSVM_PATH_EXISTING, 6));
  show_mark("a.document");
  puts("-- one writes, and two that read have to wait");
  TELL(geosvm_open_path(&writer, "a.document", GEOSVM_PATH_EXISTING));
  TELL(set_mark(&writer, 7));
  TELL(geosvm_open_path(&first, "a.document", GEOSVM_PATH_READ));
  CHILD(in_child("a.document", GEOSVM_PATH_READ, 0));
  TELL(geosvm_save(&writer));
  TELL(geosvm_close(&writer));
  TELL(geosvm_open_path(&first, "a.document", GEOSVM_PATH_READ));
  TELL(geosvm_open_path(&second, "a.document", GEOSVM_PATH_READ));
  printf("  marks %d %d\n", mark_of(&first), mark_of(&second));
  TELL(geosvm_close(&first));
  TELL(geosvm_close(&second));
  printf("descriptors: %d\n", count_open());
}

/* What a session that reads may do, and what it can't. */
static void reading(void) {
  geosvm_session s = GEOSVM_CLOSED;
  struct bytes *before = malloc(sizeof *before);
  uint8_t reply[64];
  size_t length = 0, modified = 0;
  uint16_t block = 0;
  puts("-- reading");
  make("a.document", 8);
  read_file("a.document", before);
  TELL(geosvm_open_path(&s, "a.document", GEOSVM_PATH_READ));
  TELL(set_mark(&s, 9));
  TELL(geosvm_undo(&s));
  TELL(geosvm_redo(&s));
  TELL(geosvm_update(&s));
  TELL(geosvm_save(&s));
  TELL(geosvm_revert(&s));
  TELL(geosvm_newraw(&s, 1, 4, &block));
  TELL(geosvm_command(&s, (const uint8_t *)"save", 4, reply, sizeof reply, &length));
  printf("  %.*s", (int)length, (const char *)reply);
  TELL(geosvm_modified(&s, &modified));
  printf("  modified %zu, mark %d\n", modified, mark_of(&s));
  compare("a.document", before);
  TELL(geosvm_save_as_path(&s, "b.document", 0));
  printf("  mark %d\n", mark_of(&s));
  TELL(geosvm_close(&s));
  compare("a.document", before);
  show_folder();
  puts("-- reading what was updated since it was saved");
  TELL(geosvm_open_path(&s, "a.document", GEOSVM_PATH_EXISTING));
  TELL(set_mark(&s, 11));
  TELL(geosvm_update(&s));
  TELL(geosvm_close(&s));
  read_file("a.document", before);
  TELL(geosvm_open_path(&s, "a.document", GEOSVM_PATH_READ));
  TELL(geosvm_revert(&s));
  printf("  mark %d\n", mark_of(&s));
  TELL(geosvm_close(&s));
  compare("a.document", before);
  puts("-- a descriptor that is open to be read alone");
  const int fd = open("a.document", O_RDONLY | O_CLOEXEC);
  TELL(geosvm_open(&s, fd, 8));
  TELL(geosvm_save(&s));
  TELL(geosvm_close(&s));
  TELL(geosvm_create(&s, fd, 8));
  close(fd);
  compare("a.document", before);
  printf("descriptors: %d\n", count_open());
  free(before);
}

/* A document that begins in memory and gets a file. */
static void saved_as(void) {
  geosvm_session s = GEOSVM_CLOSED, old = GEOSVM_CLOSED;
  struct stat status;
  uint16_t block = 0;
  puts("-- saved as");
  make("a.document", 12);
  chmod("a.document", 0640);
  unlink("b.document");
  TELL(geosvm_open_path(&s, NULL, GEOSVM_PATH_MEMORY));
  TELL(geosvm_newraw(&s, 1, 4, &block));
  TELL(set_mark(&s, 13));
  TELL(geosvm_save(&s));
  show_folder();
  TELL(geosvm_save_as_path(&s, "a.document", GEOSVM_PATH_NEW));
  TELL(geosvm_save_as_path(&s, "nowhere/b.document", 0));
  if (mkfifo("pipe", 0666) != 0) stop("pipe");
  TELL(geosvm_save_as_path(&s, "pipe", 0));
  unlink("pipe");
  TELL(geosvm_begin(&s));
  TELL(geosvm_save_as_path(&s, "b.document", 0));
  TELL(geosvm_end(&s));
  show_folder();
  TELL(geosvm_save_as_path(&s, "b.document", GEOSVM_PATH_NEW));
  TELL(geosvm_open_path(&old, "b.document", GEOSVM_PATH_EXISTING));
  TELL(set_mark(&s, 14));
  TELL(geosvm_save_as_path(&s, "a.document", 0));
  show_folder();
  stat("a.document", &status);
  printf("  mode %o\n", status.st_mode & 07777u);
  TELL(geosvm_open_path(&old, "b.document", GEOSVM_PATH_EXISTING));
  printf("  mark %d\n", mark_of(&old));
  TELL(geosvm_close(&old));
  TELL(geosvm_undo(&s));
  TELL(geosvm_save(&s));
  TELL(geosvm_close(&s));
  show_mark("a.document");
  show_mark("b.document");
  printf("descriptors: %d\n", count_open());
}

/* Over a link, and over one of two names; and by a descriptor of the program's own. */
static void saved_as_elsewhere(void) {
  geosvm_session s = GEOSVM_CLOSED;
  struct stat status;
  puts("-- saved as, elsewhere");
  make("a.document", 15);
  make("b.document", 16);
  if (symlink("a.document", "link") != 0 || link("b.document", "twice") != 0) stop("link");
  TELL(geosvm_open_path(&s, "a.document", GEOSVM_PATH_EXISTING));
  TELL(geosvm_save_as_path(&s, "link", 0));
  TELL(geosvm_save_as_path(&s, "twice", 0));
  TELL(geosvm_close(&s));
  TELL(geosvm_open_path(&s, "b.document", GEOSVM_PATH_EXISTING));
  TELL(geosvm_save_as_path(&s, "link", 0));
  TELL(geosvm_close(&s));
  show_mark("a.document");
  show_mark("twice");
  printf("  the link is %s\n", lstat("link", &status) == 0 && S_ISLNK(status.st_mode) ? "one" : "NONE");
  TELL(geosvm_open_path(&s, "a.document", GEOSVM_PATH_EXISTING));
  const int before = count_open(), fd = open("c.document", O_RDWR | O_CREAT | O_CLOEXEC, 0666);
  TELL(geosvm_save_as(&s, fd));
  printf("  the library has closed its own file: %s\n", count_open() == before ? "yes" : "NO");
  TELL(geosvm_close(&s));
  printf("  and leaves the program's open: %s\n", fcntl(fd, F_GETFD) >= 0 ? "yes" : "NO");
  close(fd);
  show_mark("c.document");
  unlink("link"), unlink("twice"), unlink("c.document");
  printf("descriptors: %d\n", count_open());
}

/* A program whose standard streams are closed: its document isn't taken for one. */
static void streams(void) {
  int status = 0;
  puts("-- closed standard streams");
  make("a.document", 17);
  fflush(stdout);
  const pid_t child = fork();
  if (child == 0) {
    geosvm_session s = GEOSVM_CLOSED, memory = GEOSVM_CLOSED;
    close(0), close(1), close(2);
    if (geosvm_open_path(&s, "a.document", GEOSVM_PATH_CREATE) != GEOSVM_OK) _exit(1);
    if (geosvm_open_path(&memory, NULL, GEOSVM_PATH_MEMORY) != GEOSVM_OK) _exit(2);
    if (geosvm_save_as_path(&memory, "b.document", 0) != GEOSVM_OK) _exit(3);
    for (int i = 0; i < 3; i++)
      if (write(i, "Hello\n", 6) >= 0) _exit(4);
    _exit(mark_of(&s) == 17 && geosvm_save(&s) == GEOSVM_OK && geosvm_close(&s) == GEOSVM_OK ? 0 : 5);
  }
  waitpid(child, &status, 0);
  printf("  the child: %d\n", WIFEXITED(status) ? WEXITSTATUS(status) : -1);
  show_mark("a.document");
}

/* Why a call on the file failed, in each of the ways to be told. */
static void causes(void) {
  geosvm_session s = GEOSVM_CLOSED;
  struct rlimit limit, none;
  uint8_t reply[64];
  size_t length = 0;
  uint16_t block = 0;
  puts("-- causes");
  make("a.document", 18);
  signal(SIGXFSZ, SIG_IGN);
  getrlimit(RLIMIT_FSIZE, &limit);
  none = limit;
  none.rlim_cur = 1;
  TELL(geosvm_open_path(&s, "nowhere", GEOSVM_PATH_EXISTING));
  TELL(geosvm_open_path(&s, "a.document", GEOSVM_PATH_EXISTING));
  printf("  it stays: %s\n", error_name(geosvm_last_error()));
  TELL(set_mark(&s, 19));
  fflush(stdout);
  setrlimit(RLIMIT_FSIZE, &none);
  const int32_t update = geosvm_update(&s), updated = geosvm_last_error(), save = geosvm_save(&s), saved = geosvm_last_error();
  const int32_t edit = geosvm_newraw(&s, 1, 4, &block), edited = geosvm_last_error();
  const int32_t command = geosvm_command(&s, (const uint8_t *)"save", 4, reply, sizeof reply, &length), told = geosvm_last_error();
  setrlimit(RLIMIT_FSIZE, &limit);
  printf("update: %s %s\nsave: %s %s\n", geosvm_code_name(update), error_name(updated), geosvm_code_name(save), error_name(saved));
  printf("newraw: %s %s\n", geosvm_code_name(edit), error_name(edited));
  printf("command: %s %s, %.*s", geosvm_code_name(command), error_name(told), (int)length, (const char *)reply);
  TELL(geosvm_open(&(geosvm_session){0}, 199, 8));
  const int fd = open("a.document", O_RDWR | O_APPEND | O_CLOEXEC), own = open("a.document", O_RDWR | O_CLOEXEC);
  TELL(geosvm_open(&(geosvm_session){0}, fd, 8));
  TELL(geosvm_save_as(&s, own));
  close(fd), close(own);
  TELL(geosvm_save(&s));
  TELL(geosvm_close(&s));
  TELL(geosvm_open_path(&s, "a.document", GEOSVM_PATH_EXISTING));
  if (truncate("a.document", 100) != 0) stop("a.document");
  TELL(geosvm_vread(&s, 1, reply, sizeof reply, &length));
  TELL(geosvm_close(&s));
  TELL(geosvm_open_path(&s, "a.document", GEOSVM_PATH_EXISTING));
}

int main(void) {
  for (int i = 3; i < 200; i++) close(i);
  arguments();
  ways();
  checksums();
  others();
  links();
  locked();
  readers();
  reading();
  saved_as();
  saved_as_elsewhere();
  streams();
  causes();
  return 0;
}
