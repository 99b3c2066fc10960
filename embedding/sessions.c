/*
** sessions.c: the six calls by which a session gets, leaves and gives up a file, in front of those of crates/geos_c, which archive.sh has
** under other names. What these do is theirs; here is only kept whose the file is. One of the library's own is closed where its session
** is closed or goes on in another file, which gives its lock back.
**
** The proved calls have the first two fields of a session, and know nothing of the third.
*/
#include "private.h"
#include <unistd.h>

static void close_own_file(geosvm_session *s) {
  if (s->private_file > 0) close((int)s->private_file);
  s->private_file = 0;
}

/* A session that was begun on a file of the program's, or wasn't. */
static int32_t begun(geosvm_session *s, int32_t code) {
  if (code == GEOSVM_OK) s->private_file = 0;
  return code;
}

int32_t geosvm_open(geosvm_session *s, int32_t number, size_t frames) { return begun(s, proved_geosvm_open(s, number, frames)); }

int32_t geosvm_open_checksums(geosvm_session *s, int32_t number, size_t frames) {
  return begun(s, proved_geosvm_open_checksums(s, number, frames));
}

int32_t geosvm_create(geosvm_session *s, int32_t number, size_t frames) { return begun(s, proved_geosvm_create(s, number, frames)); }

int32_t geosvm_create_checksums(geosvm_session *s, int32_t number, size_t frames) {
  return begun(s, proved_geosvm_create_checksums(s, number, frames));
}

int32_t geosvm_close(geosvm_session *s) {
  const int32_t code = proved_geosvm_close(s);
  if (code == GEOSVM_OK) close_own_file(s);
  return code;
}

int32_t geosvm_save_as(geosvm_session *s, int32_t number) {
  const int32_t code = proved_geosvm_save_as(s, number);
  if (code == GEOSVM_OK) close_own_file(s);
  return code;
}
