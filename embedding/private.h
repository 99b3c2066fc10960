/*
** private.h: what the C sources of the library have of one another. None of these names is seen outside of it (archive.sh).
*/
#ifndef GEOSVM_PRIVATE_H
#define GEOSVM_PRIVATE_H
#include "geosvm.h"
#include <errno.h>

/* Makes a call again as long as signals interrupt it. */
#define CARRIED_ON(result, call) \
  do { \
    result = call; \
  } while (result < 0 && errno == EINTR)

/* Keeps why a call on a file has failed, for geosvm_last_error: EIO where that is 0. errno is it too. */
void note_failure(int error);

/* Whose the five functions on files are: all the library's, all the program's, or some of each, with which no session can be begun. */
enum owner { OF_LIBRARY, OF_PROGRAM, OF_BOTH };
enum owner owner_of_functions(void);

/* The calls of crates/geos_c that sessions.c has others in front of. */
int32_t proved_geosvm_open(geosvm_session *s, int32_t number, size_t frames);
int32_t proved_geosvm_create(geosvm_session *s, int32_t number, size_t frames);
int32_t proved_geosvm_open_checksums(geosvm_session *s, int32_t number, size_t frames);
int32_t proved_geosvm_create_checksums(geosvm_session *s, int32_t number, size_t frames);
int32_t proved_geosvm_close(geosvm_session *s);
int32_t proved_geosvm_save_as(geosvm_session *s, int32_t number);

#endif
