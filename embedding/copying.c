/*
** copying.c: a copy of a block in another session, by the calls of geosvm.h. The block is read whole before anything is made.
**
** A new chunk gets the least free handle. So up to the last handle of the block a chunk is made for each, those between without bytes, and
** these are freed again. An empty chunk takes nothing, so that a heap which fits as it is fits with them too.
*/
#include "private.h"
#include <stdlib.h>

enum { FIRST_CHUNK = 16, CHUNK_STEP = 2 };

/* A block as it was read. `handles`, `lengths` and `bytes`, of all chunks, are of one piece of memory. */
struct image {
  uint8_t is_heap;
  uint16_t user_id, heap_type;
  size_t count;      /* chunks */
  uint16_t *handles; /* rising */
  uint16_t *lengths;
  uint8_t *bytes; /* of the raw block, or of all chunks, one behind the other */
  uint32_t size;  /* how many these are at most */
};

/* Asks how many chunks there are, and makes room for them. */
static int32_t make_room(geosvm_session *from, uint16_t block, struct image *image) {
  uint16_t none;
  int32_t code = geosvm_info(from, block, &image->is_heap, &image->user_id, &image->size);
  if (code == GEOSVM_OK && image->is_heap) code = geosvm_gettype(from, block, &image->heap_type);
  if (code == GEOSVM_OK && image->is_heap) code = geosvm_chunks(from, block, &none, 0, &image->count);
  if (code != GEOSVM_OK && code != GEOSVM_CUT_OFF) return code;
  image->handles = malloc(image->count * 2 * sizeof(uint16_t) + image->size + 1);
  if (image->handles == NULL) return GEOSVM_MEMORY;
  image->lengths = image->handles + image->count;
  image->bytes = (uint8_t *)(image->lengths + image->count);
  return GEOSVM_OK;
}

static int32_t read_chunks(geosvm_session *from, uint16_t block, struct image *image) {
  size_t at = 0, length = 0;
  int32_t code = geosvm_chunks(from, block, image->handles, image->count, &length);
  for (size_t i = 0; code == GEOSVM_OK && i < image->count; i++) {
    code = geosvm_read(from, block, image->handles[i], image->bytes + at, image->size - at, &length);
    image->lengths[i] = (uint16_t)length;
    at += length;
  }
  return code;
}

static int32_t read_block(geosvm_session *from, uint16_t block, struct image *image) {
  size_t length = 0;
  const int32_t code = make_room(from, block, image);
  if (code != GEOSVM_OK) return code;
  if (image->is_heap) return read_chunks(from, block, image);
  return geosvm_vread(from, block, image->bytes, image->size, &length);
}

/* Makes a chunk for each handle up to the last one. */
static int32_t make_chunks(geosvm_session *to, uint16_t block, const struct image *image) {
  const uint8_t *bytes = image->bytes;
  uint32_t next = FIRST_CHUNK;
  int32_t code = GEOSVM_OK;
  for (size_t i = 0; code == GEOSVM_OK && i < image->count; next += CHUNK_STEP) {
    const bool is_gap = next < image->handles[i];
    const uint16_t length = is_gap ? 0 : image->lengths[i];
    uint16_t chunk = 0;
    code = geosvm_alloc(to, block, length, &chunk);
    if (code == GEOSVM_OK && length > 0) code = geosvm_write(to, block, chunk, 0, bytes, length);
    bytes += length;
    if (!is_gap) i++;
  }
  return code;
}

/* Frees those that lie between. */
static int32_t free_gaps(geosvm_session *to, uint16_t block, const struct image *image) {
  uint32_t next = FIRST_CHUNK;
  int32_t code = GEOSVM_OK;
  for (size_t i = 0; code == GEOSVM_OK && i < image->count; next += CHUNK_STEP) {
    if (next == image->handles[i]) i++;
    else code = geosvm_free(to, block, (uint16_t)next);
  }
  return code;
}

static int32_t make_heap(geosvm_session *to, const struct image *image, uint16_t *copy) {
  int32_t code = geosvm_newheap(to, image->user_id, copy);
  if (code == GEOSVM_OK && image->heap_type != 0) code = geosvm_settype(to, *copy, image->heap_type);
  if (code == GEOSVM_OK) code = make_chunks(to, *copy, image);
  if (code == GEOSVM_OK) code = free_gaps(to, *copy, image);
  return code;
}

static int32_t make_raw(geosvm_session *to, const struct image *image, uint16_t *copy) {
  int32_t code = geosvm_newraw(to, image->user_id, image->size, copy);
  if (code == GEOSVM_OK && image->size > 0) code = geosvm_vwrite(to, *copy, 0, image->bytes, image->size);
  return code;
}

/* Takes back what was made of a block. A group of the program's own, and locks, bar an abandon: then it is freed. */
static void take_back(geosvm_session *to, bool has_group, uint16_t block) {
  if (has_group && geosvm_abandon(to) == GEOSVM_OK) return;
  if (block != 0) geosvm_vfree(to, block);
  if (has_group) geosvm_end(to);
}

static int32_t make_block(geosvm_session *to, const struct image *image, uint16_t *copy) {
  const int32_t begun = geosvm_begin(to);
  int32_t code;
  if (begun != GEOSVM_OK && begun != GEOSVM_GROUP_OPEN) return begun;
  code = image->is_heap ? make_heap(to, image, copy) : make_raw(to, image, copy);
  if (code == GEOSVM_OK && begun == GEOSVM_OK) code = geosvm_end(to);
  if (code == GEOSVM_OK) return code;
  take_back(to, begun == GEOSVM_OK, *copy);
  *copy = 0;
  return code;
}

int32_t geosvm_copy_block(geosvm_session *from, uint16_t block, geosvm_session *to, uint16_t *copy) {
  struct image image = {0};
  int32_t code;
  *copy = 0;
  if (!from->private_is_open || !to->private_is_open) return GEOSVM_NOT_OPEN;
  if (from == to) return geosvm_vcopy(to, block, copy);
  code = read_block(from, block, &image);
  if (code == GEOSVM_OK) code = make_block(to, &image, copy);
  free(image.handles);
  return code;
}
