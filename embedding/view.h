/*
** view.h: a copy of a document, as a program has it that shows one, kept by what geosvm_touched tells. It is written to be copied.
**
**     view *v = new_view();
**     follow(v, &s);                                            looks at the whole document, once
**     if( geosvm_splice(&s, ..)==GEOSVM_OK ) follow(v, &s);     so after each accepted edit, undo, redo, abandon and revert
**
** Places come one after another, a later one in the coordinates after the earlier ones. So `follow` goes over them twice. First it changes
** the copy by each: what is to be looked at again becomes unknown, and bytes behind it move. When all have been told it looks at what is
** unknown, in the document as it is now, and at nothing else.
**
** Where it is refused the copy is given up, and the next call looks at the whole document. VIEW_DIFFERS is of places
** that weren't asked for in time. After a geosvm_command that was GEOSVM_UNTOLD call drop_all and then follow, since
** the places may be the old ones.
**
** A block is locked while it is looked at: so it is GEOSVM_CACHE_FULL where the program has a block locked in each
** frame, and GEOSVM_LOCK_LIMIT where it has locked that block 255 times.
*/
#ifndef VIEW_H
#define VIEW_H
#include "geosvm.h"
#include <stdio.h>
#include <stdlib.h>
#include <string.h>

enum { VIEW_DIFFERS = -1, MOST_HANDLES = 32752 };

/* A text: the bytes of a chunk or of a raw block. */
typedef struct text {
  bool is_there;
  bool is_unknown;  /* whether it is there, and all of it */
  uint32_t length;
  uint8_t *bytes;
  uint8_t *unknown; /* of each byte 1 where it is unknown, else 0 */
} text;

/* A block. It has its texts under the handles of their chunks; that of a raw block has the handle 0. */
typedef struct block {
  bool is_there;
  bool is_unknown;  /* whether it is there, and all of it */
  bool has_unknown_attributes;
  uint8_t is_heap;
  uint16_t user_id, heap_type;
  text *texts;
  size_t room;
} block;

typedef struct view {
  bool is_unknown;  /* all of it */
  bool has_unknown_map;
  uint16_t map_block;
  block blocks[UINT16_MAX + 1];
  uint64_t looked_at; /* how many bytes of texts were looked at so far */
  uint16_t handles[MOST_HANDLES], chunks[MOST_HANDLES];
  geosvm_place *places; /* those that were told last */
  size_t room;          /* for so many */
} view;

static void *view_memory(void *at, size_t size) {
  at = realloc(at, size + 1);
  if (at == NULL) fputs("no memory\n", stderr), exit(1);
  return at;
}

/* What becomes unknown. */

static void drop_text(text *t) {
  free(t->bytes);
  free(t->unknown);
  *t = (text){0};
}
static void drop_block(block *b) {
  for (size_t i = 0; i < b->room; i++) drop_text(&b->texts[i]);
  free(b->texts);
  *b = (block){0};
}
static void drop_all(view *v) {
  for (size_t i = 0; i <= UINT16_MAX; i++) drop_block(&v->blocks[i]);
  v->is_unknown = true;
}

static text *text_under(block *b, uint16_t chunk) {
  if (chunk >= b->room) {
    const size_t room = chunk + chunk / 2u + 16u;
    b->texts = view_memory(b->texts, room * sizeof *b->texts);
    memset(b->texts + b->room, 0, (room - b->room) * sizeof *b->texts);
    b->room = room;
  }
  return &b->texts[chunk];
}

/* From `at` on `after` unknown bytes come in the place of `before`, and what lies behind moves. */
static int32_t splice_text(text *t, uint32_t at, uint32_t before, uint32_t after) {
  if (at > t->length || before > t->length - at) return VIEW_DIFFERS;
  const uint32_t behind = t->length - at - before, length = at + after + behind;
  if (after > before || t->bytes == NULL) {
    t->bytes = view_memory(t->bytes, length);
    t->unknown = view_memory(t->unknown, length);
  }
  memmove(t->bytes + at + after, t->bytes + at + before, behind);
  memmove(t->unknown + at + after, t->unknown + at + before, behind);
  memset(t->unknown + at, 1, after);
  t->length = length;
  return GEOSVM_OK;
}

/* A place becomes unknown. Where something is unknown as a whole, nothing within it says more. */
static int32_t mark(view *v, const geosvm_place *p) {
  block *b = &v->blocks[p->block];
  if (v->is_unknown) return GEOSVM_OK;
  if (p->kind == GEOSVM_PLACE_ALL) {
    drop_all(v);
  } else if (p->kind == GEOSVM_PLACE_MAP_BLOCK) {
    v->has_unknown_map = true;
  } else if (p->kind == GEOSVM_PLACE_BLOCK) {
    drop_block(b);
    b->is_unknown = true;
  } else if (b->is_unknown) {
    return GEOSVM_OK;
  } else if (p->kind == GEOSVM_PLACE_ATTRIBUTES) {
    b->has_unknown_attributes = true;
  } else {
    text *t = text_under(b, p->chunk);
    if (p->kind == GEOSVM_PLACE_RUN) return t->is_unknown ? GEOSVM_OK : splice_text(t, p->at, p->before, p->after);
    drop_text(t);
    t->is_unknown = true;
  }
  return GEOSVM_OK;
}

/* What is looked at. */

/* Copies the bytes that are unknown, of these of the document. */
static int32_t take_bytes(view *v, text *t, const uint8_t *bytes, size_t length) {
  if (t->is_unknown) {
    *t = (text){.is_there = true};
    splice_text(t, 0, 0, (uint32_t)length);
  }
  if (length != t->length) return VIEW_DIFFERS;
  for (size_t at = 0, end; at < length; at = end) {
    const uint8_t *first = memchr(t->unknown + at, 1, length - at);
    if (first == NULL) break;
    at = (size_t)(first - t->unknown);
    for (end = at; end < length && t->unknown[end]; end++) t->unknown[end] = 0;
    memcpy(t->bytes + at, bytes + at, end - at);
    v->looked_at += end - at;
  }
  return GEOSVM_OK;
}

/* The block is locked meanwhile, so that its bytes can be looked at where they lie, and no others are copied. */
static int32_t look_at_text(view *v, geosvm_session *s, uint16_t handle, uint16_t chunk) {
  text *t = text_under(&v->blocks[handle], chunk);
  if (!t->is_unknown && (t->length == 0 || memchr(t->unknown, 1, t->length) == NULL)) return GEOSVM_OK;
  const uint8_t *bytes;
  size_t length;
  int32_t code = geosvm_lock(s, handle);
  if (code != GEOSVM_OK) return code;
  code = chunk == 0 ? geosvm_locked_raw(s, handle, &bytes, &length) : geosvm_locked_chunk(s, handle, chunk, &bytes, &length);
  if (code == GEOSVM_OK) code = take_bytes(v, t, bytes, length);
  else if (code == GEOSVM_NO_CHUNK && t->is_unknown) drop_text(t), code = GEOSVM_OK; /* it went */
  const int32_t unlocked = geosvm_unlock(s, handle);
  return code == GEOSVM_OK ? unlocked : code;
}

static int32_t look_at_attributes(view *v, geosvm_session *s, uint16_t handle) {
  block *b = &v->blocks[handle];
  uint32_t size;
  const int32_t code = geosvm_info(s, handle, &b->is_heap, &b->user_id, &size);
  b->has_unknown_attributes = false;
  return code == GEOSVM_OK && b->is_heap ? geosvm_gettype(s, handle, &b->heap_type) : code;
}

/* A block that is unknown as a whole: it went, or each of its texts is looked at. */
static int32_t look_at_block(view *v, geosvm_session *s, uint16_t handle) {
  block *b = &v->blocks[handle];
  size_t count = 1;
  v->chunks[0] = 0;
  int32_t code = look_at_attributes(v, s, handle);
  if (code == GEOSVM_NO_BLOCK) {
    drop_block(b);
    return GEOSVM_OK;
  }
  if (code == GEOSVM_OK && b->is_heap) code = geosvm_chunks(s, handle, v->chunks, MOST_HANDLES, &count);
  for (size_t i = 0; code == GEOSVM_OK && i < count; i++) {
    text_under(b, v->chunks[i])->is_unknown = true;
    code = look_at_text(v, s, handle, v->chunks[i]);
  }
  if (code != GEOSVM_OK) return code;
  b->is_there = true;
  b->is_unknown = false;
  return GEOSVM_OK;
}

static int32_t look_at_map(view *v, geosvm_session *s) {
  v->has_unknown_map = false;
  return geosvm_mapblock(s, &v->map_block);
}

static int32_t look_at_all(view *v, geosvm_session *s) {
  size_t count;
  int32_t code = look_at_map(v, s);
  if (code == GEOSVM_OK) code = geosvm_list(s, v->handles, MOST_HANDLES, &count);
  for (size_t i = 0; code == GEOSVM_OK && i < count; i++) code = look_at_block(v, s, v->handles[i]);
  if (code == GEOSVM_OK) v->is_unknown = false;
  return code;
}

/* Looks at a place, where something is unknown there. */
static int32_t look(view *v, geosvm_session *s, const geosvm_place *p) {
  const block *b = &v->blocks[p->block];
  if (p->kind == GEOSVM_PLACE_MAP_BLOCK) return v->has_unknown_map ? look_at_map(v, s) : GEOSVM_OK;
  if (b->is_unknown) return look_at_block(v, s, p->block);
  if (!b->is_there) return GEOSVM_OK; /* it went, and was looked at */
  if (p->kind == GEOSVM_PLACE_ATTRIBUTES) return b->has_unknown_attributes ? look_at_attributes(v, s, p->block) : GEOSVM_OK;
  return p->kind == GEOSVM_PLACE_BLOCK ? GEOSVM_OK : look_at_text(v, s, p->block, p->chunk);
}

/* Asks for all places that are told. Where they don't fit it is told how many they are, and they fit next time. */
static int32_t ask_places(view *v, geosvm_session *s, size_t *count) {
  const int32_t code = geosvm_touched(s, 0, v->places, v->room, count);
  if (code != GEOSVM_CUT_OFF) return code;
  v->room = *count;
  v->places = view_memory(v->places, v->room * sizeof *v->places);
  return geosvm_touched(s, 0, v->places, v->room, count);
}

static int32_t look_at_places(view *v, geosvm_session *s, size_t count) {
  int32_t code = GEOSVM_OK;
  for (size_t i = 0; code == GEOSVM_OK && i < count; i++) code = look(v, s, &v->places[i]);
  return code;
}

static view *new_view(void) {
  view *v = view_memory(NULL, sizeof *v);
  memset(v, 0, sizeof *v);
  v->is_unknown = true;
  v->places = view_memory(NULL, 0); /* never NULL, as geosvm.h wants it */
  return v;
}
static void free_view(view *v) {
  drop_all(v);
  free(v->places);
  free(v);
}

static int32_t follow(view *v, geosvm_session *s) {
  size_t count = 0;
  int32_t code = v->is_unknown ? GEOSVM_OK : ask_places(v, s, &count);
  for (size_t i = 0; code == GEOSVM_OK && i < count; i++) code = mark(v, &v->places[i]);
  if (code == GEOSVM_OK) code = v->is_unknown ? look_at_all(v, s) : look_at_places(v, s, count);
  if (code != GEOSVM_OK) drop_all(v);
  return code;
}
#endif
