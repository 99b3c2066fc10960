/* A view of a document (view.h) through edits, undos, redos, groups, abandons, joins and commits by chance: it looks where it is told and
   nowhere else, and after each call is compared with the whole document, and the names of steps with those that were given. Run it in an
   empty folder, as view_c [STEPS [SEED]]. */
#define _GNU_SOURCE
#include "view.h"
#include <fcntl.h>
#include <sys/file.h>
#include <unistd.h>

static uint64_t seed, state;
static unsigned long steps, step;

static void fail(const char *what, long code) {
  printf("step %lu of seed %llu: %s (%ld)\n", step, (unsigned long long)seed, what, code);
  exit(1);
}

/* Chance. */

static uint32_t below(uint32_t most) {
  state ^= state << 13;
  state ^= state >> 7;
  state ^= state << 17;
  return (uint32_t)((state * 0x2545f4914f6cdd1dull >> 33) % most);
}

/* Few bytes differ, so that names and elements come again, and bytes are written over by the same ones. */
static uint8_t text_bytes[256], part_bytes[8];
static size_t some(uint8_t *bytes, uint32_t most) {
  const uint32_t size = below(most + 1);
  for (uint32_t i = 0; i < size; i++) bytes[i] = (uint8_t)below(3);
  return size;
}
static uint32_t some_size(void) { return below(6) == 0 ? below(3000) : below(100); }

/* The whole document, and what the view has of it otherwise. */

static uint64_t document_bytes;
static uint16_t live[MOST_HANDLES];
static size_t live_count;

static void compare_text(const text *t, const uint8_t *bytes, size_t length) {
  document_bytes += length;
  if (!t->is_there || t->is_unknown || t->length != length) fail("a text has another length", (long)length);
  if (length > 0 && memchr(t->unknown, 1, length) != NULL) fail("bytes are unknown", 0);
  if (memcmp(t->bytes, bytes, length) != 0) fail("a text has other bytes", 0);
}

static void compare_block(const view *v, geosvm_session *s, uint16_t handle) {
  static uint8_t bytes[65520];
  static uint16_t chunks[MOST_HANDLES];
  const block *b = &v->blocks[handle];
  uint8_t is_heap = 0;
  uint16_t user_id = 0, heap_type = 0;
  uint32_t size;
  size_t count = 1, length = 0, there = 0;
  int32_t code = geosvm_info(s, handle, &is_heap, &user_id, &size);
  if (code == GEOSVM_OK && is_heap) code = geosvm_gettype(s, handle, &heap_type);
  if (!b->is_there || b->is_unknown || b->has_unknown_attributes) fail("a block is missing", handle);
  if (b->is_heap != is_heap || b->user_id != user_id || b->heap_type != heap_type) fail("a block has other attributes", handle);
  if (!is_heap) chunks[0] = 0;
  else if (code == GEOSVM_OK) code = geosvm_chunks(s, handle, chunks, MOST_HANDLES, &count);
  for (size_t i = 0; code == GEOSVM_OK && i < count; i++) {
    if (is_heap) code = geosvm_read(s, handle, chunks[i], bytes, sizeof bytes, &length);
    else code = geosvm_vread(s, handle, bytes, sizeof bytes, &length);
    if (chunks[i] >= b->room) fail("a text is missing", chunks[i]);
    compare_text(&b->texts[chunks[i]], bytes, length);
  }
  for (size_t i = 0; i < b->room; i++) there += b->texts[i].is_there || b->texts[i].is_unknown;
  if (code != GEOSVM_OK || there != count) fail("the view has a text more", code);
}

static void compare(const view *v, geosvm_session *s) {
  uint16_t map_block = 0;
  size_t there = 0;
  int32_t code = geosvm_mapblock(s, &map_block);
  if (code == GEOSVM_OK) code = geosvm_list(s, live, MOST_HANDLES, &live_count);
  if (v->is_unknown || v->has_unknown_map || v->map_block != map_block) fail("another block is the map block", v->map_block);
  for (size_t i = 0; i < live_count; i++) compare_block(v, s, live[i]);
  for (size_t i = 1; i < 256; i++) there += v->blocks[i].is_there || v->blocks[i].is_unknown;
  if (code != GEOSVM_OK || there != live_count) fail("the view has a block more", code);
}

/* Edits. The order of their kinds counts: those before `vfree` make a block, those before `chcopy` take any block, those before `settype` a
   raw one, from `hinsert` on the root of a large array, and others a heap; those from `free` on take a chunk, from `ainsert` on with an
   array, from `eadd` or `nadd` on of that kind. */

#define EACH_KIND(X) \
  X(newraw) X(newheap) X(vcopy) X(hcreate) X(vfree) X(uid) X(map) X(chcopy) X(chfree) X(vwrite) X(vsplice) X(attach) X(hinsert) X(hset) \
  X(hdelete) X(settype) X(alloc) X(acreate) X(ecreate) X(ncreate) X(free) X(resize) X(insert) X(delete) X(write) X(splice) X(ainsert) X(aset) X(aresize) X(adelete) X(azero) \
  X(eadd) X(eref) X(eunref) X(edelete) X(echange) X(nadd) X(nname) X(nset) X(nunref)
#define NUMBER(name) edit_##name,
#define TEXT(name) #name,
enum { EACH_KIND(NUMBER) KINDS };
static const char *const names[KINDS] = { EACH_KIND(TEXT) };
static unsigned long accepted[KINDS];

/* A link to a block, or to none. */
static size_t some_link(void) {
  const uint16_t to = live_count > 0 && below(3) ? live[below((uint32_t)live_count)] : 0;
  text_bytes[0] = (uint8_t)to, text_bytes[1] = (uint8_t)(to >> 8);
  return 2;
}
static uint16_t some_chunk(const block *b) {
  for (int i = 0; b->room > 0 && i < 100; i++) {
    const uint16_t handle = (uint16_t)below((uint32_t)b->room);
    if (b->texts[handle].is_there) return handle;
  }
  return 0;
}
static bool suits(geosvm_session *s, const view *v, int kind, uint16_t b, uint16_t c) {
  size_t count;
  uint16_t token;
  if (kind < edit_chcopy) return true;
  if (v->blocks[b].is_heap != (kind >= edit_settype)) return false;
  if (kind >= edit_hinsert && kind < edit_settype) return geosvm_hcount(s, b, &count) == GEOSVM_OK;
  /* Roots have other bytes seldom, and branches, whose user ID is 0. */
  if (kind >= edit_vwrite && kind < edit_hinsert)
    return below(8) == 0 || (v->blocks[b].user_id != 0 && geosvm_hcount(s, b, &count) != GEOSVM_OK);
  if (kind < edit_free) return true;
  const bool is_array = geosvm_acount(s, b, c, &count) == GEOSVM_OK;
  if (kind < edit_ainsert) return !is_array || below(8) == 0;
  if (kind < edit_eadd) return is_array;
  if (kind < edit_nadd) return geosvm_eused(s, b, c, &count) == GEOSVM_OK;
  return geosvm_nfind(s, b, c, text_bytes, 0, &token) != GEOSVM_NOT_ARRAY;
}

static int32_t edit_block(geosvm_session *s, int kind, uint16_t b, uint32_t at, uint32_t count) {
  uint16_t made;
  switch (kind) {
  case edit_newraw: return geosvm_newraw(s, (uint16_t)below(9), some_size(), &made);
  case edit_newheap: return geosvm_newheap(s, (uint16_t)below(9), &made);
  case edit_hcreate: return geosvm_hcreate(s, (uint16_t)(1 + below(8)), below(3), &made);
  case edit_vfree: return geosvm_vfree(s, b);
  case edit_vcopy: return geosvm_vcopy(s, b, &made);
  case edit_vwrite:
    return below(3) ? geosvm_vwrite(s, b, at, text_bytes, some(text_bytes, count)) : geosvm_vwrite(s, b, 0, text_bytes, some_link());
  case edit_vsplice: return geosvm_vsplice(s, b, at, count, text_bytes, some(text_bytes, 30));
  case edit_attach: return geosvm_attach(s, b, text_bytes, below(2) ? some(text_bytes, 80) : some_link());
  case edit_uid: return geosvm_uid(s, b, (uint16_t)below(9));
  case edit_settype: return geosvm_settype(s, b, (uint16_t)below(9));
  case edit_map: return geosvm_map(s, below(4) ? b : 0);
  case edit_chcopy: return geosvm_chcopy(s, b, &made);
  default: return geosvm_chfree(s, b);
  }
}

/* Elements come by few bytes and by many, so that a branch is split, and go likewise, so that two become one. */
static int32_t edit_large(geosvm_session *s, int kind, uint16_t root) {
  static uint8_t many[40000];
  size_t elements = 0;
  if (geosvm_hcount(s, root, &elements) != GEOSVM_OK) elements = 0;
  const uint32_t i = below((uint32_t)elements + 1), left = (uint32_t)elements - i, most = left < 80 ? left : 80;
  if (kind == edit_hdelete) return geosvm_hdelete(s, root, i, below(6) ? below(most + 1) : left);
  if (below(6) == 0) {
    const size_t size = 2 * below(sizeof many / 2);
    memset(many, (int)below(3), size);
    return kind == edit_hset ? geosvm_hset(s, root, i, many, size) : geosvm_hinsert(s, root, i, many, size);
  }
  return kind == edit_hset ? geosvm_hset(s, root, i, text_bytes, some(text_bytes, most))
                           : geosvm_hinsert(s, root, i, text_bytes, some(text_bytes, 80));
}

static int32_t edit_chunk(geosvm_session *s, int kind, uint16_t b, uint16_t c, uint32_t at, uint32_t count) {
  uint16_t made;
  switch (kind) {
  case edit_alloc: return geosvm_alloc(s, b, some_size(), &made);
  case edit_acreate: return geosvm_acreate(s, b, 2 * below(2), below(9), &made);
  case edit_ecreate: return geosvm_ecreate(s, b, 2 * below(2), &made);
  case edit_ncreate: return geosvm_ncreate(s, b, below(2), &made);
  case edit_free: return geosvm_free(s, b, c);
  case edit_resize: return geosvm_resize(s, b, c, some_size());
  case edit_insert: return geosvm_insert(s, b, c, at, below(40));
  case edit_delete: return geosvm_delete(s, b, c, at, count);
  case edit_write: return geosvm_write(s, b, c, at, text_bytes, some(text_bytes, count));
  default: return geosvm_splice(s, b, c, at, count, text_bytes, some(text_bytes, 30));
  }
}

static int32_t edit_array(geosvm_session *s, int kind, uint16_t b, uint16_t c, uint32_t i) {
  const uint16_t token = (uint16_t)i;
  uint16_t made;
  switch (kind) {
  case edit_ainsert: return geosvm_ainsert(s, b, c, i, text_bytes, some(text_bytes, 4));
  case edit_aset: return geosvm_aset(s, b, c, i, text_bytes, some(text_bytes, 4));
  case edit_aresize: return geosvm_aresize(s, b, c, i, below(9));
  case edit_adelete: return geosvm_adelete(s, b, c, i, below(4));
  case edit_azero: return geosvm_azero(s, b, c);
  case edit_eadd: return geosvm_eadd(s, b, c, text_bytes, some(text_bytes, 4), &made);
  case edit_eref: return geosvm_eref(s, b, c, token);
  case edit_eunref: return geosvm_eunref(s, b, c, token);
  case edit_edelete: return geosvm_edelete(s, b, c, token);
  case edit_echange: return geosvm_echange(s, b, c, token, text_bytes, some(text_bytes, 4));
  case edit_nadd: {
    const size_t size = some(text_bytes, 5), part_size = some(part_bytes, 1);
    return geosvm_nadd(s, b, c, text_bytes, size, part_bytes, part_size, below(2), &made);
  }
  case edit_nname: return geosvm_nname(s, b, c, token, text_bytes, some(text_bytes, 5));
  case edit_nset: return geosvm_nset(s, b, c, token, part_bytes, some(part_bytes, 1));
  default: return geosvm_nunref(s, b, c, token);
  }
}

/* Tries an edit where it may be accepted. There are never many blocks, chunks or bytes. */
static bool is_accepted(const view *v, geosvm_session *s, int kind) {
  static uint16_t b, c; /* where the last one was, the next one often is */
  size_t chunks = 0, elements = 0;
  if ((kind < edit_vfree || kind == edit_chcopy) && live_count >= 10) kind = edit_vfree;
  for (int i = 0; live_count > 0 && i < 50; i++) {
    const bool stays = i == 0 && below(2) && v->blocks[b].is_there;
    if (!stays) b = live[below((uint32_t)live_count)];
    if (!stays || below(2)) c = v->blocks[b].is_heap ? some_chunk(&v->blocks[b]) : 0;
    if (suits(s, v, kind, b, c)) break;
  }
  for (size_t i = 0; i < v->blocks[b].room; i++) chunks += v->blocks[b].texts[i].is_there;
  if (kind >= edit_alloc && kind < edit_free && chunks >= 12) kind = edit_free;
  const uint32_t length = c < v->blocks[b].room ? v->blocks[b].texts[c].length : 0;
  const uint32_t at = below(length + 1), left = length - at, count = below(left < 40 ? left + 1 : 40);
  if (kind > edit_free && length > 4000) kind = edit_resize;
  if (kind >= edit_ainsert && geosvm_acount(s, b, c, &elements) != GEOSVM_OK) elements = 0;
  int32_t code;
  if (kind >= edit_hinsert && kind <= edit_hdelete) code = edit_large(s, kind, b);
  else if (kind <= edit_settype) code = edit_block(s, kind, b, at, count);
  else if (kind <= edit_splice) code = edit_chunk(s, kind, b, c, at, count);
  else code = edit_array(s, kind, b, c, below((uint32_t)elements + 1));
  if (code == GEOSVM_MEMORY || code == GEOSVM_FILE || code == GEOSVM_DAMAGED || code >= GEOSVM_NOT_OPEN) fail(names[kind], code);
  accepted[kind] += code == GEOSVM_OK;
  return code == GEOSVM_OK;
}

/* What is told. */

typedef int32_t asks(geosvm_session *s, size_t first, geosvm_place *places, size_t room, size_t *count);
enum { MOST_PLACES = 20000 };
typedef struct list { size_t count; geosvm_place places[MOST_PLACES]; } list;
static list told, foretold, now;

/* Has the places that are asked for, through a window of some size; where it is refused, false. */
static bool is_told(geosvm_session *s, asks *ask, list *l) {
  const size_t room = 1 + below(20);
  int32_t code = GEOSVM_CUT_OFF;
  for (size_t first = 0; code == GEOSVM_CUT_OFF && first + room <= MOST_PLACES; first += room)
    code = ask(s, first, l->places + first, room, &l->count);
  return code == GEOSVM_OK;
}
static bool are_same(const list *a, const list *b) {
  for (size_t i = 0; a->count == b->count && i < a->count; i++) {
    const geosvm_place *p = &a->places[i], *q = &b->places[i];
    if (p->kind != q->kind || p->block != q->block || p->chunk != q->chunk) return false;
    if (p->at != q->at || p->before != q->before || p->after != q->after) return false;
  }
  return a->count == b->count;
}

/* The document was changed: the view follows. */
static void changed(view *v, geosvm_session *s, bool is_foretold) {
  const int32_t code = follow(v, s);
  if (code != GEOSVM_OK || !is_told(s, geosvm_touched, &told)) fail("the view can't follow", code);
  if (is_foretold && !are_same(&told, &foretold)) fail("other places were foretold", 0);
}
/* It wasn't: what is told is still the same. */
static void unchanged(geosvm_session *s) {
  if (!is_told(s, geosvm_touched, &now) || !are_same(&told, &now)) fail("other places are told", 0);
}

/* Steps. */

enum { EDITED, UNDONE, REDONE, BEGUN, ENDED, ABANDONED, JOINED, FORGOTTEN, COMMITTED, REVERTED, CALLS };
static const char *const calls[] = {"edits", "undos", "redos", "begins", "ends", "abandons", "joins", "forgets", "commits", "reverts"};
static unsigned long made[CALLS];
static bool in_group;
static uint32_t back, ahead; /* how many undos, and then redos, come next */

/* The names of the steps that can be undone, the newest last, and behind them of those that can be redone. One of N bytes, each of them N,
   stands here as N. */
static uint8_t *given;
static size_t undoable, all_steps;
static bool group_has_edits;

static void take_names(size_t from, size_t count) {
  memmove(given + from, given + from + count, all_steps - from - count);
  undoable -= count, all_steps -= count;
}
static void accept(int call) {
  made[call]++;
  if (call == EDITED) all_steps = undoable;
  if (call == EDITED || call == BEGUN) group_has_edits = call == EDITED;
  if (call == EDITED ? !in_group : call == ENDED && group_has_edits) given[undoable++] = 0, all_steps = undoable;
  if (call == UNDONE) undoable--;
  if (call == REDONE) undoable++;
  if (call == JOINED) take_names(undoable - (given[undoable - 1] > 0 ? 2 : 1), 1);
  if (call == REVERTED) undoable = all_steps = 0;
}

typedef int32_t asks_name(geosvm_session *s, uint8_t *name, size_t room, size_t *length);
static void compare_name(geosvm_session *s, asks_name *ask, bool is_there, size_t at) {
  uint8_t name[64];
  size_t length;
  const int32_t code = ask(s, name, sizeof name, &length);
  if ((code == GEOSVM_OK) != is_there || length != (is_there ? given[at] : 0)) fail("a step has another name", code);
  for (size_t i = 0; i < length; i++) if (name[i] != length) fail("a name has other bytes", name[i]);
}
/* Every third step is named. */
static void name_step(geosvm_session *s) {
  uint8_t name[64];
  if (step % 3 == 0 && !in_group && undoable > 0) {
    memset(name, given[undoable - 1] = step % 65, sizeof name);
    if (geosvm_name(s, name, step % 65) != GEOSVM_OK) fail("name", (long)(step % 65));
  }
  compare_name(s, geosvm_undo_name, !in_group && undoable > 0, undoable - 1);
  compare_name(s, geosvm_redo_name, !in_group && undoable < all_steps, undoable);
}

/* A call after which nothing else is told. */
static void keeps(geosvm_session *s, int call, int32_t code) {
  if (code != GEOSVM_OK) fail(calls[call], code);
  accept(call);
  unchanged(s);
}

/* What takes away is rarer, so that something is there. */
static void edit(view *v, geosvm_session *s) {
  int kind = (int)below(KINDS);
  const bool takes = kind == edit_vfree || kind == edit_free || kind == edit_azero || kind == edit_edelete;
  if (takes && below(4)) kind = (int)below(KINDS);
  for (int i = 0; i < 20; i++) {
    if (is_accepted(v, s, kind)) {
      accept(EDITED);
      changed(v, s, false);
      break;
    }
    unchanged(s);
  }
}

/* A call that takes a step back or makes it again, at places that were foretold. Where there is no step it is refused, and so are these. */
static void turn(view *v, geosvm_session *s, int call, asks *ask, int32_t (*make)(geosvm_session *)) {
  const bool is_foretold = is_told(s, ask, &foretold);
  const int32_t code = make(s);
  if (is_foretold != (code == GEOSVM_OK)) fail(calls[call], code);
  if (is_foretold) {
    accept(call);
    changed(v, s, true);
  } else unchanged(s);
}

static void any_step(view *v, geosvm_session *s) {
  const uint32_t chance = below(1000);
  size_t undos = 0;
  if (back > 0) {
    back--;
    turn(v, s, UNDONE, geosvm_undo_places, geosvm_undo);
  } else if (ahead > 0) {
    ahead--;
    turn(v, s, REDONE, geosvm_redo_places, geosvm_redo);
  } else if (chance < 840) {
    edit(v, s);
  } else if (in_group && chance < 900) {
    in_group = false;
    if (chance < 860) turn(v, s, ABANDONED, geosvm_abandon_places, geosvm_abandon);
    else keeps(s, ENDED, geosvm_end(s));
  } else if (in_group) {
    edit(v, s);
  } else if (chance < 900) {
    back = 1 + below(6);
    ahead = below(back + 2);
  } else if (chance < 950) {
    in_group = true;
    keeps(s, BEGUN, geosvm_begin(s));
  } else if (chance < 985) {
    back = ahead = 1 + below(2);
    for (uint32_t i = 0; i < back && geosvm_undos(s, &undos) == GEOSVM_OK && undos > 1; i++) keeps(s, JOINED, geosvm_join(s));
  } else if (chance < 992) {
    const uint32_t most = below(60);
    keeps(s, FORGOTTEN, geosvm_forget(s, most));
    if (undoable > most) take_names(0, undoable - most);
  } else if (chance < 998) {
    keeps(s, COMMITTED, below(2) ? geosvm_save(s) : geosvm_update(s));
  } else {
    if (geosvm_revert(s) != GEOSVM_OK) fail("revert", 0);
    accept(REVERTED);
    changed(v, s, false);
  }
}

int main(int argc, char **argv) {
  steps = argc > 1 ? strtoul(argv[1], NULL, 10) : 500;
  seed = argc > 2 ? strtoull(argv[2], NULL, 10) : 1;
  state = seed * 0x9e3779b97f4a7c15ull + 1;
  geosvm_session s = GEOSVM_CLOSED;
  const int fd = open("view.document", O_RDWR | O_CREAT, 0644);
  if (fd < 0 || flock(fd, LOCK_EX | LOCK_NB) != 0) return perror("view.document"), 1;
  if (geosvm_create(&s, fd, 12) != GEOSVM_OK) fail("create", 0);
  view *v = new_view();
  if ((given = malloc(steps + 1)) == NULL) fail("no memory", 0);
  changed(v, &s, false);
  if (told.count != 0) fail("a new document was changed", (long)told.count);
  for (step = 1; step <= steps; step++) {
    any_step(v, &s);
    name_step(&s);
    compare(v, &s);
  }
  printf("%lu steps:", steps);
  for (int i = 0; i < CALLS; i++) printf(" %lu %s,", made[i], calls[i]);
  printf("\nedits:");
  for (int i = 0; i < KINDS; i++) printf(" %lu %s", accepted[i], names[i]);
  const unsigned long long looked_at = v->looked_at, bytes = document_bytes;
  printf("\nthe view is the document; it looked at %llu bytes of %llu\n", looked_at, bytes);
  free_view(v);
  free(given);
  geosvm_close(&s);
  close(fd);
  return 0;
}
