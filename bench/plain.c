/*
** The rows of bench.py but `chains` by a plain program that reads the same scripts and writes the same replies: no proofs, no checks of
** damage, and of refusals little more than Full. A command, an operand or an undo that no row has ends it.
**
**     cc -O2 -o plain bench/plain.c && python3 bench/bench.py crates/geosvm/out/geosvm --against plain --repeat 5 --only writes
**
** A chunk is a piece of malloc's, and a heap counts what its chunks need. Arrays lie in their chunks as docs/FORMAT.md has them, and are
** searched from the first element on. Raw blocks are in the file, 8 of them in memory; a commit writes what changed and the directory to
** free pages, and then a slot, so that the file is a document. Steps lie in one row, each with the bytes before and after it.
** A large array, of bytes alone, lies in raw blocks as docs/FORMAT.md has it, and by the same rule; each root and branch counts as one.
** Without --new the file is opened, and no more of it is read than the directories.
*/
#include <fcntl.h>
#include <stdbool.h>
#include <stdint.h>
#include <stdio.h>
#include <stdlib.h>
#include <string.h>
#include <unistd.h>

enum {
  LINE = 140000, READ = 1 << 16, REPLIES = 1 << 18,
  CAPACITY = 65520, ENTRIES = 32752, BLOCKS = 8192, NONE = 0xffff,
  FRAMES = 8, PAGE = 512, PAGES = 1 << 21, DIRECTORY = 16, LISTED = 16, SLOT = 32,
  COUNT = 3, ELEMENT_HEAD = 10, NAME_HEAD = 12,
  ROOT = 16, BRANCH = 10, ROOM = CAPACITY - BRANCH, JOINED = 49132, WINDOW = 8, LONG = 64
};

static void require(bool holds) {
  if (!holds) abort();
}

/* Words of operands and replies */

static const uint8_t digits[256] = {
  ['0'] = 16, ['1'] = 17, ['2'] = 18, ['3'] = 19, ['4'] = 20, ['5'] = 21, ['6'] = 22, ['7'] = 23, ['8'] = 24, ['9'] = 25,
  ['a'] = 26, ['b'] = 27, ['c'] = 28, ['d'] = 29, ['e'] = 30, ['f'] = 31,
  ['A'] = 26, ['B'] = 27, ['C'] = 28, ['D'] = 29, ['E'] = 30, ['F'] = 31
};

static const char *rest; /* what isn't read of the line, which ends in a zero */
static char replies[REPLIES];
static int replied;

static const char *word(void) {
  while (*rest == ' ' || *rest == '\t' || *rest == '\r') rest++;
  return rest;
}

static int number(void) {
  int value = 0;
  for (word(); *rest >= '0' && *rest <= '9'; rest++) value = 10 * value + (*rest - '0');
  return value;
}

static int handle(void) {
  int value = 0;
  for (word(); digits[(uint8_t)*rest]; rest++) value = 16 * value + digits[(uint8_t)*rest] - 16;
  return value;
}

static int bytes(uint8_t *to) {
  const uint8_t *it = (const uint8_t *)word();
  int count = 0;
  if (*it == '-') it++;
  for (; digits[it[0]] && digits[it[1]]; it += 2) to[count++] = (uint8_t)(digits[it[0]] << 4 | (digits[it[1]] & 15));
  rest = (const char *)it;
  return count;
}

static void send(void) {
  for (int sent = 0; sent < replied;) {
    const ssize_t more = write(1, replies + sent, (size_t)(replied - sent));
    require(more > 0);
    sent += (int)more;
  }
  replied = 0;
}

static void put(const char *text) {
  while (*text) replies[replied++] = *text++;
}

static void put_number(int value) {
  char text[12];
  int count = 0;
  do text[count++] = (char)('0' + value % 10);
  while (value /= 10);
  while (count) replies[replied++] = text[--count];
}

static void put_hex(int value, int count) {
  while (count--) replies[replied++] = "0123456789abcdef"[value >> 4 * count & 15];
}

static void put_handle(const char *text, int value) { put(text); put_hex(value, 4); put("\n"); }
static void put_count(const char *text, int value) { put(text); put_number(value); put("\n"); }

static void put_bytes(const uint8_t *from, int count) {
  put(count ? "bytes " : "bytes -");
  for (int i = 0; i < count; i++) put_hex(from[i], 2);
  put("\n");
}

static int word_at(const uint8_t *at) { return at[0] | at[1] << 8; }
static int long_at(const uint8_t *at) { return word_at(at) | word_at(at + 2) << 16; }

static void set_word(uint8_t *at, int value) { at[0] = (uint8_t)value; at[1] = (uint8_t)(value >> 8); }
static void set_long(uint8_t *at, int value) { set_word(at, value); set_word(at + 2, value >> 16); }

/* Heaps */

typedef struct { uint8_t *bytes; int size, room; } Chunk;
typedef struct { Chunk *chunks; uint64_t live[ENTRIES / 64 + 1]; int room, top, spaces; } Heap;
typedef struct { int page, length; } Extent;
typedef struct { Heap *heap; int size; bool live; Extent place, updated, saved; } Block; /* in the documents; page 0 where it isn't */

static Block blocks[BLOCKS + 1];
static int greatest; /* none from here on is live; only branches are freed */

static int space_of(int size) { return size ? (size + 5) / 4 * 4 : 0; }
static int need(int top, int spaces) { return 16 + (top + 1) / 2 * 4 + spaces; }
static bool is_live(const Heap *heap, int entry) { return heap->live[entry / 64] >> entry % 64 & 1; }

static Heap *heap_of(int block) {
  require(block <= greatest && blocks[block].heap);
  return blocks[block].heap;
}

static Chunk *chunk_of(const Heap *heap, int chunk) {
  const int entry = (chunk - 16) / 2;
  require(chunk >= 16 && entry < heap->room && is_live(heap, entry));
  return &heap->chunks[entry];
}

/* Whether the heap has room where a chunk of one size has another, or no chunk is at the entry before. */
static bool fits(const Heap *heap, int entry, int old, int new) {
  const int top = entry < heap->top ? heap->top : entry + 1;
  return need(top, heap->spaces - space_of(old) + space_of(new)) <= CAPACITY;
}

static int free_entry(const Heap *heap) {
  int at = 0;
  while (heap->live[at] == UINT64_MAX) at++;
  return 64 * at + __builtin_ctzll(~heap->live[at]);
}

static void set_size(Heap *heap, Chunk *chunk, int size) {
  heap->spaces += space_of(size) - space_of(chunk->size);
  chunk->size = size;
  if (size <= chunk->room) return;
  chunk->room = size + size / 2;
  require((chunk->bytes = realloc(chunk->bytes, (size_t)chunk->room)));
}

/* Puts so many bytes in place of others, zeros where none are given. */
static void splice(Heap *heap, Chunk *chunk, int at, int old, int new, const uint8_t *from) {
  const int behind = chunk->size - at - old;
  if (new > old) set_size(heap, chunk, chunk->size - old + new);
  if (new != old) memmove(chunk->bytes + at + new, chunk->bytes + at + old, (size_t)behind);
  if (new < old) set_size(heap, chunk, chunk->size - old + new);
  if (from) memcpy(chunk->bytes + at, from, (size_t)new);
  else if (new) memset(chunk->bytes + at, 0, (size_t)new);
}

static void make_chunk(Heap *heap, int entry, int size, const uint8_t *from) {
  if (entry >= heap->room) {
    heap->room = 2 * entry + 16;
    require((heap->chunks = realloc(heap->chunks, sizeof(Chunk) * (size_t)heap->room)));
  }
  heap->chunks[entry] = (Chunk){0};
  heap->live[entry / 64] |= 1ull << entry % 64;
  if (entry >= heap->top) heap->top = entry + 1;
  splice(heap, &heap->chunks[entry], 0, 0, size, from);
}

static void drop_chunk(Heap *heap, int entry) {
  heap->spaces -= space_of(heap->chunks[entry].size);
  free(heap->chunks[entry].bytes);
  heap->live[entry / 64] &= ~(1ull << entry % 64);
  while (heap->top && !is_live(heap, heap->top - 1)) heap->top--;
}

/* Raw blocks: those that were used last, each as the image that is written, a zero and the bytes; and pages of the file */

typedef struct { int block; unsigned used; bool changed; uint8_t image[CAPACITY + 1]; } Frame;

static Frame frames[FRAMES];
static unsigned uses;
static int file, sequence;
static int pages = 2, lowest = 2; /* no page from `pages` on is taken, and none below `lowest` is free */
static int lowest_run = 2; /* no run of LONG free pages begins below it */
static Extent updated, saved; /* the directories of the two documents of the file */
static uint8_t taken[PAGES] = {1, 1};

static int pages_of(int length) { return (length + PAGE - 1) / PAGE; }

static uint8_t *free_page(uint8_t *from) {
  uint8_t *at = memchr(from, 0, (size_t)(taken + pages - from));
  return at ? at : taken + pages;
}

/* The first free pages for so many bytes. */
static int take_pages(int length) {
  const int count = pages_of(length);
  uint8_t *at = free_page(taken + (count < LONG ? lowest : lowest_run)), *behind = taken + pages;
  if (count < LONG) lowest = (int)(at - taken);
  bool passed = count < LONG; /* a long run */
  for (int free = 0; at < behind; at = free_page(at + free)) {
    for (free = 1; free < count && at + free < behind && !at[free];) free++;
    if (!passed && (free >= LONG || at + free == behind)) { lowest_run = (int)(at - taken); passed = true; }
    if (free == count || at + free == behind) break;
  }
  if (!passed) lowest_run = pages;
  const int page = (int)(at - taken);
  require(page + count <= PAGES);
  memset(taken + page, 1, (size_t)count);
  if (page + count > pages) pages = page + count;
  return page;
}

static void give_pages(Extent it) {
  memset(taken + it.page, 0, (size_t)pages_of(it.length));
  if (it.page < lowest) lowest = it.page;
  if (it.page - LONG < lowest_run) lowest_run = it.page < 2 + LONG ? 2 : it.page - LONG;
}

static void write_file(const uint8_t *from, int count, off_t at) { require(pwrite(file, from, (size_t)count, at) == count); }

/* Whether a block has pages that are in neither document. */
static bool is_own(const Block *it) {
  return it->place.page && it->place.page != it->updated.page && it->place.page != it->saved.page;
}

static void write_back(Frame *frame) {
  Block *it = &blocks[frame->block];
  const int length = it->size + 1;
  const bool own = is_own(it), fits = it->place.page && pages_of(length) == pages_of(it->place.length);
  if (own && !fits) give_pages(it->place);
  if (!own || !fits) it->place.page = take_pages(length);
  it->place.length = length;
  write_file(frame->image, length, (off_t)it->place.page * PAGE);
  frame->changed = false;
}

static Frame *frame_for(int block) {
  Frame *oldest = frames;
  for (Frame *it = frames; it < frames + FRAMES; it++) {
    if (it->block == block) { it->used = ++uses; return it; }
    if (it->used < oldest->used) oldest = it;
  }
  if (oldest->changed) write_back(oldest);
  oldest->block = block;
  oldest->used = ++uses;
  if (blocks[block].place.page) {
    const int length = blocks[block].size + 1;
    require(pread(file, oldest->image, (size_t)length, (off_t)blocks[block].place.page * PAGE) == length);
  }
  return oldest;
}

static Frame *load(int block) {
  require(block >= 1 && block <= greatest && blocks[block].live && !blocks[block].heap);
  return frame_for(block);
}

static int directory_bytes(uint8_t *to) {
  uint8_t *entry = to + DIRECTORY;
  memcpy(to, "GDIR\2\0", 6);
  memset(to + 8, 0, 8);
  for (int block = 1; block <= greatest; block++) {
    if (!blocks[block].live) continue;
    require(!blocks[block].heap);
    set_word(entry, block);
    set_word(entry + 2, 0);
    set_long(entry + 4, blocks[block].place.page);
    set_long(entry + 8, blocks[block].size + 1);
    set_long(entry + 12, 0);
    entry += LISTED;
  }
  const int length = (int)(entry - to);
  set_word(to + 6, (length - DIRECTORY) / LISTED);
  return length;
}

static void write_through(const void *from, int count, off_t at) { write_file(from, count, at); require(fsync(file) == 0); }

/* The gate is shut before the slot is written and opened behind it, each synced, so that a torn slot doesn't count. */
static void write_slot(void) {
  const off_t at = (off_t)(++sequence % 2) * PAGE, gate = at + 4;
  uint8_t slot[SLOT] = {'G', 'V', 'M', 'F', 0, 2};
  set_long(slot + 8, sequence);
  set_long(slot + 16, updated.page);
  set_long(slot + 20, updated.length);
  set_long(slot + 24, saved.page);
  set_long(slot + 28, saved.length);
  write_through("\0", 1, gate);
  write_through(slot, SLOT, at);
  write_through("\1", 1, gate);
}

/* What a commit makes free of a block: its pages in the documents before that it has in neither now. */
static void give_replaced(Block *it, bool save) {
  const int page = it->place.page;
  const Extent old_updated = it->updated, old_saved = it->saved;
  it->updated = it->place;
  if (save) it->saved = it->place;
  if (old_updated.page && old_updated.page != page && old_updated.page != old_saved.page) give_pages(old_updated);
  if (save && old_saved.page && old_saved.page != page) give_pages(old_saved);
}

static void commit(bool save) {
  static uint8_t bytes[DIRECTORY + LISTED * BLOCKS];
  for (Frame *it = frames; it < frames + FRAMES; it++)
    if (it->changed) write_back(it);
  const int length = directory_bytes(bytes);
  const Extent directory = {take_pages(length), length}, old_updated = updated, old_saved = saved;
  write_file(bytes, length, (off_t)directory.page * PAGE);
  updated = directory;
  if (save) saved = directory;
  write_slot();
  for (int block = 1; block <= greatest; block++) give_replaced(&blocks[block], save);
  if (old_updated.page && old_updated.page != old_saved.page) give_pages(old_updated);
  if (save && old_saved.page) give_pages(old_saved);
}

static void take_extent(Extent it) {
  const int behind = it.page + pages_of(it.length);
  require(it.page > 1 && behind <= PAGES);
  memset(taken + it.page, 1, (size_t)(behind - it.page));
  if (behind > pages) pages = behind;
}

static void read_directory(Extent it, bool of_saved) {
  static uint8_t bytes[DIRECTORY + LISTED * BLOCKS];
  require(it.length <= (int)sizeof bytes && pread(file, bytes, (size_t)it.length, (off_t)it.page * PAGE) == it.length);
  take_extent(it);
  for (const uint8_t *entry = bytes + DIRECTORY; entry < bytes + it.length; entry += LISTED) {
    const int block = word_at(entry);
    const Extent image = {long_at(entry + 4), long_at(entry + 8)};
    require(block >= 1 && block <= BLOCKS);
    take_extent(image);
    if (block > greatest) greatest = block;
    if (of_saved) { blocks[block].saved = image; continue; }
    blocks[block].size = image.length - 1;
    blocks[block].live = true;
    blocks[block].place = blocks[block].updated = image;
  }
}

/* Opens the documents of the newest slot, which are as a commit leaves them, and of raw blocks. */
static void open_documents(void) {
  uint8_t slots[2 * PAGE];
  const uint8_t *newest = NULL;
  require(pread(file, slots, sizeof slots, 0) == sizeof slots);
  for (const uint8_t *slot = slots; slot < slots + sizeof slots; slot += PAGE)
    if (slot[4] == 1 && long_at(slot + 8) > sequence) sequence = long_at((newest = slot) + 8);
  require(newest);
  updated = (Extent){long_at(newest + 16), long_at(newest + 20)};
  saved = (Extent){long_at(newest + 24), long_at(newest + 28)};
  read_directory(updated, false);
  read_directory(saved, true);
}

/* Element and name arrays: the count of references of a used slot in three bytes, or the token that is free after it and ff */

static int offset_at(const uint8_t *array, int head, int token) { return word_at(array + head + 2 * token); }

static int slot_end(const Chunk *chunk, int head, int token) {
  return token + 1 < word_at(chunk->bytes) ? offset_at(chunk->bytes, head, token + 1) : chunk->size;
}

static void move_offsets(uint8_t *array, int head, int from, int by) {
  const int count = word_at(array);
  for (int i = from; i < count; i++) set_word(array + head + 2 * i, offset_at(array, head, i) + by);
}

static void set_slot(Heap *heap, Chunk *chunk, int token, const uint8_t *from, int size) {
  const int head = word_at(chunk->bytes + 6), at = offset_at(chunk->bytes, head, token);
  const int old = slot_end(chunk, head, token) - at;
  splice(heap, chunk, at, old, size, from);
  if (size != old) move_offsets(chunk->bytes, head, token + 1, size - old);
}

static void append_slot(Heap *heap, Chunk *chunk, const uint8_t *from, int size) {
  const int head = word_at(chunk->bytes + 6), count = word_at(chunk->bytes), at = chunk->size;
  set_size(heap, chunk, at + 2 + size);
  const int table = head + 2 * count;
  memmove(chunk->bytes + table + 2, chunk->bytes + table, (size_t)(at - table));
  memcpy(chunk->bytes + at + 2, from, (size_t)size);
  move_offsets(chunk->bytes, head, 0, 2);
  set_word(chunk->bytes + table, at + 2);
  set_word(chunk->bytes, count + 1);
}

static void remove_slot(Heap *heap, Chunk *chunk) {
  const int head = word_at(chunk->bytes + 6), count = word_at(chunk->bytes) - 1, table = head + 2 * count;
  const int end = offset_at(chunk->bytes, head, count);
  set_word(chunk->bytes, count);
  move_offsets(chunk->bytes, head, 0, -2);
  memmove(chunk->bytes + table, chunk->bytes + table + 2, (size_t)(end - table - 2));
  set_size(heap, chunk, end - 2);
}

static bool is_free(const uint8_t *slot) { return slot[2] == 0xff; }
static int references(const uint8_t *slot) { return slot[0] | slot[1] << 8 | slot[2] << 16; }

/* The lowest used token whose bytes behind `skipped` ones, the count and what stands beside a name, are these; -1 for none. */
static int find_slot(const Chunk *chunk, int head, int skipped, const uint8_t *text, int size) {
  const int count = word_at(chunk->bytes);
  for (int token = 0, at = count ? offset_at(chunk->bytes, head, 0) : 0; token < count; token++) {
    const int end = slot_end(chunk, head, token);
    if (end - at == skipped + size && !is_free(chunk->bytes + at)
        && memcmp(chunk->bytes + at + skipped, text, (size_t)size) == 0) return token;
    at = end;
  }
  return -1;
}

/* Large arrays of bytes: how many elements each branch has is in the root, and the branches' handles behind that */

static int branches_of(const uint8_t *root) { return word_at(root + 4); }
static int count_at(const uint8_t *root, int k) { return word_at(root + ROOT + 2 * k); }
static uint8_t *link_at(uint8_t *root, int k) { return root + ROOT + 2 * branches_of(root) + 4 * k; }

static uint8_t *body_of(int block) { return load(block)->image + 1; }

static uint8_t *changed_body(int block) {
  Frame *frame = load(block);
  frame->changed = true;
  return frame->image + 1;
}

static int branch_at(int root, int k) { return word_at(link_at(body_of(root), k) + 2); }

/* Puts bytes in place of others in branch k. */
static void splice_branch(int root, int k, int at, int old, int new, const uint8_t *from) {
  const int block = branch_at(root, k), size = blocks[block].size, by = new - old;
  uint8_t *body = changed_body(block), *place = body + BRANCH + at;
  memmove(place + new, place + old, (size_t)(size - BRANCH - at - old));
  if (new) memcpy(place, from, (size_t)new);
  blocks[block].size = size + by;
  set_word(body + 2, size + by - BRANCH);
  if (!by) return;
  body = changed_body(root);
  set_word(body + ROOT + 2 * k, count_at(body, k) + by);
  set_long(body + 12, long_at(body + 12) + by);
}

static void start_block(int block, const uint8_t *from, int size) {
  require(block <= BLOCKS && !blocks[block].live);
  blocks[block].live = true;
  blocks[block].size = size;
  if (block > greatest) greatest = block;
  memcpy(frame_for(block)->image + 1, from, (size_t)size);
  frame_for(block)->image[0] = 0;
  frame_for(block)->changed = true;
}

/* Its pages are given back, unless a document of the file has them: then a commit does so. */
static void drop_block(int block) {
  Block *it = &blocks[block];
  for (Frame *frame = frames; frame < frames + FRAMES; frame++)
    if (frame->block == block) { frame->block = 0; frame->changed = false; }
  if (is_own(it)) give_pages(it->place);
  it->live = false;
  it->place = (Extent){0};
}

/* An empty branch comes in at a place, or goes. */
static void turn_branch(int root, int k, int block, bool comes) {
  static const uint8_t empty[BRANCH] = {0, 0, 0, 0, 1, 0, 0, 0, 8, 0};
  if (comes) start_block(block, empty, BRANCH);
  else drop_block(block);
  uint8_t *body = changed_body(root), *count = body + ROOT + 2 * k, *link = link_at(body, k), *end = body + blocks[root].size;
  const int branches = branches_of(body) + (comes ? 1 : -1);
  if (comes) {
    memmove(link + 6, link, (size_t)(end - link));
    memmove(count + 2, count, (size_t)(link - count));
    set_word(count, 0);
    set_long(link + 2, block << 16);
  } else {
    memmove(count, count + 2, (size_t)(link - count - 2));
    memmove(link - 2, link + 4, (size_t)(end - link - 4));
  }
  blocks[root].size = ROOT + 6 * branches;
  set_word(body + 2, ROOT + 2 * branches);
  set_word(body + 4, branches);
}

/* Steps */

enum { BLOCK, MADE, FREED, SPLICED, WRITTEN, INSERTED, SLOT_SET, SLOT_ADDED, RUN, BRANCH_IN, BRANCH_OUT };

/* Behind a step stand the bytes that were there and those that came, the latter not where they are zeros. */
typedef struct {
  uint32_t before; /* how long the step before it is */
  uint8_t kind, zeros : 1, joined : 1; /* joined: with the step before it, as both are of one group */
  uint16_t block, chunk, at, old, new, free_before, free_after;
} Step;

static uint8_t *steps;
static size_t room, done, end; /* where what is done ends, and behind it what is undone */
static uint32_t newest;
static int undos, redos;
static bool groups, joins; /* whether a group is open, and whether it has an edit */

static uint32_t length_of(const Step *step) {
  return (uint32_t)(sizeof(Step) + step->old + (step->zeros ? 0u : step->new) + 3) & ~3u;
}

static void turn_slot(const Step *step, bool forward, Heap *heap, const uint8_t *old, const uint8_t *new) {
  Chunk *chunk = chunk_of(heap, step->chunk);
  if (step->kind == SLOT_SET) set_slot(heap, chunk, step->at, forward ? new : old, forward ? step->new : step->old);
  else if (forward) append_slot(heap, chunk, new, step->new);
  else remove_slot(heap, chunk);
  set_word(chunk->bytes + 8, forward ? step->free_after : step->free_before);
}

static void turn_chunk(const Step *step, bool forward, Heap *heap, const uint8_t *old, const uint8_t *new) {
  if (step->kind == MADE || step->kind == FREED) {
    const int entry = (step->chunk - 16) / 2;
    if (forward != (step->kind == MADE)) drop_chunk(heap, entry);
    else make_chunk(heap, entry, forward ? step->new : step->old, forward ? new : old);
    return;
  }
  Chunk *chunk = chunk_of(heap, step->chunk);
  if (forward) splice(heap, chunk, step->at, step->old, step->new, new);
  else splice(heap, chunk, step->at, step->new, step->old, old);
  if (step->kind == INSERTED) set_word(chunk->bytes, word_at(chunk->bytes) + (forward ? 1 : -1));
}

static void turn(const Step *step, bool forward) {
  const uint8_t *old = (const uint8_t *)(step + 1), *new = step->zeros ? NULL : old + step->old;
  require(step->kind != BLOCK);
  if (step->kind == WRITTEN) {
    Frame *frame = load(step->block);
    memcpy(frame->image + 1 + step->at, forward ? new : old, step->new);
    frame->changed = true;
  } else if (step->kind == RUN) {
    splice_branch(step->block, step->chunk, step->at, forward ? step->old : step->new, forward ? step->new : step->old,
                  forward ? new : old);
  } else if (step->kind > RUN) turn_branch(step->block, step->chunk, step->at, forward == (step->kind == BRANCH_IN));
  else if (step->kind >= SLOT_SET) turn_slot(step, forward, heap_of(step->block), old, new);
  else turn_chunk(step, forward, heap_of(step->block), old, new);
}

static void add_step(Step step, const uint8_t *old, const uint8_t *new) {
  const uint32_t length = length_of(&step);
  if (done + length > room) {
    room = 2 * room + length + READ;
    require((steps = realloc(steps, room)));
  }
  step.before = newest;
  step.joined = joins;
  memcpy(steps + done, &step, sizeof step);
  if (step.old) memcpy(steps + done + sizeof step, old, step.old);
  if (step.new && !step.zeros) memcpy(steps + done + sizeof step + step.old, new, step.new);
  newest = length;
  end = done += length;
  undos += !joins;
  redos = 0;
  joins = groups;
}

static void make_step(Step step, const uint8_t *old, const uint8_t *new) {
  add_step(step, old, new);
  turn((const Step *)(steps + done - newest), true);
}

static void undo(void) {
  require(!groups);
  if (!undos) { put("no 22 NothingToUndo\n"); return; }
  const Step *step;
  do {
    step = (const Step *)(steps + done - newest);
    turn(step, false);
    done -= newest;
    newest = step->before;
  } while (step->joined);
  undos--;
  redos++;
  put("ok\n");
}

static void redo(void) {
  require(!groups);
  if (!redos) { put("no 23 NothingToRedo\n"); return; }
  do {
    const Step *step = (const Step *)(steps + done);
    turn(step, true);
    newest = length_of(step);
    done += newest;
  } while (done < end && ((const Step *)(steps + done))->joined);
  undos++;
  redos--;
  put("ok\n");
}

static void set_group(bool opens) {
  require(groups != opens);
  groups = opens;
  joins = false;
  put("ok\n");
}

static void begin(void) { set_group(true); }
static void end_group(void) { set_group(false); }

/* Commands */

static uint8_t given[LINE], other[LINE];

static int make_block(int size, Heap *heap) {
  require(greatest < BLOCKS);
  blocks[++greatest] = (Block){.heap = heap, .size = size, .live = true};
  add_step((Step){.kind = BLOCK, .block = (uint16_t)greatest}, NULL, NULL);
  put_handle("block ", greatest);
  return greatest;
}

static void newheap(void) {
  number();
  Heap *heap = calloc(1, sizeof(Heap));
  require(heap);
  make_block(0, heap);
}

static void newraw(void) {
  number();
  const int size = number();
  require(size <= CAPACITY);
  Frame *frame = frame_for(make_block(size, NULL));
  memset(frame->image, 0, (size_t)size + 1);
  frame->changed = true;
}

static void vwrite(void) {
  const int block = handle(), at = number(), count = bytes(given);
  const Frame *frame = load(block);
  require(at + count <= blocks[block].size);
  make_step((Step){.kind = WRITTEN, .block = (uint16_t)block, .at = (uint16_t)at, .old = (uint16_t)count, .new = (uint16_t)count},
            frame->image + 1 + at, given);
  put("ok\n");
}

static void vread(void) { const int block = handle(); put_bytes(load(block)->image + 1, blocks[block].size); }
static void update(void) { commit(false); put("ok\n"); }
static void save(void) { commit(true); put("ok\n"); }

static void put_listed(int value) { put(" "); put_hex(value, 4); }

static void list(void) {
  put("blocks");
  for (int block = 1; block <= greatest; block++)
    if (blocks[block].live) put_listed(block);
  put("\n");
}

static void info(void) { const Heap *heap = heap_of(handle()); put_count("heap 0 ", need(heap->top, heap->spaces)); }

static void chunks(void) {
  const Heap *heap = heap_of(handle());
  put("chunks");
  for (int entry = 0; entry < heap->top; entry++)
    if (is_live(heap, entry)) put_listed(16 + 2 * entry);
  put("\n");
}

/* A new chunk of so many zeros, or of these bytes. */
static void new_chunk(int block, int size, const uint8_t *from) {
  const Heap *heap = heap_of(block);
  const int entry = free_entry(heap), chunk = 16 + 2 * entry;
  if (size > CAPACITY || !fits(heap, entry, 0, size)) { put("no 8 Full\n"); return; }
  make_step((Step){.kind = MADE, .block = (uint16_t)block, .chunk = (uint16_t)chunk, .new = (uint16_t)size, .zeros = !from}, NULL, from);
  put_handle("chunk ", chunk);
}

static void alloc_chunk(void) { const int block = handle(); new_chunk(block, number(), NULL); }

/* Puts these bytes, or zeros, in place of others, as a step, where the heap has the room. */
static void edit_chunk(int kind, int block, int chunk, int at, int old, int new, const uint8_t *from) {
  const Heap *heap = heap_of(block);
  const Chunk *it = chunk_of(heap, chunk);
  const int size = it->size - old + new;
  require(at + old <= it->size);
  if (size > CAPACITY || !fits(heap, (chunk - 16) / 2, it->size, size)) { put("no 8 Full\n"); return; }
  make_step((Step){.kind = (uint8_t)kind, .zeros = !from, .block = (uint16_t)block, .chunk = (uint16_t)chunk, .at = (uint16_t)at,
                   .old = (uint16_t)old, .new = (uint16_t)new}, it->bytes + at, from);
  put("ok\n");
}

static void free_chunk(void) {
  const int block = handle(), chunk = handle();
  const Chunk *it = chunk_of(heap_of(block), chunk);
  make_step((Step){.kind = FREED, .block = (uint16_t)block, .chunk = (uint16_t)chunk, .old = (uint16_t)it->size}, it->bytes, NULL);
  put("ok\n");
}

static void resize(void) {
  const int block = handle(), chunk = handle(), size = number(), old = chunk_of(heap_of(block), chunk)->size;
  if (size < old) edit_chunk(SPLICED, block, chunk, size, old - size, 0, NULL);
  else edit_chunk(SPLICED, block, chunk, old, 0, size - old, NULL);
}

static void move_bytes(bool inserts) {
  const int block = handle(), chunk = handle(), at = number(), count = number();
  edit_chunk(SPLICED, block, chunk, at, inserts ? 0 : count, inserts ? count : 0, NULL);
}

static void insert(void) { move_bytes(true); }
static void delete(void) { move_bytes(false); }

static void write_chunk(void) {
  const int block = handle(), chunk = handle(), at = number(), count = bytes(given);
  edit_chunk(SPLICED, block, chunk, at, count, count, given);
}

static void read_chunk(void) {
  const int block = handle();
  const Chunk *it = chunk_of(heap_of(block), handle());
  put_bytes(it->bytes, it->size);
}

static void acreate(void) {
  const int block = handle(), size = number();
  uint8_t head[8] = {0};
  require(size > 0 && number() == 0);
  set_word(head + 2, size);
  set_word(head + 6, 8);
  new_chunk(block, 8, head);
}

/* Where an element of a chunk array stands, which have one size here; behind the last one if `i` is their count and it may be. */
static int element_at(const Chunk *chunk, int i, bool behind) {
  require(i < word_at(chunk->bytes) + behind);
  return 8 + i * word_at(chunk->bytes + 2);
}

static void put_element(int kind) {
  const int block = handle(), chunk = handle(), i = number(), count = bytes(given);
  const Chunk *it = chunk_of(heap_of(block), chunk);
  require(count == word_at(it->bytes + 2));
  edit_chunk(kind, block, chunk, element_at(it, i, kind == INSERTED), kind == INSERTED ? 0 : count, count, given);
}

static void ainsert(void) { put_element(INSERTED); }
static void aset(void) { put_element(SPLICED); }

static void aget(void) {
  const int block = handle();
  const Chunk *it = chunk_of(heap_of(block), handle());
  put_bytes(it->bytes + element_at(it, number(), false), word_at(it->bytes + 2));
}

/* An array without an element, whose sizes vary; the size of a part of a name array stands behind the newest free token. */
static void create(int head) {
  const int block = handle(), part = number();
  uint8_t bytes[NAME_HEAD] = {0};
  require(head == NAME_HEAD || part == 0);
  set_word(bytes + 6, head);
  set_word(bytes + 8, NONE);
  set_word(bytes + 10, part);
  new_chunk(block, head, bytes);
}

static void ecreate(void) { create(ELEMENT_HEAD); }
static void ncreate(void) { create(NAME_HEAD); }

typedef struct { int block, handle, head, skipped; Chunk *chunk; } Array;

static Array array(int head) {
  Array it = {.block = handle(), .handle = handle(), .head = head};
  it.chunk = chunk_of(heap_of(it.block), it.handle);
  require(it.chunk->size >= head && word_at(it.chunk->bytes + 6) == head);
  it.skipped = COUNT + (head == NAME_HEAD ? word_at(it.chunk->bytes + 10) : 0);
  return it;
}

static uint8_t *slot_of(Array it, int token) {
  require(token < word_at(it.chunk->bytes));
  return it.chunk->bytes + offset_at(it.chunk->bytes, it.head, token);
}

static int slot_size(Array it, int token) {
  return slot_end(it.chunk, it.head, token) - offset_at(it.chunk->bytes, it.head, token);
}

/* Sets a slot, or adds one behind the others, as a step, where the heap has the room. */
static bool slot_step(Array it, int token, const uint8_t *from, int size, int free_after) {
  const bool adds = token == word_at(it.chunk->bytes);
  const int old = adds ? 0 : slot_size(it, token), new = it.chunk->size - old + size + (adds ? 2 : 0);
  if (!fits(heap_of(it.block), (it.handle - 16) / 2, it.chunk->size, new)) { put("no 8 Full\n"); return false; }
  make_step((Step){.kind = adds ? SLOT_ADDED : SLOT_SET, .block = (uint16_t)it.block, .chunk = (uint16_t)it.handle,
                   .at = (uint16_t)token, .old = (uint16_t)old, .new = (uint16_t)size,
                   .free_before = (uint16_t)word_at(it.chunk->bytes + 8), .free_after = (uint16_t)free_after},
            adds ? NULL : slot_of(it, token), from);
  return true;
}

/* A new element, its count, part and text in `given`, under the newest free token, else the next. */
static void add_slot(Array it, int size) {
  const int free = word_at(it.chunk->bytes + 8), token = free == NONE ? word_at(it.chunk->bytes) : free;
  given[0] = 1;
  given[1] = given[2] = 0;
  if (slot_step(it, token, given, size, free == NONE ? NONE : word_at(slot_of(it, free)))) put_handle("token ", token);
}

/* A used slot with this count of references, none frees it; `part` goes in place of its part where there is one. */
static bool count_slot(Array it, int token, int count, const uint8_t *part) {
  const int size = slot_size(it, token), free = word_at(it.chunk->bytes + 8);
  uint8_t *slot = other;
  if (count == 0) {
    set_word(slot, free);
    slot[2] = 0xff;
    return slot_step(it, token, slot, COUNT, token);
  }
  memcpy(slot, slot_of(it, token), (size_t)size);
  set_word(slot, count);
  slot[2] = (uint8_t)(count >> 16);
  if (part) memcpy(slot + COUNT, part, (size_t)(it.skipped - COUNT));
  return slot_step(it, token, slot, size, free);
}

static uint8_t *used_slot(Array it, int token) {
  uint8_t *slot = slot_of(it, token);
  require(!is_free(slot));
  return slot;
}

static void eadd(void) {
  const Array it = array(ELEMENT_HEAD);
  const int size = bytes(given + COUNT), token = find_slot(it.chunk, it.head, COUNT, given + COUNT, size);
  if (token < 0) add_slot(it, COUNT + size);
  else if (count_slot(it, token, references(slot_of(it, token)) + 1, NULL)) put_handle("token ", token);
}

static void nadd(void) {
  const Array it = array(NAME_HEAD);
  uint8_t *name = given + it.skipped;
  const int size = bytes(name), part = bytes(given + COUNT), token = find_slot(it.chunk, it.head, it.skipped, name, size);
  const bool keeps = *word() == 'k';
  require(part == it.skipped - COUNT && size >= 1 && size <= 256);
  if (token < 0) add_slot(it, it.skipped + size);
  else if (count_slot(it, token, references(slot_of(it, token)) + 1, keeps ? NULL : given + COUNT)) put_handle("token ", token);
}

static void step_count(int head, int by) {
  const Array it = array(head);
  const int token = handle();
  if (count_slot(it, token, by ? references(used_slot(it, token)) + by : 0, NULL)) put("ok\n");
}

static void eref(void) { step_count(ELEMENT_HEAD, 1); }
static void eunref(void) { step_count(ELEMENT_HEAD, -1); }
static void edelete(void) { step_count(ELEMENT_HEAD, 0); }
static void nunref(void) { step_count(NAME_HEAD, -1); }

static void set_text(int head, bool once) {
  const Array it = array(head);
  const int token = handle(), size = bytes(given + it.skipped);
  const int found = once ? find_slot(it.chunk, it.head, it.skipped, given + it.skipped, size) : -1;
  if (found >= 0 && found != token) { put("no 16 NameInUse\n"); return; }
  memcpy(given, used_slot(it, token), (size_t)it.skipped);
  if (slot_step(it, token, given, it.skipped + size, word_at(it.chunk->bytes + 8))) put("ok\n");
}

static void echange(void) { set_text(ELEMENT_HEAD, false); }
static void nname(void) { set_text(NAME_HEAD, true); }

static void eused(void) {
  const Array it = array(ELEMENT_HEAD);
  const int count = word_at(it.chunk->bytes);
  int used = 0;
  for (int token = 0; token < count; token++) used += !is_free(slot_of(it, token));
  put_count("number ", used);
}

static void etoken(void) {
  const Array it = array(ELEMENT_HEAD);
  int token = 0;
  for (int left = number(); left || is_free(slot_of(it, token)); token++) left -= !is_free(slot_of(it, token));
  put_handle("token ", token);
}

static void nfind(void) {
  const Array it = array(NAME_HEAD);
  const int size = bytes(given), token = find_slot(it.chunk, it.head, it.skipped, given, size);
  if (token < 0) put("no 15 NoName\n");
  else put_handle("token ", token);
}

static void put_references(int head) { const Array it = array(head); put_count("number ", references(used_slot(it, handle()))); }
static void ecount(void) { put_references(ELEMENT_HEAD); }
static void ncount(void) { put_references(NAME_HEAD); }

static void put_text(int head) {
  const Array it = array(head);
  const int token = handle();
  put_bytes(used_slot(it, token) + it.skipped, slot_size(it, token) - it.skipped);
}

static void edata(void) { put_text(ELEMENT_HEAD); }
static void ntext(void) { put_text(NAME_HEAD); }

static void ndata(void) {
  const Array it = array(NAME_HEAD);
  put_bytes(used_slot(it, handle()) + COUNT, it.skipped - COUNT);
}

/* An array of bytes without one: its root and an empty branch. */
static void hcreate(void) {
  static const uint8_t root[ROOT + 6] = {0xff, 0xff, ROOT + 2, 0, 1, 0, 'G', 'A', 'R', 'R', 1}, empty[BRANCH] = {[4] = 1, [8] = 8};
  require((number(), number()) == 1);
  const int first = greatest + 1;
  start_block(first, root, sizeof root);
  start_block(first + 1, empty, BRANCH);
  set_word(link_at(changed_body(first), 0) + 2, first + 1);
  add_step((Step){.kind = BLOCK, .block = (uint16_t)first}, NULL, NULL);
  put_handle("block ", first);
}

static int free_block(void) {
  int block = 1;
  while (block <= greatest && blocks[block].live) block++;
  return block;
}

/* Bytes in place of others in branch k, as a step. */
static void step_run(int root, int k, int at, int old, int new, const uint8_t *from) {
  make_step((Step){.kind = RUN, .block = (uint16_t)root, .chunk = (uint16_t)k, .at = (uint16_t)at, .old = (uint16_t)old,
                   .new = (uint16_t)new}, body_of(branch_at(root, k)) + BRANCH + at, from);
}

static void step_branch(int kind, int root, int k, int block) {
  make_step((Step){.kind = (uint8_t)kind, .block = (uint16_t)root, .chunk = (uint16_t)k, .at = (uint16_t)block}, NULL, NULL);
}

/* How many bytes two runs have alike in front. */
static int alike_first(const uint8_t *is, const uint8_t *from, int most) {
  int count = 0;
  while (count + 64 <= most && memcmp(is + count, from + count, 64) == 0) count += 64;
  while (count < most && is[count] == from[count]) count++;
  return count;
}

/* Makes these the bytes of branch k: what is alike before and behind stays. */
static void step_bytes(int root, int k, const uint8_t *from, int new) {
  const int block = branch_at(root, k), old = blocks[block].size - BRANCH, most = old < new ? old : new;
  const uint8_t *is = body_of(block) + BRANCH;
  const int first = alike_first(is, from, most);
  int last = 0;
  while (last + 64 <= most - first && memcmp(is + old - last - 64, from + new - last - 64, 64) == 0) last += 64;
  while (last < most - first && is[old - last - 1] == from[new - last - 1]) last++;
  if (old != new || first < old) step_run(root, k, first, old - first - last, new - first - last, from + first);
}

/* The branches of a window, from `first` to `last`, in place of which pieces come. */
typedef struct { int first, last, count, lengths[WINDOW]; } Window;

/* A branch of these, which has most that stays; the first of these. */
static int with_most(const int *stays, int count) {
  int most = 0;
  for (int k = 1; k < count; k++)
    if (stays[k] > stays[most]) most = k;
  return most;
}

/* Carries a window out, as steps; `bytes` are those of its pieces, and `stays` is how many stay in each old branch. */
static void step_window(int root, const Window *it, const uint8_t *bytes, const int *stays, bool more_before) {
  const int olds = it->last - it->first + 1;
  bool kept[WINDOW] = {false}, is_old[WINDOW] = {false};
  if (it->count == 1) kept[with_most(stays, olds)] = true;
  for (int k = 0; it->count > 1 && k < olds; k++) kept[k] = k < it->count - 1 || k == olds - 1;
  if (it->count > 1 && olds == 1) is_old[more_before ? 0 : it->count - 1] = true;
  else for (int k = 0; k < it->count; k++) is_old[k] = it->count == 1 || k < olds - 1 || k == it->count - 1;
  for (int k = olds; k--;) {
    if (kept[k]) continue;
    step_run(root, it->first + k, 0, blocks[branch_at(root, it->first + k)].size - BRANCH, 0, NULL);
    step_branch(BRANCH_OUT, root, it->first + k, branch_at(root, it->first + k));
  }
  for (int k = 0; k < it->count; k++) {
    if (!is_old[k]) step_branch(BRANCH_IN, root, it->first + k, free_block());
    step_bytes(root, it->first + k, bytes, it->lengths[k]);
    bytes += it->lengths[k];
  }
}

/* Puts bytes in place of those from i up to j, by the rule of docs/FORMAT.md. */
static void replace(int root, int i, int j, const uint8_t *from, int new) {
  static uint8_t gathered[WINDOW * CAPACITY];
  const uint8_t *body = body_of(root);
  const int branches = branches_of(body), some = i < j;
  int p = 0, up_to = i + some;
  for (int count; p < branches - 1 && (count = count_at(body, p)) < up_to; p++) up_to -= count;
  const int before = up_to - some;
  int q = p, behind = before + j - i;
  for (int count; q < branches - 1 && (count = count_at(body, q)) < behind; q++) behind -= count;
  const int tail = count_at(body, q) - behind, left = p ? count_at(body, p - 1) : CAPACITY;
  const int right = q + 1 < branches ? count_at(body, q + 1) : CAPACITY;
  require(long_at(body + 12) >= j && tail >= 0);
  Window it = {.first = p, .last = q};
  for (int more = before + new; more > 0; more -= ROOM) it.lengths[it.count++] = more < ROOM ? more : ROOM;
  if (tail && it.count && it.lengths[it.count - 1] + tail <= (p == q ? ROOM : JOINED)) it.lengths[it.count - 1] += tail;
  else if (tail) it.lengths[it.count++] = tail;
  if (!it.count && left + right <= JOINED) {
    it = (Window){p - 1, q + 1, 1, {left + right}};
  } else if (!it.count && branches == q - p + 1) {
    it.count = 1;
  } else if (it.count) {
    if (it.lengths[0] + left <= JOINED) { it.first--; it.lengths[0] += left; }
    if (it.lengths[it.count - 1] + right <= JOINED) { it.last++; it.lengths[it.count - 1] += right; }
  }
  const bool outer = groups;
  groups = true;
  if (it.first == it.last && it.count == 1) {
    step_run(root, p, before, j - i, new, from);
  } else {
    int stays[WINDOW] = {0}, length = 0;
    require(it.last - it.first + 1 <= WINDOW && it.count <= WINDOW);
    for (int k = it.first; k <= it.last; k++) {
      const uint8_t *bytes = body_of(branch_at(root, k)) + BRANCH;
      const int count = count_at(body_of(root), k), head = k < p ? count : k == p ? before : 0;
      const int last = k > q ? count : k == q ? tail : 0;
      stays[k - it.first] = k < p || k > q ? count : head + last;
      memcpy(gathered + length, bytes, (size_t)head);
      length += head;
      if (k == p && new) { memcpy(gathered + length, from, (size_t)new); length += new; }
      memcpy(gathered + length, bytes + count - last, (size_t)last);
      length += last;
    }
    step_window(root, &it, gathered, stays, before >= tail);
  }
  groups = outer;
  joins = outer;
  put("ok\n");
}

static void hinsert(void) {
  const int root = handle(), i = number(), count = bytes(given);
  replace(root, i, i, given, count);
}

static void hdelete(void) {
  const int root = handle(), i = number(), count = number();
  replace(root, i, i + count, NULL, 0);
}

static void hread(void) {
  const int root = handle();
  int from = number(), left = number(), k = 0;
  require(left <= CAPACITY);
  put(left ? "bytes " : "bytes -");
  for (; left; k++) {
    const uint8_t *body = body_of(root);
    require(k < branches_of(body));
    const int count = count_at(body, k), some = count - from < left ? count - from : left;
    if (some <= 0) { from -= count; continue; }
    const uint8_t *it = body_of(branch_at(root, k)) + BRANCH + from;
    for (int at = 0; at < some; at++) put_hex(it[at], 2);
    left -= some;
    from = 0;
  }
  put("\n");
}

static void hcount(void) { put_count("number ", long_at(body_of(handle()) + 12)); }

static void put_undos(void) { put_count("number ", undos); }
static void put_redos(void) { put_count("number ", redos); }

static const struct { const char *name; void (*run)(void); } commands[] = {
  {"undo", undo}, {"redo", redo}, {"undos", put_undos}, {"redos", put_redos}, {"list", list}, {"info", info}, {"chunks", chunks},
  {"newheap", newheap}, {"newraw", newraw}, {"vwrite", vwrite}, {"vread", vread}, {"update", update}, {"save", save},
  {"alloc", alloc_chunk}, {"free", free_chunk}, {"resize", resize}, {"insert", insert}, {"delete", delete}, {"write", write_chunk},
  {"read", read_chunk}, {"acreate", acreate}, {"ainsert", ainsert}, {"aset", aset}, {"aget", aget}, {"ecreate", ecreate},
  {"eadd", eadd}, {"eref", eref}, {"eunref", eunref}, {"edelete", edelete}, {"echange", echange}, {"eused", eused},
  {"etoken", etoken}, {"ecount", ecount}, {"edata", edata}, {"ncreate", ncreate}, {"nadd", nadd}, {"nunref", nunref},
  {"nname", nname}, {"nfind", nfind}, {"ncount", ncount}, {"ntext", ntext}, {"ndata", ndata},
  {"begin", begin}, {"end", end_group}, {"hcreate", hcreate}, {"hinsert", hinsert}, {"hdelete", hdelete}, {"hread", hread},
  {"hcount", hcount}
};

static void answer(const char *line) {
  rest = line;
  const char *name = word();
  while (*rest > ' ') rest++;
  const size_t length = (size_t)(rest - name);
  if (length == 0) return;
  for (size_t i = 0; i < sizeof commands / sizeof *commands; i++) {
    const char *known = commands[i].name;
    if (*known != *name || strncmp(known, name, length) != 0 || known[length]) continue;
    commands[i].run();
    if (replied > REPLIES / 4) send();
    return;
  }
  require(false);
}

static void answer_all(void) {
  static char input[LINE + READ + 1];
  size_t kept = 0;
  for (ssize_t more; (more = read(0, input + kept, READ)) > 0;) {
    char *line = input, *end = input + kept + more;
    for (char *feed; (feed = memchr(line, '\n', (size_t)(end - line))); line = feed + 1) {
      *feed = 0;
      answer(line);
    }
    kept = (size_t)(end - line);
    require(kept <= LINE);
    memmove(input, line, kept);
    send();
  }
  require(kept == 0);
}

int main(int count, char **words) {
  const bool new = count == 3 && strcmp(words[1], "--new") == 0;
  require(new || count == 2);
  require((file = open(words[count - 1], new ? O_RDWR | O_CREAT | O_TRUNC : O_RDWR, 0666)) >= 0);
  if (new) commit(true);
  else open_documents();
  answer_all();
  return 0;
}
