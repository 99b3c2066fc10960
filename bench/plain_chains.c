/*
** The row `chains` by a plain program, without proofs, undo or checks of damage: a tree of 1,000 blocks in a file is walked, copied,
** compared with its copy, and the copy freed, 100 times, with 8 frames that keep the blocks that were used last.
**
**     cc -O2 -o plain_chains bench/plain_chains.c && time ./plain_chains FILE > walked
**
** What it takes is a floor for that row: it reads and writes the same blocks, and does nothing else.
*/
#include <fcntl.h>
#include <stdbool.h>
#include <stdint.h>
#include <stdio.h>
#include <stdlib.h>
#include <string.h>
#include <unistd.h>

enum { BLOCKS = 1000, HANDLES = 2 * BLOCKS + 1, PAGE = 512, FRAMES = 8, LINKS = 4, DATA = 20 };

/* A block: its number of links in two bytes behind ffff, the links of two bytes each, and its data. */
typedef struct { int block; unsigned used; uint8_t bytes[PAGE]; } Frame;

static Frame frames[FRAMES];
static unsigned uses;
static int file, page_of[HANDLES], length_of[HANDLES];

static void require(bool holds) {
  if (!holds) abort();
}

static const Frame *load(int block) {
  Frame *oldest = frames;
  for (Frame *it = frames; it < frames + FRAMES; it++) {
    if (it->block == block) { it->used = ++uses; return it; }
    if (it->used < oldest->used) oldest = it;
  }
  require(pread(file, oldest->bytes, (size_t)length_of[block], (off_t)page_of[block] * PAGE) == length_of[block]);
  oldest->block = block;
  oldest->used = ++uses;
  return oldest;
}

static void store(int block, int page, const uint8_t *bytes, int length) {
  page_of[block] = page;
  length_of[block] = length;
  require(pwrite(file, bytes, (size_t)length, (off_t)page * PAGE) == length);
}

static int link_of(const uint8_t *bytes, int i) { return bytes[LINKS + 2 * i] | bytes[LINKS + 2 * i + 1] << 8; }

static void set_link(uint8_t *bytes, int i, int block) {
  bytes[LINKS + 2 * i] = (uint8_t)block;
  bytes[LINKS + 2 * i + 1] = (uint8_t)(block >> 8);
}

static void make_tree(void) {
  for (int i = 0; i < BLOCKS; i++) {
    uint8_t bytes[PAGE] = {0xff, 0xff};
    for (int child = 2 * i + 1; child <= 2 * i + 2 && child < BLOCKS; child++) set_link(bytes, bytes[2]++, child + 1);
    for (int k = 0; k < DATA; k++) bytes[LINKS + 2 * bytes[2] + k] = (uint8_t)(7 * i + k);
    store(i + 1, 2 + i, bytes, LINKS + 2 * bytes[2] + DATA);
  }
}

/* Puts the blocks of a tree in order, each before those that it links to. */
static void walk(int root, int order[BLOCKS]) {
  bool seen[HANDLES] = {false};
  int stack[HANDLES], top = 0, count = 0;
  stack[top++] = root;
  while (top > 0) {
    int block = stack[--top];
    require(!seen[block]);
    seen[block] = true;
    order[count++] = block;
    const Frame *frame = load(block);
    for (int i = frame->bytes[2]; i-- > 0;) stack[top++] = link_of(frame->bytes, i);
  }
}

static void copy(int root) {
  int order[BLOCKS], copy_of[HANDLES];
  walk(root, order);
  for (int i = 0; i < BLOCKS; i++) copy_of[order[i]] = BLOCKS + 1 + i;
  for (int i = 0; i < BLOCKS; i++) {
    uint8_t bytes[PAGE];
    memcpy(bytes, load(order[i])->bytes, PAGE);
    for (int k = 0; k < bytes[2]; k++) set_link(bytes, k, copy_of[link_of(bytes, k)]);
    store(BLOCKS + 1 + i, 2 + BLOCKS + i, bytes, length_of[order[i]]);
  }
  for (Frame *it = frames; it < frames + FRAMES; it++)
    if (it->block > BLOCKS) *it = (Frame){.block = -1};
}

static void compare(int first, int second) {
  int firsts[BLOCKS], seconds[BLOCKS], top = 0;
  firsts[top] = first;
  seconds[top++] = second;
  while (top > 0) {
    top--;
    const Frame *one = load(firsts[top]), *other = load(seconds[top]);
    const int links = one->bytes[2], data = LINKS + 2 * links;
    require(links == other->bytes[2] && memcmp(one->bytes + data, other->bytes + data, DATA) == 0);
    for (int i = links; i-- > 0;) {
      firsts[top] = link_of(one->bytes, i);
      seconds[top++] = link_of(other->bytes, i);
    }
  }
}

int main(int count, char **words) {
  require(count == 2 && (file = open(words[1], O_RDWR | O_CREAT | O_TRUNC, 0666)) >= 0);
  for (Frame *it = frames; it < frames + FRAMES; it++) it->block = -1;
  make_tree();
  for (int round = 0; round < 100; round++) {
    int order[BLOCKS];
    walk(1, order);
    for (int i = 0; i < BLOCKS; i++) printf(" %04x", (unsigned)order[i]);
    printf("\n");
    copy(1);
    compare(1, BLOCKS + 1);
    walk(BLOCKS + 1, order); /* what a free goes over; its undo has it all */
    compare(BLOCKS + 1, 1);
  }
  return 0;
}
