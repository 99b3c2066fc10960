/*
** geosvm.h: documents of blocks and heaps in a file, with exact undo, for C, C++ and whatever calls C.
**
** A session stands in a struct of the caller's own memory, which the caller sets to GEOSVM_CLOSED before the first call:
**
**     geosvm_session s = GEOSVM_CLOSED;
**     uint16_t block;
**     int32_t code = geosvm_open_path(&s, "my.document", GEOSVM_PATH_CREATE);
**     if( code==GEOSVM_OK ) code = geosvm_newheap(&s, 7, &block);
**     if( code==GEOSVM_OK ) code = geosvm_save(&s);
**     if( code!=GEOSVM_OK ) fprintf(stderr, "my.document: %s\n", geosvm_code_text(code));
**     geosvm_close(&s);
**
** There is no call to begin with, no thread, and no state outside of sessions that outlasts a call, but for the number that
** geosvm_last_error has. What a document is, and what each command does, docs/SCRIPT.md says; the calls below have the names of its
** commands.
**
** WHAT THE CALLER OWES, which nothing checks:
**
**   - A geosvm_session is GEOSVM_CLOSED, or as the last call left it. Its fields are never written, and it is never copied and then
**     used under both addresses. To move it, and to forget it in the old place, is fine.
**   - One call at a time on one session: from several threads they come one behind the other, as under a mutex. Different sessions
**     may be in different threads at once, also sessions that read one file.
**   - Each pointer leads to as many elements as its size says, is not NULL even at size 0, and what a call writes overlaps nothing
**     else that the same call is passed.
**   - Bytes that geosvm_locked_chunk, geosvm_locked_raw and geosvm_lock_run have lent are never written, and are read as long as they are
**     lent ("Locks"), and not while a call on their session runs.
**   - Of a file that it opens itself, and passes by its descriptor: that is open to be read and written, or to be read alone
**     ("Reading"), and stays so until geosvm_close; it stays the caller's, since no call closes it. Its position moves.
**   - No two open sessions have the same file unless both read it alone, and none is saved into one that another has. Nobody else
**     writes it meanwhile. geosvm_open_path sees to that; who passes a descriptor takes flock(fd, LOCK_EX | LOCK_NB) before anything
**     else is done with it. So it is opened without O_TRUNC, which cuts the document of whoever has the lock; geosvm_create and
**     geosvm_save_as make a new document of whatever is there. After a file was made, sync the folder that it lies in, or a crash may
**     lose its name.
**   - Where the program defines the functions geosvm_io_* itself, they do what stands at them, below.
**   - malloc, realloc and free are one allocator, and malloc aligns a block to each power of two up to 16 that divides its size.
**   - No call comes from a signal handler, nor from the forked child of a process with threads.
**
** These are no such cases, and do no harm: a call on a closed session, opening an open one, closing one twice, a handle that names
** no block, a number that is no descriptor, a file that is no document, a descriptor that appends, a save-as into the session's own file,
** a path on which nothing lies or something else than a file.
**
** WHICH CALLS MAY USE THE FILE: geosvm_open and its like, commits and save-as; every edit, undo, redo and abandon, and every look-up into
** a block, since a block that isn't among the `frames` in memory is read, and one that makes room for it is written if it was changed;
** and edits that make blocks, geosvm_newraw, newheap, vcopy, chcopy, hcreate and copy_block, and those hinsert, hset
** and hdelete, undos and redos by which blocks come, in any case.
** Never: geosvm_close, but that it closes a file of the library's own; begin, end, join, name, forget and limit_undo; unlock, dirty, locks,
** locked_chunk and locked_raw; uid, settype, map, gettype, mapblock, list and find; undos, redos, modified, undo_name, redo_name, and what
** tells places; and what is refused for its arguments or its session. On a disk that is slow or gone these answer at once.
*/
#ifndef GEOSVM_H
#define GEOSVM_H
#include <stdbool.h>
#include <stddef.h>
#include <stdint.h>
#ifdef __cplusplus
extern "C" {
#endif

/*
** CAPI: The version
**
** The version of this header, in numbers and as text, and by geosvm_version that of the library which is linked, as text with a zero
** behind it that stays: a shared library may be of another version than the header that a program was compiled with. No session is needed.
** Before 1.0 a program is compiled anew for each 0.N, since a session may have another size there; libgeosvm.so has both numbers in its
** name, so that none is loaded by a program of another one.
*/
#define GEOSVM_VERSION_MAJOR 0
#define GEOSVM_VERSION_MINOR 2
#define GEOSVM_VERSION_PATCH 0
#define GEOSVM_PRIVATE_TEXT(major, minor, patch) #major "." #minor "." #patch
#define GEOSVM_PRIVATE_TEXT_OF(major, minor, patch) GEOSVM_PRIVATE_TEXT(major, minor, patch)
#define GEOSVM_VERSION GEOSVM_PRIVATE_TEXT_OF(GEOSVM_VERSION_MAJOR, GEOSVM_VERSION_MINOR, GEOSVM_VERSION_PATCH)
const char *geosvm_version(void);

/*
** CAPI: A session
**
** The caller makes one by GEOSVM_CLOSED, and passes its address: `geosvm_session s = GEOSVM_CLOSED;`, also where `s` is static, and
** later `s = GEOSVM_CLOSED;`, of one that isn't open. One of zeros is closed too. Its fields are private.
*/
typedef struct geosvm_session {
  void *private_at;
  bool private_is_open;
  intptr_t private_file; /* the descriptor of a file of the library's own, 0 where there is none */
} geosvm_session;
#if defined(__cplusplus)
#define GEOSVM_CLOSED (geosvm_session())
#elif defined(__GNUC__) && !defined(__clang__) && __GNUC__ >= 8
/* gcc takes it for a constant, and no compound literal, in the initializer of a static session. */
static const geosvm_session geosvm_private_closed __attribute__((unused)) = { NULL, false, 0 };
#define GEOSVM_CLOSED (__extension__ geosvm_private_closed)
#else
#define GEOSVM_CLOSED ((geosvm_session){ NULL, false, 0 })
#endif

/*
** CAPI: Codes
**
** Each call answers GEOSVM_OK, the number of a fault of the document, 1 to 29, or a code of its own, from 100 on. Where it answers
** a fault, the document and all that can be undone are as before; where it answers a code from 100 on but CUT_OFF and UNTOLD, it
** did nothing. geosvm_fault_name has the names of faults; docs/SCRIPT.md says when each comes.
**
** After GEOSVM_FILE of a commit (update, save, revert) that commit may be what the file opens to after a crash; of a save-as, what a revert
** would have given.
*/
#define GEOSVM_OK               0
#define GEOSVM_MEMORY           1   /* no memory */
#define GEOSVM_FILE             2   /* a call on the file has failed */
#define GEOSVM_DAMAGED          3   /* the file is a damaged document */
#define GEOSVM_NOT_DOCUMENT     4   /* the file is no document */
#define GEOSVM_NO_BLOCK         5
#define GEOSVM_NO_CHUNK         6
#define GEOSVM_WRONG_KIND       7   /* a heap where a raw block is wanted, or the reverse */
#define GEOSVM_FULL             8   /* the heap would need more than 65,520 bytes */
#define GEOSVM_TOO_BIG          9   /* over 65,520 bytes in a raw block, 64 in a step's name, or 65,508 in an element */
#define GEOSVM_NO_HANDLES      10
#define GEOSVM_RANGE           11   /* a place, length or size is outside its bounds */
#define GEOSVM_NOT_ARRAY       12
#define GEOSVM_NO_ELEMENT      13
#define GEOSVM_COUNT_FULL      14
#define GEOSVM_NO_NAME         15
#define GEOSVM_NAME_IN_USE     16
#define GEOSVM_BAD_CHAIN       17
#define GEOSVM_IS_MAP          18   /* the map block would be freed */
#define GEOSVM_LOCKED          19   /* a block is locked */
#define GEOSVM_NOT_LOCKED      20
#define GEOSVM_CACHE_FULL      21   /* every frame has a locked block */
#define GEOSVM_NOTHING_TO_UNDO 22
#define GEOSVM_NOTHING_TO_REDO 23
#define GEOSVM_NO_TARGET       24   /* a saveas as a command, which has no target: call geosvm_save_as */
#define GEOSVM_BAD_COMMAND     25
#define GEOSVM_LOCK_LIMIT      26   /* the block is locked 255 times */
#define GEOSVM_WORN            27   /* the file's sequence number is at its last value */
#define GEOSVM_GROUP_OPEN      28
#define GEOSVM_NO_GROUP        29
#define GEOSVM_NOT_OPEN       100   /* the session is closed */
#define GEOSVM_OPEN_ALREADY   101   /* the session is open */
#define GEOSVM_BAD_ARGUMENT   102   /* a number is out of its bounds, or the session's own */
#define GEOSVM_CUT_OFF        103   /* the buffer took a part; all was done */
#define GEOSVM_UNTOLD         104   /* no memory for a reply; the command may be done */

/*
** CAPI: What a code means
**
** geosvm_code_name has the name of a code, as "NothingToUndo", for a log or a program: of the numbers of faults as replies have it, of
** 0 "Ok", of those from 100 on "NotOpen" to "Untold", and of any other number "Unknown". geosvm_code_text has a sentence, without a point
** at its end, for people: "the heap would need more than 65,520 bytes". Both are texts with a zero behind them, that stay, and never NULL.
**
** geosvm_last_error tells why a call answered GEOSVM_FILE, or a reply was `no 2 File`: it has the errno of the call on a file that failed
** last in this thread, for strerror; 0 where none has yet. It changes only when one fails, so ask behind GEOSVM_FILE and nowhere else:
**
**   - a function geosvm_io_* tells that it failed: what that left in errno, or EIO where it left 0, or told what can't be. The
**     library's own leave EINVAL for a descriptor that appends, EBUSY for another number of the session's own file, EROFS for a write
**     to a descriptor that is open to be read alone.
**   - a read comes to the end of the file before all that has to be there: ENODATA.
**   - geosvm_open_path or geosvm_save_as_path fails by a call of the system.
**
** Once a file couldn't be synced its session refuses commits without a call on it, and the number stays.
**
** geosvm_fault_name puts the name of the fault with this number, 1 to 29, into the buffer, with no zero behind it. *length becomes how
** many bytes it has, at most 13; as many as fit are put there. GEOSVM_BAD_ARGUMENT where no fault has the number.
*/
const char *geosvm_code_name(int32_t code);
const char *geosvm_code_text(int32_t code);
int geosvm_last_error(void);
int32_t geosvm_fault_name(int32_t code, uint8_t *name, size_t room, size_t *length);

/*
** CAPI: Open by a path
**
** geosvm_open_path opens the document of a file by its path, with 64 frames, and nothing to undo. The file is the session's: geosvm_close
** closes it. `flags` is one of these; beside any of them but READ, CHECKSUMS may be set too ("Checksums"). Anything else is
** GEOSVM_BAD_ARGUMENT, as a path that is NULL is, or isn't for MEMORY:
**
**   - EXISTING: a file that is there, to be read and written.
**   - CREATE: that, or an empty document where no file is. A file of 0 bytes is made one too: it has nothing to lose, and is what a stop
**     of the machine between making a file and making its document leaves.
**   - NEW: an empty document in a new file; refused where anything is there, a link that leads nowhere too (EEXIST).
**   - EMPTY: an empty document, whatever is there. What was in the file is lost, also where this call is refused behind the lock;
**     geosvm_save_as_path keeps the old file until the new one is whole.
**   - READ: a file that is there, to be read alone ("Reading").
**   - MEMORY: an empty document in a file of the system's memory, which has no name and is gone with the session. `path` is NULL.
**     geosvm_save_as_path gives it a file.
**
** Before anything is cut or written the file is locked, by flock and without waiting: a file that another session has open, in this
** program or another one, is refused (EWOULDBLOCK), unless both read. A folder is EISDIR, and what else is no regular file ENOTSUP. The
** folder of a new file is synced. Where a file was made and its document can't be, the file is taken away again. The descriptor is never
** 0, 1 or 2, and no child program inherits it.
**
** GEOSVM_FILE, with the cause in geosvm_last_error; GEOSVM_NOT_DOCUMENT, DAMAGED, MEMORY, OPEN_ALREADY, BAD_ARGUMENT. Where it answers
** anything but GEOSVM_OK the session is as it was. It is for programs that have no functions geosvm_io_* of their own: in any other
** it is GEOSVM_FILE (ENOTSUP), and opens nothing.
**
** CAPI: Reading
**
** A session by READ, or on a descriptor that is open to be read alone, writes nothing to its file. Its lock is a shared one, by flock with
** LOCK_SH where the program takes it, so any number of them have a file open side by side, in this program and in others, and what they read doesn't change: one that writes is refused
** while any reads, and the reverse. Edits, undo and redo go as ever as long as nothing has to be written. Where it has to be, that is
** GEOSVM_FILE, before anything is changed in the file (EROFS): of commits, of edits that make blocks, and where a block that was edited has
** to make room for another one; of geosvm_save_as and geosvm_save_as_path too, since the file that is left is written by them. What was
** edited so goes into another document by geosvm_copy_block.
**
** CAPI: Checksums
**
** By its checksums a file tells that bytes of it were changed elsewhere, as on a bad disk: an open is refused then, mostly as
** GEOSVM_DAMAGED, or gives the commit before, where it would be another document without them (docs/FORMAT.md). They are asked for by GEOSVM_PATH_CHECKSUMS, set beside one of the other flags, or by
** geosvm_create_checksums and geosvm_open_checksums: an empty document that is made has them, and a file that is there and has none gets
** them with its next commit, behind which the commit before, which has none, is no longer found. A file that has them keeps them unless it is
** made anew, and so has what it is saved into by geosvm_save_as or geosvm_save_as_path. Such a file is of version 3, which a program that knows versions 1 and 2 alone doesn't open.
*/
#define GEOSVM_PATH_EXISTING  0u
#define GEOSVM_PATH_CREATE    1u
#define GEOSVM_PATH_NEW       2u
#define GEOSVM_PATH_EMPTY     4u
#define GEOSVM_PATH_READ      8u
#define GEOSVM_PATH_MEMORY   16u
#define GEOSVM_PATH_CHECKSUMS 32u
int32_t geosvm_open_path(geosvm_session *s, const char *path, uint32_t flags);

/*
** CAPI: Open and close
**
** geosvm_open opens the document of a file, which is its updated one, with nothing to undo. geosvm_create makes an empty document of
** a file, whatever was in it. `number` is the file's descriptor, or what the program itself calls it ("Files of the program's own"). A
** descriptor that appends is GEOSVM_FILE, and so is a number that the program refuses, before anything is written. At most `frames`
** blocks are in memory at a time, 1 to 64. Where they answer anything but GEOSVM_OK the session is as it was; GEOSVM_MEMORY, FILE,
** DAMAGED, NOT_DOCUMENT, OPEN_ALREADY, BAD_ARGUMENT.
**
** geosvm_open_checksums and geosvm_create_checksums do the same, with checksums ("Checksums").
**
** geosvm_close writes nothing: what was edited since the last commit is given up. A file that was opened by geosvm_open_path, or made by
** geosvm_save_as_path, is closed, which gives its lock back.
*/
int32_t geosvm_open(geosvm_session *s, int32_t number, size_t frames);
int32_t geosvm_create(geosvm_session *s, int32_t number, size_t frames);
int32_t geosvm_open_checksums(geosvm_session *s, int32_t number, size_t frames);
int32_t geosvm_create_checksums(geosvm_session *s, int32_t number, size_t frames);
int32_t geosvm_close(geosvm_session *s);

/*
** CAPI: Any command, as text
**
** Carries out one command of docs/SCRIPT.md, without a line feed, and puts its reply line into the buffer, with a line feed and no
** zero behind it. *length becomes how many bytes that line has; none for a blank line or a note. The code is GEOSVM_OK also where
** the reply is a refusal, which begins with "no ". GEOSVM_CUT_OFF where the line doesn't fit: the command was carried out all the
** same, and as much of the line as fits is there. No line has more than GEOSVM_REPLY_MOST bytes, but for one that tells the places of
** many edits, for which geosvm_touched and its like have a window. GEOSVM_UNTOLD where there was no memory for the command or for the
** text of its reply: it may have been carried out, so who keeps a copy of the document has to look at all of it.
*/
#define GEOSVM_REPLY_MOST 131072
int32_t geosvm_command(geosvm_session *s, const uint8_t *line, size_t size, uint8_t *reply, size_t room, size_t *length);

/*
** CAPI: Undo and redo
**
** geosvm_undo takes back the newest step, an edit or a group of edits, and geosvm_redo makes it again.
**
** geosvm_join makes the newest two steps to be undone one, as letters that are typed are a word; GEOSVM_NOTHING_TO_UNDO
** where there are fewer than two, GEOSVM_GROUP_OPEN, or GEOSVM_MEMORY. geosvm_forget keeps the newest `most` of them,
** and gives the memory of the others back, but for the changes of which geosvm_touched still tells: after 0 those of the
** newest step, as those of an abandoned group, until the next edit, undo, redo, abandon or revert. geosvm_limit_undo has that done
** behind each step that comes, from 1 on; with 0 all are kept, as in a session that has just begun. What can be redone
** stays in each case. The last two are never refused, and none of the three calls a function on files.
**
** geosvm_name gives the newest step to be undone a name, in place of the one that it has, for a menu's "Undo Typing": at
** most 64 bytes, which mean nothing here; with none it has no name. The name goes with its step: an undo takes it along,
** a redo brings it back, and of two steps that are joined the newer one's stays, or the older one's where that has none.
** A new step has none, and names aren't in the file. Nothing else changes, and no function on files is called.
** GEOSVM_GROUP_OPEN, NOTHING_TO_UNDO, TOO_BIG, the first of them; or GEOSVM_MEMORY, but not with no bytes.
** geosvm_undo_name and geosvm_redo_name, under "Steps", have the name.
*/
int32_t geosvm_undo(geosvm_session *s);
int32_t geosvm_redo(geosvm_session *s);
int32_t geosvm_join(geosvm_session *s);
int32_t geosvm_name(geosvm_session *s, const uint8_t *name, size_t size);
int32_t geosvm_forget(geosvm_session *s, uint32_t most);
int32_t geosvm_limit_undo(geosvm_session *s, uint32_t most);

/*
** CAPI: Groups
**
** The edits from geosvm_begin to geosvm_end are one step of undo; geosvm_abandon takes them back instead.
*/
int32_t geosvm_begin(geosvm_session *s);
int32_t geosvm_end(geosvm_session *s);
int32_t geosvm_abandon(geosvm_session *s);

/*
** CAPI: Commits
**
** geosvm_update makes the document what the file opens to, geosvm_save makes it that and what a revert gives, and geosvm_revert goes
** back to the saved one, with nothing to undo. Once they answer GEOSVM_OK a crash doesn't lose it.
**
** geosvm_save_as saves into another file, whatever was in it, and goes on in that, with all that can be undone; the file that is left
** goes back to its saved document. The number is as for geosvm_open. Where it is refused the session stays in its file, and the other one
** may have any bytes. Either way one of the two files is the caller's alone again, as after geosvm_close. The number that the session
** has itself is GEOSVM_BAD_ARGUMENT, and another number of the same file GEOSVM_FILE; both are refused before anything is written. Where
** it goes well a file that was the library's own is closed; the new one is the caller's.
**
** geosvm_save_as_path does so by a path, and the new file is the session's. It is written beside what is there, under its name with a
** point and six letters behind it, and takes its place once all of it is on the disk, with its mode and owner; the folder is
** synced. So where it is refused the old file stays as it was. `flags` is 0 or GEOSVM_PATH_NEW, which refuses a path where anything is
** (EEXIST). Refused is also a file that another session has open, the session's own too (EWOULDBLOCK), one that can't be written or
** whose owner can't be given to another one, and one with several names (EMLINK). A stop of the machine may leave the file beside, and an empty one where none was.
** GEOSVM_FILE, NOT_OPEN, BAD_ARGUMENT, or what geosvm_save_as answers. Of GEOSVM_FILE there is a case in which the session has gone on
** all the same: all is written, but the new file can't take its place, and keeps its longer name, or the folder can't be synced. Then the
** document is as it was saved (geosvm_modified).
*/
int32_t geosvm_update(geosvm_session *s);
int32_t geosvm_save(geosvm_session *s);
int32_t geosvm_revert(geosvm_session *s);
int32_t geosvm_save_as(geosvm_session *s, int32_t number);
int32_t geosvm_save_as_path(geosvm_session *s, const char *path, uint32_t flags);

/*
** CAPI: Locks
**
** A locked block stays in memory until it was unlocked as often as it was locked, 255 times at most. geosvm_dirty has it written by the
** next commit, as if it had been edited. *count becomes how often a block is locked; where that is refused, 0.
**
** geosvm_locked_chunk and geosvm_locked_raw lend the bytes of a locked block where they lie: *bytes becomes the address of the first of
** them, and *length how many there are, at most 65,520. Of none it is the address of no byte, but not NULL. The bytes of a raw block begin
** at a multiple of 16, as malloc aligns them; those of a chunk are aligned to 2 and to no more, so that wider numbers that lie there are
** copied out first, as by memcpy. GEOSVM_NO_BLOCK, WRONG_KIND, NOT_LOCKED, NO_CHUNK, the first of them; where it is refused *bytes is NULL
** and *length is 0. They take no memory, and call none of the functions on files.
**
** The bytes are lent until one of these calls, which may move them or give their memory back; after the first they can be asked for anew:
**
**   - an edit of that block or of what is in it,
**   - the geosvm_unlock of its last lock,
**   - geosvm_close.
**
** A command by geosvm_command that does the same ends it likewise. All other calls leave the bytes as they are, and where they are:
** look-ups, edits of other blocks, other locks, geosvm_dirty, begin, end, join, forget and name, and what is refused, as undo, redo,
** abandon and commits are while any block is locked.
**
** geosvm_lock_run is for a large array whose elements have one size. It locks the block that has element `i`, once more, and lends its
** elements from there to the last one in that block, one behind the other: *block becomes the block, *bytes the address of element `i`, and
** *length how many bytes they are, never 0; divided by the size of an element that is how many elements. They begin at no particular
** alignment. geosvm_unlock of *block gives them back, and until then they are lent as those of geosvm_locked_raw are. The element behind
** them is the first of another block.
** GEOSVM_NO_BLOCK, WRONG_KIND, CACHE_FULL where each frame has a locked block, NOT_ARRAY, NO_ELEMENT, BAD_CHAIN, RANGE where elements vary
** in size, the first of them, then LOCK_LIMIT; MEMORY, FILE or DAMAGED as of a look-up. Where it is refused nothing is locked, *block is 0,
** *bytes is NULL and *length is 0.
*/
int32_t geosvm_lock(geosvm_session *s, uint16_t block);
int32_t geosvm_unlock(geosvm_session *s, uint16_t block);
int32_t geosvm_dirty(geosvm_session *s, uint16_t block);
int32_t geosvm_locks(geosvm_session *s, uint16_t block, uint8_t *count);
int32_t geosvm_locked_chunk(geosvm_session *s, uint16_t block, uint16_t chunk, const uint8_t **bytes, size_t *length);
int32_t geosvm_locked_raw(geosvm_session *s, uint16_t block, const uint8_t **bytes, size_t *length);
int32_t geosvm_lock_run(geosvm_session *s, uint16_t root, uint32_t i, uint16_t *block, const uint8_t **bytes, size_t *length);

/*
** CAPI: Edits
**
** An edit that is accepted is a step for geosvm_undo, or a part of the open group; one that is refused changes nothing.
** What docs/SCRIPT.md says of the command with its name is so of the call. *block, *copy, *chunk, *token or *root
** becomes what was made, 0 where the call answers anything but GEOSVM_OK. Bytes are copied, so they may be freed or
** written after the call. Numbers may be as large as their types allow.
**
** At each call stand its refusals; the first that applies is answered. Any edit may be GEOSVM_MEMORY; GEOSVM_FILE where
** a block has to be brought into memory, or another one out of it, and the file failed, and of edits by which blocks
** come: geosvm_newraw, newheap, vcopy, chcopy, hcreate, and at times hinsert, hset and hdelete, since these write what
** they make to the file at once; and GEOSVM_DAMAGED where what was read of it is no block, or has another checksum.
** What is refused while blocks are locked stands in docs/SCRIPT.md under Locks.
*/

/*
** CAPI: Edits of blocks
**
** geosvm_newraw makes a raw block of `size` zeros, geosvm_newheap a block with an empty heap, geosvm_vcopy a block like another one.
** geosvm_vwrite writes over the bytes of a raw block from `at` on, geosvm_vsplice puts these in the place of `count` from there on, and
** geosvm_attach in the place of all. geosvm_map makes a block the map block; 0 leaves none.
*/
int32_t geosvm_newraw(geosvm_session *s, uint16_t user_id, uint32_t size, uint16_t *block); /* TOO_BIG, NO_HANDLES */
int32_t geosvm_newheap(geosvm_session *s, uint16_t user_id, uint16_t *block);               /* NO_HANDLES */
int32_t geosvm_vfree(geosvm_session *s, uint16_t block);                                    /* NO_BLOCK, IS_MAP */
int32_t geosvm_vcopy(geosvm_session *s, uint16_t block, uint16_t *copy);                    /* NO_BLOCK, NO_HANDLES */
int32_t geosvm_vwrite(geosvm_session *s, uint16_t block, uint32_t at, const uint8_t *bytes,
                      size_t size);                                                         /* NO_BLOCK, WRONG_KIND, RANGE */
int32_t geosvm_vsplice(geosvm_session *s, uint16_t block, uint32_t at, uint32_t count, const uint8_t *bytes,
                       size_t size);                                              /* NO_BLOCK, WRONG_KIND, RANGE, TOO_BIG */
int32_t geosvm_attach(geosvm_session *s, uint16_t block, const uint8_t *bytes, size_t size); /* NO_BLOCK, WRONG_KIND, TOO_BIG */
int32_t geosvm_uid(geosvm_session *s, uint16_t block, uint16_t user_id);                    /* NO_BLOCK */
int32_t geosvm_settype(geosvm_session *s, uint16_t block, uint16_t heap_type);              /* NO_BLOCK, WRONG_KIND */
int32_t geosvm_map(geosvm_session *s, uint16_t block);                                      /* NO_BLOCK */

/*
** CAPI: Edits of chunks
**
** geosvm_alloc makes a chunk of `size` zeros. geosvm_resize cuts it at its end, or adds zeros there; geosvm_insert puts `size` zeros in
** before the byte at `at`, geosvm_delete takes `size` bytes out from there on, geosvm_write writes over those from there on, and
** geosvm_splice puts these in the place of `count` from there on. Each is NO_BLOCK, WRONG_KIND, NO_CHUNK, and then what stands there;
** geosvm_alloc names no chunk.
*/
int32_t geosvm_alloc(geosvm_session *s, uint16_t block, uint32_t size, uint16_t *chunk);            /* FULL */
int32_t geosvm_free(geosvm_session *s, uint16_t block, uint16_t chunk);
int32_t geosvm_resize(geosvm_session *s, uint16_t block, uint16_t chunk, uint32_t size);            /* FULL */
int32_t geosvm_insert(geosvm_session *s, uint16_t block, uint16_t chunk, uint32_t at, uint32_t size); /* RANGE, FULL */
int32_t geosvm_delete(geosvm_session *s, uint16_t block, uint16_t chunk, uint32_t at, uint32_t size); /* RANGE */
int32_t geosvm_write(geosvm_session *s, uint16_t block, uint16_t chunk, uint32_t at, const uint8_t *bytes,
                     size_t size);                                                                  /* RANGE */
int32_t geosvm_splice(geosvm_session *s, uint16_t block, uint16_t chunk, uint32_t at, uint32_t count, const uint8_t *bytes,
                      size_t size);                                                                 /* RANGE, FULL */

/*
** CAPI: Edits of chunk arrays
**
** geosvm_acreate makes a chunk with an array of elements of `size` bytes each, 0 for any sizes, and `extra` zeros as extra bytes. Elements
** have numbers, from 0 on. geosvm_ainsert makes these bytes one before element `i`, geosvm_aset gives it these in place of its own,
** geosvm_aresize cuts it at its end or adds zeros there, geosvm_adelete deletes `count` of them from there on, and geosvm_azero all. Each
** is NO_BLOCK, WRONG_KIND, NO_CHUNK, NOT_ARRAY, then what stands there, and at last FULL; geosvm_acreate names no chunk.
*/
int32_t geosvm_acreate(geosvm_session *s, uint16_t block, uint32_t size, uint32_t extra, uint16_t *chunk); /* RANGE */
int32_t geosvm_ainsert(geosvm_session *s, uint16_t block, uint16_t chunk, uint32_t i, const uint8_t *bytes,
                       size_t size);                                                                /* RANGE */
int32_t geosvm_aset(geosvm_session *s, uint16_t block, uint16_t chunk, uint32_t i, const uint8_t *bytes,
                    size_t size);                                                                   /* NO_ELEMENT, RANGE */
int32_t geosvm_aresize(geosvm_session *s, uint16_t block, uint16_t chunk, uint32_t i, uint32_t size); /* NO_ELEMENT, RANGE */
int32_t geosvm_adelete(geosvm_session *s, uint16_t block, uint16_t chunk, uint32_t i, uint32_t count); /* NO_ELEMENT */
int32_t geosvm_azero(geosvm_session *s, uint16_t block, uint16_t chunk);

/*
** CAPI: Edits of element arrays
**
** geosvm_ecreate makes a chunk with an element array of data of `size` bytes, 0 for any sizes. geosvm_eadd gives the element with these
** bytes one more reference, or makes it; *token becomes its token either way. geosvm_eref and geosvm_eunref make it one reference more or
** less, which frees it with the last one; geosvm_edelete frees it, and geosvm_echange gives it these bytes. Refused as edits of chunk
** arrays are.
*/
int32_t geosvm_ecreate(geosvm_session *s, uint16_t block, uint32_t size, uint16_t *chunk);          /* RANGE */
int32_t geosvm_eadd(geosvm_session *s, uint16_t block, uint16_t chunk, const uint8_t *bytes, size_t size,
                    uint16_t *token);                                                               /* COUNT_FULL, RANGE */
int32_t geosvm_eref(geosvm_session *s, uint16_t block, uint16_t chunk, uint16_t token);             /* NO_ELEMENT, COUNT_FULL */
int32_t geosvm_eunref(geosvm_session *s, uint16_t block, uint16_t chunk, uint16_t token);           /* NO_ELEMENT */
int32_t geosvm_edelete(geosvm_session *s, uint16_t block, uint16_t chunk, uint16_t token);          /* NO_ELEMENT */
int32_t geosvm_echange(geosvm_session *s, uint16_t block, uint16_t chunk, uint16_t token, const uint8_t *bytes,
                       size_t size);                                                                /* NO_ELEMENT, RANGE */

/*
** CAPI: Edits of name arrays
**
** geosvm_ncreate makes a chunk with a name array of parts of `size` bytes. geosvm_nadd gives a name that is there one more reference, and
** this part where `sets`, or makes it with this part. geosvm_nname gives a token another name, geosvm_nset the name of a token this part,
** and geosvm_nunref takes a reference, and frees the name with the last one. Refused as edits of chunk arrays are.
*/
int32_t geosvm_ncreate(geosvm_session *s, uint16_t block, uint32_t size, uint16_t *chunk);          /* RANGE */
int32_t geosvm_nadd(geosvm_session *s, uint16_t block, uint16_t chunk, const uint8_t *name, size_t size, const uint8_t *part,
                    size_t part_size, bool sets, uint16_t *token);                                  /* COUNT_FULL, RANGE */
int32_t geosvm_nname(geosvm_session *s, uint16_t block, uint16_t chunk, uint16_t token, const uint8_t *name,
                     size_t size);                                                                  /* NO_ELEMENT, NAME_IN_USE, RANGE */
int32_t geosvm_nset(geosvm_session *s, uint16_t block, uint16_t chunk, uint16_t token, const uint8_t *part,
                    size_t part_size);                                                              /* NO_ELEMENT, RANGE */
int32_t geosvm_nunref(geosvm_session *s, uint16_t block, uint16_t chunk, uint16_t token);           /* NO_ELEMENT */

/*
** CAPI: Edits of chains
**
** geosvm_chcopy copies each block of the chain that begins at `block`; *copy becomes the root's copy. geosvm_chfree frees them all.
*/
int32_t geosvm_chcopy(geosvm_session *s, uint16_t block, uint16_t *copy); /* NO_BLOCK, WRONG_KIND, BAD_CHAIN, NO_HANDLES */
int32_t geosvm_chfree(geosvm_session *s, uint16_t block);                 /* NO_BLOCK, WRONG_KIND, BAD_CHAIN, IS_MAP */

/*
** CAPI: Edits of large arrays
**
** A large array is for what is longer than a block, as a text. Its elements stand in raw blocks, its branches, and each
** call names it by its root, the raw block that has their handles. geosvm_hcreate makes one without elements, which
** will have `size` bytes each, 4,096 at most, or with 0 any number; *root becomes its root, with the user ID. Another
** block is its branch, under the next free handle. geosvm_hinsert puts these bytes in before element `i`, or behind the
** last one; geosvm_hset puts them in the place of the elements from `i` on, and geosvm_hdelete deletes `count` from
** there on.
**
** Where sizes vary the bytes are one element, of 65,508 bytes at most. Else they are as many elements as they have room
** for, a whole text at once, and RANGE where some are left over. An edit of no element changes nothing, and is a step
** all the same. What is for chains, geosvm_chcopy, chfree, walk, chsize and chequal, takes the root of an array too;
** geosvm_vcopy would make a second root of the same branches.
**
** Each but geosvm_hcreate is LOCKED while any block is; else NO_BLOCK, WRONG_KIND, NOT_ARRAY where the block is no
** root, and then what stands there. BAD_CHAIN: a branch that is needed isn't what the root says. IS_MAP: one would go
** that is the map block.
*/
int32_t geosvm_hcreate(geosvm_session *s, uint16_t user_id, uint32_t size, uint16_t *root); /* RANGE, NO_HANDLES */
int32_t geosvm_hinsert(geosvm_session *s, uint16_t root, uint32_t i, const uint8_t *bytes,
                       size_t size);               /* RANGE, TOO_BIG, BAD_CHAIN, IS_MAP, NO_HANDLES */
int32_t geosvm_hset(geosvm_session *s, uint16_t root, uint32_t i, const uint8_t *bytes,
                    size_t size);                  /* NO_ELEMENT, RANGE, TOO_BIG, BAD_CHAIN, IS_MAP, NO_HANDLES */
int32_t geosvm_hdelete(geosvm_session *s, uint16_t root, uint32_t i,
                       uint32_t count);            /* NO_ELEMENT, BAD_CHAIN, IS_MAP, NO_HANDLES */

/*
** CAPI: A copy in another document
**
** geosvm_copy_block makes a block of `to` like one of `from`: raw with the same bytes, or a heap of the same type with the same chunks under
** the same handles, and the same user ID. *copy becomes its handle, the least free one. Both may be the same session. It is one step of
** undo there, without a name, or a part of the open group; `from` isn't changed. Handles of blocks in its bytes, as the links of a
** chain, stay as they are, and may lead elsewhere.
**
** GEOSVM_NOT_OPEN where either is closed; of `from` NO_BLOCK, FILE, DAMAGED or CACHE_FULL; of `to` NO_HANDLES, FILE, DAMAGED or CACHE_FULL;
** or MEMORY, of which it takes as much as the block has besides what undo holds. What is refused changes neither document, nor what can
** be undone; only where the memory or the file of `to` fails in the midst of it what could be redone is gone, and while a block of
** `to` is locked there may be one step more, or edits of the open group, which change nothing. Who keeps a copy of `to` looks at all of
** the block *copy: geosvm_touched tells of the last of several edits alone.
*/
int32_t geosvm_copy_block(geosvm_session *from, uint16_t block, geosvm_session *to, uint16_t *copy);

/*
** CAPI: Look-ups
**
** None changes the document or what can be undone. Where one answers anything but GEOSVM_OK or GEOSVM_CUT_OFF the values that it hands
** out are 0, and nothing is put into its buffer.
**
** Bytes and lists of handles are copied into a buffer with room for `room` of them. *length becomes how many there are, at most 65,520
** bytes or 32,752 handles; GEOSVM_CUT_OFF where they don't fit, and then as many as fit are in the buffer.
**
** At each call stand its refusals. Those that look into a block may also be GEOSVM_MEMORY, FILE or DAMAGED as an edit may, and
** GEOSVM_CACHE_FULL where all that may be in memory are locked and it isn't one of them; geosvm_list may be GEOSVM_MEMORY.
*/

/*
** CAPI: Look-ups of blocks
**
** geosvm_info tells whether a block is a heap, which is 1, or a raw block, 0; its user ID; and the bytes that the heap needs, or that the
** raw block has. geosvm_list has all blocks, rising. geosvm_find has the least handle above `start` with this user ID, 0 where there is
** none, and geosvm_mapblock the map block, 0 where there is none. geosvm_vread copies the bytes of a raw block.
*/
int32_t geosvm_info(geosvm_session *s, uint16_t block, uint8_t *is_heap, uint16_t *user_id, uint32_t *size); /* NO_BLOCK */
int32_t geosvm_gettype(geosvm_session *s, uint16_t block, uint16_t *heap_type);                     /* NO_BLOCK, WRONG_KIND */
int32_t geosvm_list(geosvm_session *s, uint16_t *blocks, size_t room, size_t *length);
int32_t geosvm_find(geosvm_session *s, uint16_t user_id, uint16_t start, uint16_t *block);
int32_t geosvm_mapblock(geosvm_session *s, uint16_t *block);
int32_t geosvm_vread(geosvm_session *s, uint16_t block, uint8_t *buffer, size_t room, size_t *length); /* NO_BLOCK, WRONG_KIND */

/*
** CAPI: Look-ups of chunks
**
** geosvm_chunks has the chunks of a heap, rising, and geosvm_read the bytes of one. NO_BLOCK, WRONG_KIND; geosvm_read also NO_CHUNK.
*/
int32_t geosvm_chunks(geosvm_session *s, uint16_t block, uint16_t *chunks, size_t room, size_t *length);
int32_t geosvm_read(geosvm_session *s, uint16_t block, uint16_t chunk, uint8_t *buffer, size_t room, size_t *length);

/*
** CAPI: Look-ups of arrays
**
** The first two are of arrays of any kind: how many elements there are, and the bytes of one. Of an element array: how many references an
** element has, its bytes, how many elements are used, the token of a used one by its number from 0 on, and how many used tokens are lower.
** Of a name array: the token of a name, the lowest that has it, how many references a name has, the name of a token, and its part. Each is
** NO_BLOCK, WRONG_KIND, NO_CHUNK, NOT_ARRAY, and then what stands there.
*/
int32_t geosvm_acount(geosvm_session *s, uint16_t block, uint16_t chunk, size_t *count);
int32_t geosvm_aget(geosvm_session *s, uint16_t block, uint16_t chunk, uint32_t i, uint8_t *buffer, size_t room,
                    size_t *length);                                                                /* NO_ELEMENT */
int32_t geosvm_ecount(geosvm_session *s, uint16_t block, uint16_t chunk, uint16_t token, size_t *count); /* NO_ELEMENT */
int32_t geosvm_edata(geosvm_session *s, uint16_t block, uint16_t chunk, uint16_t token, uint8_t *buffer, size_t room,
                     size_t *length);                                                               /* NO_ELEMENT */
int32_t geosvm_eused(geosvm_session *s, uint16_t block, uint16_t chunk, size_t *count);
int32_t geosvm_etoken(geosvm_session *s, uint16_t block, uint16_t chunk, uint32_t k, uint16_t *token); /* NO_ELEMENT */
int32_t geosvm_eindex(geosvm_session *s, uint16_t block, uint16_t chunk, uint16_t token, size_t *index); /* NO_ELEMENT */
int32_t geosvm_nfind(geosvm_session *s, uint16_t block, uint16_t chunk, const uint8_t *name, size_t size,
                     uint16_t *token);                                                              /* NO_NAME */
int32_t geosvm_ncount(geosvm_session *s, uint16_t block, uint16_t chunk, uint16_t token, size_t *count); /* NO_ELEMENT */
int32_t geosvm_ntext(geosvm_session *s, uint16_t block, uint16_t chunk, uint16_t token, uint8_t *buffer, size_t room,
                     size_t *length);                                                               /* NO_ELEMENT */
int32_t geosvm_ndata(geosvm_session *s, uint16_t block, uint16_t chunk, uint16_t token, uint8_t *buffer, size_t room,
                     size_t *length);                                                               /* NO_ELEMENT */

/*
** CAPI: Look-ups of chains
**
** geosvm_walk has the blocks of a chain, each before those that it links to, branches in order, and geosvm_chsize how many bytes they have
** together. *equal becomes 1 where two chains are equal but for handles and user IDs. NO_BLOCK, WRONG_KIND, BAD_CHAIN.
*/
int32_t geosvm_walk(geosvm_session *s, uint16_t block, uint16_t *blocks, size_t room, size_t *length);
int32_t geosvm_chsize(geosvm_session *s, uint16_t block, size_t *size);
int32_t geosvm_chequal(geosvm_session *s, uint16_t block, uint16_t other, uint8_t *equal);

/*
** CAPI: Look-ups of large arrays
**
** geosvm_hcount tells how many elements a large array has, geosvm_hget copies the bytes of one, by its number from 0
** on, and geosvm_hread those of `count` elements of one size from `i` on, one behind the other; that is RANGE where
** sizes vary, and where they have more than 65,520 bytes together. Each is NO_BLOCK, WRONG_KIND, NOT_ARRAY where the
** block is no root, and then what stands there.
*/
int32_t geosvm_hcount(geosvm_session *s, uint16_t root, size_t *count);
int32_t geosvm_hget(geosvm_session *s, uint16_t root, uint32_t i, uint8_t *buffer, size_t room,
                    size_t *length);               /* NO_ELEMENT, BAD_CHAIN */
int32_t geosvm_hread(geosvm_session *s, uint16_t root, uint32_t i, uint32_t count, uint8_t *buffer, size_t room,
                     size_t *length);              /* NO_ELEMENT, RANGE, BAD_CHAIN */

/*
** CAPI: Steps
**
** How many steps can be undone, and redone. The open group is none yet.
**
** geosvm_modified tells whether the document is as it was saved, GEOSVM_AS_SAVED, and as it was updated, GEOSVM_AS_UPDATED: *modified
** becomes the sum of what is so, 0 to 3. It goes by steps, and compares nothing; docs/SCRIPT.md has it under "Files". It takes no memory.
**
** geosvm_undo_name and geosvm_redo_name copy the name of the step that an undo takes back, and that a redo makes again: no bytes where it
** was given none, and 64 at most. They take no memory, and call no function on files.
*/
#define GEOSVM_AS_SAVED   1
#define GEOSVM_AS_UPDATED 2
int32_t geosvm_undos(geosvm_session *s, size_t *count);
int32_t geosvm_redos(geosvm_session *s, size_t *count);
int32_t geosvm_modified(geosvm_session *s, size_t *modified);
int32_t geosvm_undo_name(geosvm_session *s, uint8_t *name, size_t room, size_t *length);           /* GROUP_OPEN, NOTHING_TO_UNDO */
int32_t geosvm_redo_name(geosvm_session *s, uint8_t *name, size_t room, size_t *length);           /* GROUP_OPEN, NOTHING_TO_REDO */

/*
** CAPI: Places
**
** Where the document was changed, for a program that shows it, or keeps a copy of it: that looks again at the places that are told, and at
** nothing else, and has the document. embedding/view.c does so.
**
** geosvm_touched tells where the last accepted edit, undo, redo, abandon or revert changed the document. It is to be
** asked after each of these, before the next one, and gone by once: after any other call, geosvm_end and geosvm_join
** too, the answer is still the old one, so of a group's last edit alone. The other three tell where an undo, a redo and
** an abandon would change it, as geosvm_touched does after that.
**
** Where geosvm_touched is GEOSVM_MEMORY, ask again before the next edit, or look at the whole document. That is to be
** looked at after a geosvm_command that was GEOSVM_UNTOLD too: nothing says whether the answer is a new one.
**
** Places are told in order, a later one in the coordinates after the earlier ones, so that what is to be looked at again is moved by later
** runs of the same bytes: the document is looked at when all have been told. A run in what is to be looked at anew as a whole says nothing
** more.
**
** The places from number `first` on, the first one being 0, are put into a buffer with room for `room` of them; none,
** where there are no more. *count becomes how many there are in all; GEOSVM_CUT_OFF where not all of those from `first`
** on fit. Each call makes all of them anew, in the time and the memory of all. So ask with the room that there is, or
** with none, and where it is cut off make room for *count of them, and ask once more: a few at a time would take the
** square of that time. None calls a function on files; any may be GEOSVM_MEMORY.
*/
enum {
  GEOSVM_PLACE_ALL        = 0, /* the whole document */
  GEOSVM_PLACE_MAP_BLOCK  = 1, /* which block is the map block */
  GEOSVM_PLACE_ATTRIBUTES = 2, /* the user ID or the type of `block` */
  GEOSVM_PLACE_BLOCK      = 3, /* `block`, which came or went, or is another one now */
  GEOSVM_PLACE_CHUNK      = 4, /* `chunk` of `block`, likewise */
  GEOSVM_PLACE_RUN        = 5  /* bytes of `chunk` or, where that is 0, of the raw block: from `at` on `after` are in the place of `before` */
};
typedef struct geosvm_place {
  uint8_t kind;
  uint16_t block, chunk;      /* 0 where the kind has no use for them, as for what comes next */
  uint32_t at, before, after;
} geosvm_place;
int32_t geosvm_touched(geosvm_session *s, size_t first, geosvm_place *places, size_t room, size_t *count);
int32_t geosvm_undo_places(geosvm_session *s, size_t first, geosvm_place *places, size_t room,
                           size_t *count);                                                          /* GROUP_OPEN, NOTHING_TO_UNDO */
int32_t geosvm_redo_places(geosvm_session *s, size_t first, geosvm_place *places, size_t room,
                           size_t *count);                                                          /* GROUP_OPEN, NOTHING_TO_REDO */
int32_t geosvm_abandon_places(geosvm_session *s, size_t first, geosvm_place *places, size_t room, size_t *count); /* NO_GROUP */

/*
** CAPI: Files of the program's own
**
** The library has no file: it calls these six, with the number that geosvm_open was passed. A program that defines none of them gets
** those of embedding/files.c, for which that number is the descriptor of an open file. A program that defines all six, or all but the
** first, has its documents wherever it likes, and the number is its own. Where it defines some of the last five and not all, no session can
** be begun: GEOSVM_FILE (ENOSYS). geosvm_open_path and geosvm_save_as_path, which open files by descriptors, are GEOSVM_FILE (ENOTSUP)
** where it defines any.
**
** Each of them writes nothing but the buffer that it is lent, keeps no pointer to it, and calls nothing of this library. It is called by
** the thread that called the library, so by several at once where sessions are in several. One that fails may set errno, for
** geosvm_last_error.
**
** geosvm_io_begin is called before anything else is done with a file, for geosvm_open and geosvm_create with -1 as `own`, and for
** geosvm_save_as with the number of the file that the session is in. It answers 0 where the session may go on, and anything else where it
** may not, which is then GEOSVM_FILE: where the file can't be written at a place, or where both numbers are one file, which the save-as
** would destroy. Where a program doesn't define it, each may go on.
**
** Of the others a negative number says that it failed. The first two else answer how many bytes they moved, from and to `at`, which may be
** fewer than `size`; a read answers none only at the file's end or past it, and a write, which may lie past the end, takes one at least.
** geosvm_io_len answers how long the file is. The last two answer 0: geosvm_io_set_len cuts the file or adds zeros, and after
** geosvm_io_sync no crash loses what was done before.
*/
int32_t geosvm_io_begin(int32_t number, int32_t own);
int64_t geosvm_io_read(int32_t number, void *buffer, size_t size, int64_t at);
int64_t geosvm_io_write(int32_t number, const void *bytes, size_t size, int64_t at);
int64_t geosvm_io_len(int32_t number);
int32_t geosvm_io_set_len(int32_t number, int64_t size);
int32_t geosvm_io_sync(int32_t number);

#ifdef __cplusplus
}
#endif
#endif
