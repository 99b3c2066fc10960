/*
** geosvm.hpp: documents of blocks and heaps, with exact undo, for C++17 and C++20, over geosvm.h. It is a header alone,
** with geosvm_types.hpp beside it.
** Nothing in it is proved, unlike the library below it: it is thin, and checks/cpp_header.cc tries it.
**
**     auto s = geosvm::session::open_or_create("my.document");
**     geosvm::group typing(s, "Typing");
**     auto notes = s.newheap(7);
**     auto note = s.alloc(notes, 5);
**     s.write(notes, note, 0, "hello");
**     typing.end();
**     s.save();
**
** A member does what the call of its name does in geosvm.h, which says what is refused, and what a caller owes; `erase`
** is geosvm_delete. Each has two forms: one that throws geosvm::error where it is refused, and one that takes a
** std::error_code & as its last word, sets it, and throws nothing but std::bad_alloc. A fault of the document is a
** geosvm::fault there, and an error of the system on a path is one of std::generic_category().
**
** A session is used by one thread at a time, as by several under a mutex, and no member that looks is const, since
** each may read the file. When it is moved, groups and locks on it go along. What was edited since the last save or
** update is lost when it closes.
**
** A file that is opened by its path is locked by flock before anything else is done with it, so one that another
** program has open is refused (std::errc::resource_unavailable_try_again), and is closed with the session. `open` wants
** a document, `open_or_create` makes one where the file is missing or empty, and `create` makes one anew. `create` and
** `save_as` write a new document beside a file that has bytes, under its name with a point and six letters behind
** it, and let it take the place of that file once it is whole, with its owner and mode: so where they are refused the
** old file stays, and where there was none there may be an empty one. Only a regular file with one name is replaced. A
** descriptor stays the caller's, who locks it, as geosvm.h says. By `open_checksums`, `create_checksums` and
** `open_or_create_checksums` a file has checksums from its next commit on, and one that is made from the start.
*/
#ifndef GEOSVM_HPP
#define GEOSVM_HPP
#include "geosvm_types.hpp"
#include <cerrno>
#include <cstdint>
#include <cstdio>
#include <cstdlib>
#include <cstring>
#include <fcntl.h>
#include <filesystem>
#include <functional>
#include <memory>
#include <string>
#include <string_view>
#include <sys/file.h>
#include <sys/stat.h>
#include <system_error>
#include <type_traits>
#include <unistd.h>
#include <utility>
#include <vector>

namespace geosvm {

/* What stands below the classes. None of it is for users. */
namespace below {

/* A descriptor of an open file, which is closed with it. */
class descriptor {
public:
  explicit descriptor(int number = -1) noexcept : number_(number) {}
  descriptor(descriptor &&other) noexcept : number_(std::exchange(other.number_, -1)) {}
  descriptor &operator=(descriptor &&other) noexcept {
    descriptor taken(std::move(other));
    std::swap(number_, taken.number_);
    return *this;
  }
  ~descriptor() { close(); }
  int number() const noexcept { return number_; }
  void close() noexcept {
    if (number_ >= 0) ::close(std::exchange(number_, -1));
  }

private:
  int number_;
};

inline std::error_code system_error() noexcept { return {errno, std::generic_category()}; }

/* Whether the file lies at a path. */
inline bool lies_at(int number, const char *path) noexcept {
  struct stat open, there;
  return ::fstat(number, &open) == 0 && ::stat(path, &there) == 0 && open.st_dev == there.st_dev &&
         open.st_ino == there.st_ino;
}

/* Opens a file and locks it; it is never cut. One whose name went meanwhile to a file that took its place is in use. */
inline descriptor open_locked(const std::filesystem::path &path, int flags, std::error_code &failed) {
  int number = -1;
  failed = std::make_error_code(std::errc::invalid_argument);
  if (path.native().find('\0') != std::string::npos) return descriptor();
  do number = ::open(path.c_str(), flags | O_RDWR | O_CLOEXEC, 0666);
  while (number < 0 && errno == EINTR);
  descriptor file(number);
  failed = std::error_code();
  if (number < 0 || ::flock(number, LOCK_EX | LOCK_NB) != 0) failed = system_error();
  else if (!lies_at(number, path.c_str())) failed = std::make_error_code(std::errc::resource_unavailable_try_again);
  return failed ? descriptor() : std::move(file);
}

/* A locked file for a new document: that of a path, where it is new or empty, else one beside it, which takes its place
   later. */
class new_file {
public:
  new_file(const std::filesystem::path &path, bool replaces, std::error_code &failed)
      : old_(open_locked(path, O_CREAT, failed)) {
    struct stat status;
    if (!failed) path_ = std::filesystem::canonical(path, failed);
    if (failed) return;
    folder_ = path_.parent_path();
    if (::fstat(old_.number(), &status) != 0) failed = system_error();
    else if (!S_ISREG(status.st_mode)) failed = std::make_error_code(std::errc::operation_not_supported);
    else if (status.st_size == 0) is_empty_ = true;
    else if (replaces) make_beside(status, failed);
    if (failed) give_up();
  }
  /* Else it has bytes that stay. */
  bool is_new() const noexcept { return is_empty_ || made_.number() >= 0; }
  int number() const noexcept { return made_.number() >= 0 ? made_.number() : old_.number(); }
  /* It has a document, which is on the disk by now, and gets the path. Its folder is synced, so no crash loses it. */
  std::error_code take_place() noexcept {
    if (made_.number() >= 0 && ::rename(made_path_.c_str(), path_.c_str()) != 0) return system_error();
    const descriptor folder(::open(folder_.c_str(), O_RDONLY | O_DIRECTORY | O_CLOEXEC));
    return folder.number() < 0 || ::fsync(folder.number()) != 0 ? system_error() : std::error_code();
  }
  /* The old file stays; one that was empty is empty. */
  void give_up() noexcept {
    if (made_.number() >= 0) ::unlink(made_path_.c_str());
    else if (is_empty_) (void)!::ftruncate(old_.number(), 0);
  }
  descriptor release() noexcept { return std::move(made_.number() >= 0 ? made_ : old_); }

private:
  void make_beside(const struct stat &status, std::error_code &failed) {
    failed = std::make_error_code(std::errc::operation_not_supported);
    if (status.st_nlink != 1 || !lies_at(old_.number(), path_.c_str())) return;
    made_path_ = path_.native() + ".XXXXXX";
    made_ = descriptor(::mkostemp(made_path_.data(), O_CLOEXEC));
    const int number = made_.number();
    const bool is_alike = number >= 0 && ::flock(number, LOCK_EX | LOCK_NB) == 0 &&
                          ::fchown(number, status.st_uid, status.st_gid) == 0 &&
                          ::fchmod(number, status.st_mode & 07777) == 0;
    failed = is_alike ? std::error_code() : system_error();
  }
  descriptor old_, made_;
  std::filesystem::path path_, folder_;
  std::string made_path_;
  bool is_empty_ = false; /* whether the old one was */
};

/* A session, which stays where it is while its owner is moved, and how its groups stand. */
struct state {
  geosvm_session session = GEOSVM_CLOSED;
  descriptor own;               /* the file, where it was opened by its path */
  unsigned groups = 0;          /* how many are open, each within the one before */
  unsigned long long group = 0; /* the number of the newest one that is in none */
  bool has_edits = false;       /* whether it has any */
  bool is_given_up = false;     /* whether it is to be taken back: at once, or as soon as no block is locked */

  state() = default;
  state(const state &) = delete;
  state &operator=(const state &) = delete;
  ~state() { geosvm_close(&session); }

  /* No group is open, or another one. */
  void forget_groups() noexcept {
    groups = 0;
    group++;
    is_given_up = has_edits = false;
  }
  /* Takes a group back that was given up. Until then nothing else is done, or it would be taken back with it. */
  std::int32_t settle() noexcept {
    if (!is_given_up || groups > 0) return GEOSVM_OK;
    const std::int32_t code = geosvm_abandon(&session);
    if (code != GEOSVM_OK && code != GEOSVM_NO_GROUP && code != GEOSVM_NOT_OPEN) return code;
    forget_groups();
    return GEOSVM_OK;
  }
  std::int32_t begin() noexcept {
    std::int32_t code = settle();
    if (code == GEOSVM_OK && groups == 0) {
      code = geosvm_begin(&session);
      if (code == GEOSVM_OK) forget_groups();
    }
    if (code == GEOSVM_OK) groups++;
    return code;
  }
  /* Whether the open group has an edit. Those by `command` aren't counted, so its places are asked for. */
  bool is_step() noexcept {
    std::size_t count = 0;
    geosvm_place room;
    if (!has_edits) geosvm_abandon_places(&session, 0, &room, 0, &count);
    return has_edits || count > 0;
  }
  /* The innermost group ends, with the outermost one the step. Where there is no memory for its name it has none. */
  std::int32_t end(bytes_view name) noexcept {
    if (groups > 1) {
      groups--;
      return GEOSVM_OK;
    }
    if (is_given_up) {
      give_up();
      return GEOSVM_NO_GROUP;
    }
    const bool has_name = !name.empty() && is_step();
    const std::int32_t code = geosvm_end(&session);
    if (code == GEOSVM_OK) forget_groups();
    if (code == GEOSVM_OK && has_name) geosvm_name(&session, name.data(), name.size());
    return code;
  }
  std::int32_t give_up() noexcept {
    is_given_up = true;
    groups--;
    return settle();
  }
};

/* As much of a number as a call takes, where more is refused as well: nothing has so many bytes or elements. */
inline std::uint32_t capped(std::size_t number) noexcept {
  return number < UINT32_MAX ? static_cast<std::uint32_t>(number) : UINT32_MAX;
}

} // namespace below

class session {
public:
  session() noexcept = default;
  session(session &&other) noexcept = default;
  session &operator=(session &&other) noexcept {
    session taken(std::move(other));
    std::swap(at_, taken.at_);
    return *this;
  }
  ~session() { close_quietly(); }

  /* Open and close. A number is that of a descriptor, or the program's own. A call that is refused, and doesn't throw,
     gives a closed session. */

  static session open(const std::filesystem::path &path, std::size_t frames = 64, report r = {}) {
    return opened_at(path, geosvm_open, frames, r.of(path));
  }
  static session open_checksums(const std::filesystem::path &path, std::size_t frames = 64, report r = {}) {
    return opened_at(path, geosvm_open_checksums, frames, r.of(path));
  }
  static session create(const std::filesystem::path &path, std::size_t frames = 64, report r = {}) {
    return made_at(path, true, geosvm_create, geosvm_open, frames, r.of(path));
  }
  static session create_checksums(const std::filesystem::path &path, std::size_t frames = 64, report r = {}) {
    return made_at(path, true, geosvm_create_checksums, geosvm_open_checksums, frames, r.of(path));
  }
  /* Makes a document only where the file is missing or empty. */
  static session open_or_create(const std::filesystem::path &path, std::size_t frames = 64, report r = {}) {
    return made_at(path, false, geosvm_create, geosvm_open, frames, r.of(path));
  }
  static session open_or_create_checksums(const std::filesystem::path &path, std::size_t frames = 64, report r = {}) {
    return made_at(path, false, geosvm_create_checksums, geosvm_open_checksums, frames, r.of(path));
  }
  static session open(std::int32_t number, std::size_t frames = 64, report r = {}) {
    return begun_on(number, geosvm_open, frames, r);
  }
  static session open_checksums(std::int32_t number, std::size_t frames = 64, report r = {}) {
    return begun_on(number, geosvm_open_checksums, frames, r);
  }
  static session create(std::int32_t number, std::size_t frames = 64, report r = {}) {
    return begun_on(number, geosvm_create, frames, r);
  }
  static session create_checksums(std::int32_t number, std::size_t frames = 64, report r = {}) {
    return begun_on(number, geosvm_create_checksums, frames, r);
  }
  template <class File> static session open(const File &file, report r) { return open(file, 64, r); }
  template <class File> static session open_checksums(const File &file, report r) {
    return open_checksums(file, 64, r);
  }
  template <class File> static session create(const File &file, report r) { return create(file, 64, r); }
  template <class File> static session create_checksums(const File &file, report r) {
    return create_checksums(file, 64, r);
  }
  static session open_or_create(const std::filesystem::path &path, report r) { return open_or_create(path, 64, r); }
  static session open_or_create_checksums(const std::filesystem::path &path, report r) {
    return open_or_create_checksums(path, 64, r);
  }

  void close(report r = {}) {
    const std::int32_t code = geosvm_close(raw());
    at_->own.close();
    at_->forget_groups();
    r.tell(code);
  }
  bool is_open() {
    std::size_t count;
    return geosvm_undos(raw(), &count) == GEOSVM_OK;
  }
  /* For calls of geosvm.h itself. */
  geosvm_session *raw() {
    if (at_ == nullptr) at_ = std::make_shared<below::state>();
    return &at_->session;
  }

  /* Any command, as text: its reply, with a line feed. It may be as long as it needs to be. */
  std::string command(std::string_view line, report r = {}) {
    const bytes_view text(line);
    std::string reply(GEOSVM_REPLY_MOST, '\0');
    std::size_t length = 0;
    for (;;) {
      const std::int32_t code = after_settling([&] {
        auto *to = reinterpret_cast<std::uint8_t *>(reply.data());
        return geosvm_command(raw(), text.data(), text.size(), to, reply.size(), &length);
      });
      const bool is_longer = code == GEOSVM_CUT_OFF && length > reply.size();
      if (!is_longer) r.tell(code);
      reply.resize(length);
      if (!is_longer) return reply; /* else it told places, which can be asked for anew */
    }
  }

  /* Undo and redo. */

  void undo(report r = {}) { step(r, geosvm_undo); }
  void redo(report r = {}) { step(r, geosvm_redo); }
  void join(report r = {}) { step(r, geosvm_join); }
  void name(bytes_view name, report r = {}) { step(r, geosvm_name, name.data(), name.size()); }
  void forget(std::size_t most, report r = {}) { r.tell(geosvm_forget(raw(), below::capped(most))); }
  void limit_undo(std::size_t most, report r = {}) { r.tell(geosvm_limit_undo(raw(), below::capped(most))); }

  /* Groups. `group`, below, is a guard for these; such guards are void once these two end or abandon their group. */

  void begin(report r = {}) {
    if (step(r, geosvm_begin)) at_->forget_groups();
  }
  void end(report r = {}) {
    raw();
    if (at_->groups > 0) {
      at_->groups = 1;
      r.tell(at_->end({}));
    } else if (step(r, geosvm_end)) at_->forget_groups();
  }
  void abandon(report r = {}) {
    const std::int32_t code = geosvm_abandon(raw());
    if (r.tell(code)) at_->forget_groups();
  }

  /* Commits. */

  void update(report r = {}) { step(r, geosvm_update); }
  void save(report r = {}) { step(r, geosvm_save); }
  void revert(report r = {}) { step(r, geosvm_revert); }
  void save_as(std::int32_t number, report r = {}) {
    if (step(r, geosvm_save_as, number)) at_->own.close();
  }
  /* Where the new file can't take the place of an old one, or its folder can't be synced, that is told, and the session
     goes on in the new one all the same, which then may lie beside the old one. */
  void save_as(const std::filesystem::path &path, report r = {}) {
    std::error_code failed;
    raw();
    below::new_file file(path, true, failed);
    r = r.of(path);
    if (!r.tell(failed)) return;
    const std::int32_t code = after_settling([&] { return geosvm_save_as(raw(), file.number()); });
    if (code == GEOSVM_OK) {
      failed = file.take_place();
      at_->own = file.release();
    } else file.give_up();
    if (r.tell(code)) r.tell(failed);
  }

  /* Locks. `locked_block`, below, is a guard for these. */

  void lock(block b, report r = {}) { r.tell(geosvm_lock(raw(), b.number())); }
  void unlock(block b, report r = {}) {
    const std::int32_t code = geosvm_unlock(raw(), b.number());
    at_->settle();
    r.tell(code);
  }
  void dirty(block b, report r = {}) { r.tell(geosvm_dirty(raw(), b.number())); }
  unsigned locks(block b, report r = {}) { return number<std::uint8_t>(r, geosvm_locks, b.number()); }
  bytes_view locked_chunk(block b, chunk c, report r = {}) {
    return lent(r, geosvm_locked_chunk, b.number(), c.number());
  }
  bytes_view locked_raw(block b, report r = {}) { return lent(r, geosvm_locked_raw, b.number()); }
  /* Locks the block of a large array that has element i, which `has_it` becomes, and lends its elements from there on. */
  bytes_view lock_run(block root, std::size_t i, block &has_it, report r = {}) {
    std::uint16_t number = 0;
    const auto call = [&number](geosvm_session *own, std::uint16_t b, std::uint32_t at, const std::uint8_t **first,
                                std::size_t *length) { return geosvm_lock_run(own, b, at, &number, first, length); };
    const bytes_view elements = lent(r, call, root.number(), below::capped(i));
    has_it = block(number);
    return elements;
  }

  /* Edits of blocks. */

  block newraw(std::uint16_t user_id, std::size_t size, report r = {}) {
    return made<block>(r, geosvm_newraw, user_id, below::capped(size));
  }
  block newheap(std::uint16_t user_id, report r = {}) { return made<block>(r, geosvm_newheap, user_id); }
  void vfree(block b, report r = {}) { edit(r, geosvm_vfree, b.number()); }
  block vcopy(block b, report r = {}) { return made<block>(r, geosvm_vcopy, b.number()); }
  /* A block like one of another session, which may be this one. */
  block copy_block(session &from, block b, report r = {}) {
    geosvm_session *const other = from.raw();
    const auto call = [other](geosvm_session *own, std::uint16_t number, std::uint16_t *copy) {
      return geosvm_copy_block(other, number, own, copy);
    };
    return made<block>(r, call, b.number());
  }
  void vwrite(block b, std::size_t at, bytes_view from, report r = {}) {
    edit(r, geosvm_vwrite, b.number(), below::capped(at), from.data(), from.size());
  }
  void vsplice(block b, std::size_t at, std::size_t count, bytes_view from, report r = {}) {
    edit(r, geosvm_vsplice, b.number(), below::capped(at), below::capped(count), from.data(), from.size());
  }
  void attach(block b, bytes_view from, report r = {}) { edit(r, geosvm_attach, b.number(), from.data(), from.size()); }
  void uid(block b, std::uint16_t user_id, report r = {}) { edit(r, geosvm_uid, b.number(), user_id); }
  void settype(block b, std::uint16_t heap_type, report r = {}) { edit(r, geosvm_settype, b.number(), heap_type); }
  void map(block b, report r = {}) { edit(r, geosvm_map, b.number()); }

  /* Edits of chunks. */

  chunk alloc(block b, std::size_t size, report r = {}) {
    return made<chunk>(r, geosvm_alloc, b.number(), below::capped(size));
  }
  void free(block b, chunk c, report r = {}) { edit(r, geosvm_free, b.number(), c.number()); }
  void resize(block b, chunk c, std::size_t size, report r = {}) {
    edit(r, geosvm_resize, b.number(), c.number(), below::capped(size));
  }
  void insert(block b, chunk c, std::size_t at, std::size_t size, report r = {}) {
    edit(r, geosvm_insert, b.number(), c.number(), below::capped(at), below::capped(size));
  }
  void erase(block b, chunk c, std::size_t at, std::size_t size, report r = {}) {
    edit(r, geosvm_delete, b.number(), c.number(), below::capped(at), below::capped(size));
  }
  void write(block b, chunk c, std::size_t at, bytes_view from, report r = {}) {
    edit(r, geosvm_write, b.number(), c.number(), below::capped(at), from.data(), from.size());
  }
  void splice(block b, chunk c, std::size_t at, std::size_t count, bytes_view from, report r = {}) {
    edit(r, geosvm_splice, b.number(), c.number(), below::capped(at), below::capped(count), from.data(), from.size());
  }

  /* Edits of chunk arrays. */

  chunk acreate(block b, std::size_t size, std::size_t extra, report r = {}) {
    return made<chunk>(r, geosvm_acreate, b.number(), below::capped(size), below::capped(extra));
  }
  void ainsert(block b, chunk c, std::size_t i, bytes_view from, report r = {}) {
    edit(r, geosvm_ainsert, b.number(), c.number(), below::capped(i), from.data(), from.size());
  }
  void aset(block b, chunk c, std::size_t i, bytes_view from, report r = {}) {
    edit(r, geosvm_aset, b.number(), c.number(), below::capped(i), from.data(), from.size());
  }
  void aresize(block b, chunk c, std::size_t i, std::size_t size, report r = {}) {
    edit(r, geosvm_aresize, b.number(), c.number(), below::capped(i), below::capped(size));
  }
  void adelete(block b, chunk c, std::size_t i, std::size_t count, report r = {}) {
    edit(r, geosvm_adelete, b.number(), c.number(), below::capped(i), below::capped(count));
  }
  void azero(block b, chunk c, report r = {}) { edit(r, geosvm_azero, b.number(), c.number()); }

  /* Edits of element arrays. */

  chunk ecreate(block b, std::size_t size, report r = {}) {
    return made<chunk>(r, geosvm_ecreate, b.number(), below::capped(size));
  }
  token eadd(block b, chunk c, bytes_view from, report r = {}) {
    return made<token>(r, geosvm_eadd, b.number(), c.number(), from.data(), from.size());
  }
  void eref(block b, chunk c, token t, report r = {}) { edit(r, geosvm_eref, b.number(), c.number(), t.number()); }
  void eunref(block b, chunk c, token t, report r = {}) { edit(r, geosvm_eunref, b.number(), c.number(), t.number()); }
  void edelete(block b, chunk c, token t, report r = {}) {
    edit(r, geosvm_edelete, b.number(), c.number(), t.number());
  }
  void echange(block b, chunk c, token t, bytes_view from, report r = {}) {
    edit(r, geosvm_echange, b.number(), c.number(), t.number(), from.data(), from.size());
  }

  /* Edits of name arrays. */

  chunk ncreate(block b, std::size_t size, report r = {}) {
    return made<chunk>(r, geosvm_ncreate, b.number(), below::capped(size));
  }
  token nadd(block b, chunk c, bytes_view name, bytes_view part, bool sets, report r = {}) {
    return made<token>(r, geosvm_nadd, b.number(), c.number(), name.data(), name.size(), part.data(), part.size(),
                       sets);
  }
  void nname(block b, chunk c, token t, bytes_view name, report r = {}) {
    edit(r, geosvm_nname, b.number(), c.number(), t.number(), name.data(), name.size());
  }
  void nset(block b, chunk c, token t, bytes_view part, report r = {}) {
    edit(r, geosvm_nset, b.number(), c.number(), t.number(), part.data(), part.size());
  }
  void nunref(block b, chunk c, token t, report r = {}) { edit(r, geosvm_nunref, b.number(), c.number(), t.number()); }

  /* Edits of chains. */

  block chcopy(block b, report r = {}) { return made<block>(r, geosvm_chcopy, b.number()); }
  void chfree(block b, report r = {}) { edit(r, geosvm_chfree, b.number()); }

  /* Edits of large arrays, each by its root. */

  block hcreate(std::uint16_t user_id, std::size_t size, report r = {}) {
    return made<block>(r, geosvm_hcreate, user_id, below::capped(size));
  }
  void hinsert(block root, std::size_t i, bytes_view from, report r = {}) {
    edit(r, geosvm_hinsert, root.number(), below::capped(i), from.data(), from.size());
  }
  void hset(block root, std::size_t i, bytes_view from, report r = {}) {
    edit(r, geosvm_hset, root.number(), below::capped(i), from.data(), from.size());
  }
  void hdelete(block root, std::size_t i, std::size_t count, report r = {}) {
    edit(r, geosvm_hdelete, root.number(), below::capped(i), below::capped(count));
  }

  /* Look-ups. */

  block_info info(block b, report r = {}) {
    block_info i;
    std::uint8_t is_heap = 0;
    r.tell(geosvm_info(raw(), b.number(), &is_heap, &i.user_id, &i.size));
    i.is_heap = is_heap != 0;
    return i;
  }
  std::uint16_t gettype(block b, report r = {}) { return number<std::uint16_t>(r, geosvm_gettype, b.number()); }
  std::vector<block> list(report r = {}) { return handles<block>(r, geosvm_list); }
  block find(std::uint16_t user_id, block start = {}, report r = {}) {
    return found<block>(r, geosvm_find, user_id, start.number());
  }
  block mapblock(report r = {}) { return found<block>(r, geosvm_mapblock); }
  bytes vread(block b, report r = {}) { return copied(r, geosvm_vread, b.number()); }

  std::vector<chunk> chunks(block b, report r = {}) { return handles<chunk>(r, geosvm_chunks, b.number()); }
  bytes read(block b, chunk c, report r = {}) { return copied(r, geosvm_read, b.number(), c.number()); }

  std::size_t acount(block b, chunk c, report r = {}) {
    return number<std::size_t>(r, geosvm_acount, b.number(), c.number());
  }
  bytes aget(block b, chunk c, std::size_t i, report r = {}) {
    return copied(r, geosvm_aget, b.number(), c.number(), below::capped(i));
  }
  std::size_t ecount(block b, chunk c, token t, report r = {}) {
    return number<std::size_t>(r, geosvm_ecount, b.number(), c.number(), t.number());
  }
  bytes edata(block b, chunk c, token t, report r = {}) {
    return copied(r, geosvm_edata, b.number(), c.number(), t.number());
  }
  std::size_t eused(block b, chunk c, report r = {}) {
    return number<std::size_t>(r, geosvm_eused, b.number(), c.number());
  }
  token etoken(block b, chunk c, std::size_t k, report r = {}) {
    return found<token>(r, geosvm_etoken, b.number(), c.number(), below::capped(k));
  }
  std::size_t eindex(block b, chunk c, token t, report r = {}) {
    return number<std::size_t>(r, geosvm_eindex, b.number(), c.number(), t.number());
  }
  token nfind(block b, chunk c, bytes_view name, report r = {}) {
    return found<token>(r, geosvm_nfind, b.number(), c.number(), name.data(), name.size());
  }
  std::size_t ncount(block b, chunk c, token t, report r = {}) {
    return number<std::size_t>(r, geosvm_ncount, b.number(), c.number(), t.number());
  }
  bytes ntext(block b, chunk c, token t, report r = {}) {
    return copied(r, geosvm_ntext, b.number(), c.number(), t.number());
  }
  bytes ndata(block b, chunk c, token t, report r = {}) {
    return copied(r, geosvm_ndata, b.number(), c.number(), t.number());
  }

  std::vector<block> walk(block b, report r = {}) { return handles<block>(r, geosvm_walk, b.number()); }
  std::size_t chsize(block b, report r = {}) { return number<std::size_t>(r, geosvm_chsize, b.number()); }
  bool chequal(block b, block other, report r = {}) {
    return number<std::uint8_t>(r, geosvm_chequal, b.number(), other.number()) != 0;
  }

  std::size_t hcount(block root, report r = {}) { return number<std::size_t>(r, geosvm_hcount, root.number()); }
  bytes hget(block root, std::size_t i, report r = {}) {
    return copied(r, geosvm_hget, root.number(), below::capped(i));
  }
  bytes hread(block root, std::size_t i, std::size_t count, report r = {}) {
    return copied(r, geosvm_hread, root.number(), below::capped(i), below::capped(count));
  }

  /* Steps. */

  std::size_t undos(report r = {}) { return number<std::size_t>(r, geosvm_undos); }
  std::size_t redos(report r = {}) { return number<std::size_t>(r, geosvm_redos); }
  standing modified(report r = {}) {
    const std::size_t sum = number<std::size_t>(r, geosvm_modified);
    return {(sum & GEOSVM_AS_SAVED) != 0, (sum & GEOSVM_AS_UPDATED) != 0};
  }
  bytes undo_name(report r = {}) { return copied(r, geosvm_undo_name); }
  bytes redo_name(report r = {}) { return copied(r, geosvm_redo_name); }

  /* Places. */

  std::vector<place> touched(report r = {}) { return places(r, geosvm_touched); }
  std::vector<place> undo_places(report r = {}) { return places(r, geosvm_undo_places); }
  std::vector<place> redo_places(report r = {}) { return places(r, geosvm_redo_places); }
  std::vector<place> abandon_places(report r = {}) { return places(r, geosvm_abandon_places); }

private:
  friend class group;
  friend class locked_block;

  /* A call that begins a session on a file by its number. */
  using beginning = decltype(&geosvm_open);

  static session begun_on(std::int32_t number, beginning begin, std::size_t frames, report r) {
    session made;
    r.tell(begin(made.raw(), number, frames));
    return made;
  }

  static session opened_at(const std::filesystem::path &path, beginning open, std::size_t frames, report r) {
    session made;
    std::error_code failed;
    below::descriptor file = below::open_locked(path, 0, failed);
    if (!r.tell(failed) || !r.tell(open(made.raw(), file.number(), frames))) return made;
    made.at_->own = std::move(file);
    return made;
  }

  static session made_at(const std::filesystem::path &path, bool replaces, beginning create, beginning open,
                         std::size_t frames, report r) {
    session made;
    std::error_code failed;
    made.raw();
    below::new_file file(path, replaces, failed);
    if (!r.tell(failed)) return made;
    const std::int32_t code = (file.is_new() ? create : open)(made.raw(), file.number(), frames);
    if (code == GEOSVM_OK && file.is_new()) failed = file.take_place();
    if (code == GEOSVM_OK && !failed) {
      made.at_->own = file.release();
      return made;
    }
    made.close_quietly();
    file.give_up();
    if (r.tell(failed)) r.tell(code);
    return made;
  }

  void close_quietly() noexcept {
    if (at_ == nullptr) return;
    geosvm_close(&at_->session);
    at_->own.close();
    at_->forget_groups();
  }

  template <class Call> std::int32_t after_settling(Call call) {
    raw();
    const std::int32_t code = at_->settle();
    return code == GEOSVM_OK ? call() : code;
  }
  template <class Call, class... Words> bool step(report r, Call call, Words... words) {
    return r.tell(after_settling([&] { return call(raw(), words...); }));
  }
  template <class Call, class... Words> bool edit(report r, Call call, Words... words) {
    const std::int32_t code = after_settling([&] { return call(raw(), words...); });
    if (code == GEOSVM_OK) at_->has_edits = true;
    return r.tell(code);
  }
  template <class Handle, class Call, class... Words> Handle made(report r, Call call, Words... words) {
    std::uint16_t handle = 0;
    edit(r, call, words..., &handle);
    return Handle(handle);
  }
  template <class Number, class Call, class... Words> Number number(report r, Call call, Words... words) {
    Number n = 0;
    r.tell(call(raw(), words..., &n));
    return n;
  }
  template <class Handle, class Call, class... Words> Handle found(report r, Call call, Words... words) {
    return Handle(number<std::uint16_t>(r, call, words...));
  }
  template <class Call, class... Words> bytes_view lent(report r, Call call, Words... words) {
    const std::uint8_t *first = nullptr;
    std::size_t length = 0;
    r.tell(call(raw(), words..., &first, &length));
    return bytes_view(first, length);
  }
  /* What a call copies into a buffer, which is made larger where it doesn't fit. */
  template <class Item, class Call, class... Words> std::vector<Item> filled(report r, Call call, Words... words) {
    std::vector<Item> items(64);
    std::size_t length = 0;
    std::int32_t code;
    while ((code = call(raw(), words..., items.data(), items.size(), &length)) == GEOSVM_CUT_OFF) items.resize(length);
    items.resize(r.tell(code) ? length : 0);
    return items;
  }
  template <class Call, class... Words> bytes copied(report r, Call call, Words... words) {
    return filled<std::uint8_t>(r, call, words...);
  }
  template <class Handle, class Call, class... Words> std::vector<Handle> handles(report r, Call call, Words... words) {
    const std::vector<std::uint16_t> numbers = filled<std::uint16_t>(r, call, words...);
    return std::vector<Handle>(numbers.begin(), numbers.end());
  }
  template <class Call> std::vector<place> places(report r, Call call) {
    std::vector<place> all;
    for (const geosvm_place &p : filled<geosvm_place>(r, call, std::size_t{0}))
      all.push_back({static_cast<place_kind>(p.kind), block(p.block), chunk(p.chunk), p.at, p.before, p.after});
    return all;
  }

  std::shared_ptr<below::state> at_;
};

/* A group of edits, which is one step of undo, with a name. It begins when it is made. Unless it was ended it is taken
   back when it goes, as by an exception: at once, or, where blocks are locked, with the last unlock. Until then edits
   and steps are refused as that is. One without an edit leaves no step.

   Groups within groups count as one, with the name of the one that ends last. Where one within is taken back the whole
   can't be ended any more: `end` of the last one is fault::no_group then, and all of it is taken back. No group stands
   within one that was begun by session::begin or as a command, and what a command does to groups isn't seen here. */
class group {
public:
  explicit group(session &s, bytes_view name = {}, report r = {}) : name_(name.begin(), name.end()) {
    s.raw();
    at_ = s.at_;
    const std::int32_t code = name.size() > 64 ? GEOSVM_TOO_BIG : at_->begin();
    is_open_ = code == GEOSVM_OK;
    number_ = at_->group;
    r.tell(code);
  }
  group(session &s, report r) : group(s, bytes_view(), r) {}
  group(const group &) = delete;
  group &operator=(const group &) = delete;
  ~group() {
    if (is_open()) at_->give_up();
  }

  bool is_open() const noexcept { return is_open_ && number_ == at_->group; }
  void end(report r = {}) {
    const std::int32_t code = is_open() ? at_->end(name_) : GEOSVM_NO_GROUP;
    if (code == GEOSVM_OK || code == GEOSVM_NO_GROUP) is_open_ = false;
    r.tell(code);
  }
  /* Where it is refused, as while a block is locked, it is done later, as when the group goes. */
  void abandon(report r = {}) {
    const std::int32_t code = is_open() ? at_->give_up() : GEOSVM_NO_GROUP;
    is_open_ = false;
    r.tell(code);
  }

private:
  std::shared_ptr<below::state> at_;
  bytes name_;
  unsigned long long number_ = 0;
  bool is_open_ = false;
};

/* A lock of a block, which is unlocked when it goes. Bytes that it lends are read as long as geosvm.h says under
   "Locks", and never once it is gone. */
class locked_block {
public:
  locked_block(session &s, block b, report r = {}) : block_(b) {
    is_locked_ = r.tell(geosvm_lock(s.raw(), b.number()));
    at_ = s.at_;
  }
  /* The block of a large array that has element i, and its elements from there on. */
  locked_block(session &s, block root, std::size_t i, bytes_view &elements, report r = {}) {
    elements = s.lock_run(root, i, block_, r);
    is_locked_ = static_cast<bool>(block_);
    at_ = s.at_;
  }
  locked_block(locked_block &&other) noexcept
      : at_(other.at_), block_(other.block_), is_locked_(std::exchange(other.is_locked_, false)) {}
  locked_block &operator=(locked_block &&other) noexcept {
    locked_block taken(std::move(other));
    std::swap(at_, taken.at_);
    std::swap(block_, taken.block_);
    std::swap(is_locked_, taken.is_locked_);
    return *this;
  }
  ~locked_block() { release(); }

  block handle() const noexcept { return block_; }
  bool is_locked() const noexcept { return is_locked_; }
  void unlock(report r = {}) { r.tell(release()); }
  void dirty(report r = {}) { r.tell(is_locked_ ? geosvm_dirty(&at_->session, block_.number()) : GEOSVM_NOT_LOCKED); }
  /* The bytes of a chunk of a heap, and those of a raw block. */
  bytes_view read(chunk c, report r = {}) const {
    return lent(r, [&](auto... to) { return geosvm_locked_chunk(&at_->session, block_.number(), c.number(), to...); });
  }
  bytes_view vread(report r = {}) const {
    return lent(r, [&](auto... to) { return geosvm_locked_raw(&at_->session, block_.number(), to...); });
  }

private:
  std::int32_t release() noexcept {
    if (!is_locked_) return GEOSVM_NOT_LOCKED;
    const std::int32_t code = geosvm_unlock(&at_->session, block_.number());
    is_locked_ = false;
    at_->settle();
    return code;
  }
  template <class Call> bytes_view lent(report r, Call call) const {
    const std::uint8_t *first = nullptr;
    std::size_t length = 0;
    r.tell(is_locked_ ? call(&first, &length) : GEOSVM_NOT_LOCKED);
    return bytes_view(first, length);
  }

  std::shared_ptr<below::state> at_;
  block block_;
  bool is_locked_ = false;
};

} // namespace geosvm

template <> struct std::is_error_code_enum<geosvm::fault> : std::true_type {};
template <class Kind> struct std::hash<geosvm::handle<Kind>> {
  std::size_t operator()(geosvm::handle<Kind> h) const noexcept { return std::hash<std::uint16_t>()(h.number()); }
};
#endif
