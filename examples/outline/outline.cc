/* outline.cc: see outline.hpp. */
#include "outline.hpp"
#include <unordered_set>

namespace notes {

namespace {
std::string packed(ref r) {
  const unsigned numbers[] = {r.block.number(), r.chunk.number()};
  std::string bytes;
  for (const unsigned n : numbers) bytes += static_cast<char>(n & 255), bytes += static_cast<char>(n >> 8);
  return bytes;
}
} // namespace

/* Opening. A file that is missing is made under another name, and gets its own once it is whole and on the disk: so
   however the program is stopped, there is none or one that opens. Who makes it at the same time has it instead. */

geosvm::session outline::opened_or_made(const std::filesystem::path &path) {
  namespace fs = std::filesystem;
  const fs::path made = path.native() + ".new";
  std::error_code failed;
  if (fs::symlink_status(path, failed).type() == fs::file_type::not_found) {
    outline(geosvm::session::create(made)).save();
    fs::create_hard_link(made, path, failed);
    if (failed && failed != std::errc::file_exists) fs::rename(made, path);
    else fs::remove(made);
    const int folder = ::open(fs::absolute(path).parent_path().c_str(), O_RDONLY | O_DIRECTORY | O_CLOEXEC);
    const bool is_synced = folder >= 0 && ::fsync(folder) == 0;
    if (folder >= 0) ::close(folder);
    if (!is_synced) throw geosvm::error(geosvm::fault::file);
  }
  return geosvm::session::open_or_create(path);
}

outline::outline(geosvm::session session) : session_(std::move(session)), copies_(session_) {
  is_new_ = session_.list().empty();
  if (is_new_) {
    session_.map(filling_ = session_.newheap(user_id));
    root_ = new_note("");
    attach(new_note(""), root_, {});
  }
  root_ = {session_.mapblock(), geosvm::chunk(0x0010)};
  const std::string wrong = fault();
  if (!wrong.empty()) throw not_an_outline(wrong);
}

/* What is there. */

bool outline::is_note(ref r) {
  std::error_code failed;
  if (!r || session_.read(r.block, r.chunk, failed).size() < note_head || failed) return false;
  return (flags(r) & is_a_note) != 0;
}

ref outline::link(ref r, std::size_t at) {
  const geosvm::bytes_view b = bytes(r);
  const auto word = [&](std::size_t i) { return static_cast<std::uint16_t>(b[i] | b[i + 1] << 8); };
  return {geosvm::block(word(at)), geosvm::chunk(word(at + 2))};
}

ref outline::above(ref note) {
  ref r = previous(note);
  if (!r) return parent(note) == root_ ? ref{} : parent(note);
  while (!is_folded(r) && last(r)) r = last(r);
  return r;
}
ref outline::follower(ref note, bool goes_into) {
  if (goes_into && first(note)) return first(note);
  while (note != root_ && !next(note)) note = parent(note);
  return note == root_ ? ref{} : next(note);
}
unsigned outline::depth(ref note) {
  unsigned count = 0;
  for (ref r = parent(note); r != root_; r = parent(r)) count++;
  return count;
}

std::string outline::text(ref note) {
  std::string all;
  for (ref r = note; r; r = more(r)) all.append(bytes(r), head(r), std::string::npos);
  return all;
}
/* A piece that comes or goes changes a link of another one. */
std::uint64_t outline::stamp(ref note) {
  std::uint64_t newest = 0;
  for (ref r = note; r; r = more(r)) newest = std::max(newest, copies_.of(r).stamp);
  return newest;
}

/* Between two pieces it is the end of the first. */
outline::spot outline::find(ref note, std::size_t at) {
  spot s{{}, note, at};
  while (s.at > size(s.piece)) {
    s = {s.piece, more(s.piece), s.at - size(s.piece)};
    if (!s.piece) throw std::out_of_range("a place behind the end of a text");
  }
  return s;
}

void outline::revert() {
  settle();
  session_.revert();
  copies_.follow();
  const std::string wrong = fault();
  if (!wrong.empty()) throw not_an_outline("what was saved: " + wrong);
}

ref outline::split(ref note, std::size_t at) {
  ref made;
  step("New Note", [&] {
    const std::string tail = text(note).substr(at);
    take(note, at, tail.size());
    made = new_note(tail);
    const bool goes_below = first(note) && !is_folded(note);
    attach(made, goes_below ? note : parent(note), goes_below ? ref{} : note);
  });
  return made;
}
void outline::join(ref note) {
  const ref to = above(note);
  step("Join", [&] {
    put(to, length(to), text(note));
    detach(note);
    release_all(note);
  });
}
/* There is always a note. */
void outline::remove(ref note) {
  step("Remove", [&] {
    detach(note);
    release_all(note);
    if (!first(root_)) attach(new_note(""), root_, {});
  });
}

bool outline::move(std::string_view name, ref note, ref parent, ref previous) {
  step(name, [&] {
    detach(note);
    attach(note, parent, previous);
    set_flag(parent, folded, false);
  });
  return true;
}

/* Puts text into a piece, where it has room and its heap too. */
bool outline::fits(ref piece, std::size_t at, std::string_view text) {
  if (size(piece) + text.size() > piece_most) return false;
  std::error_code refused;
  session_.splice(piece.block, piece.chunk, head(piece) + at, 0, text, refused);
  if (refused == geosvm::fault::full) return false;
  if (refused) throw geosvm::error(refused);
  copies_.follow();
  return true;
}
/* The note and all below it. */
void outline::release_all(ref note) {
  std::vector<ref> left{note};
  while (!left.empty()) {
    const ref r = left.back();
    left.pop_back();
    for (ref child = first(r); child; child = next(child)) left.push_back(child);
    for (ref piece = r, then; piece; piece = then) then = more(piece), release(piece);
  }
}

bool outline::has_room(geosvm::block b, std::size_t size) {
  std::error_code none;
  const geosvm::block_info i = session_.info(b, none);
  return !none && i.is_heap && i.size + size + 8 <= heap_most;
}
/* Where the heap that was filled last is full enough, a few others are tried, so that what was freed is used again. */
ref outline::alloc(std::size_t size) {
  for (int tries = 0; tries < 8 && !has_room(filling_, size); tries++) filling_ = session_.find(user_id, filling_);
  if (!has_room(filling_, size)) {
    filling_ = session_.newheap(user_id);
    copies_.follow();
  }
  const ref made{filling_, session_.alloc(filling_, size)};
  copies_.follow();
  return made;
}

void outline::set_link(ref r, std::size_t at, ref to) {
  if (link(r, at) != to) write(r, at, packed(to));
}
void outline::set_flag(ref note, unsigned flag, bool is_set) {
  const unsigned now = is_set ? flags(note) | flag : flags(note) & ~flag;
  if (now != flags(note)) write(note, flags_at, std::string(1, static_cast<char>(now)));
}

/* Where it doesn't fit, what stands behind goes with it into new pieces. */
void outline::put(ref note, std::size_t at, std::string_view text) {
  const spot s = find(note, at);
  if (text.empty() || fits(s.piece, s.at, text)) return;
  const std::string behind = bytes(s.piece).substr(head(s.piece) + s.at);
  cut(s.piece, s.at, behind.size());
  chain(s.piece, std::string(text) + behind);
}
/* Pieces that get empty go, but for the note itself. */
void outline::take(ref note, std::size_t at, std::size_t count) {
  spot s = find(note, at);
  while (count > 0) {
    const std::size_t here = std::min(count, size(s.piece) - s.at);
    cut(s.piece, s.at, here);
    count -= here;
    const ref then = more(s.piece);
    if (s.before && size(s.piece) == 0) {
      set_link(s.before, more_at, then);
      release(s.piece);
    } else s.before = s.piece;
    s.piece = then;
    s.at = 0;
  }
}
/* New pieces behind one, the last one first. */
void outline::chain(ref piece, std::string_view text) {
  ref then = more(piece);
  while (!text.empty()) {
    const std::size_t from = (text.size() - 1) / piece_most * piece_most;
    const ref made = alloc(piece_head + text.size() - from);
    write(made, more_at, packed(then) + std::string(2, 0) + std::string(text.substr(from)));
    then = made;
    text = text.substr(0, from);
  }
  set_link(piece, more_at, then);
}
ref outline::new_note(std::string_view text) {
  const std::string_view here = text.substr(0, piece_most);
  const ref note = alloc(note_head + here.size());
  write(note, flags_at, std::string(1, is_a_note));
  if (!here.empty()) write(note, note_head, here);
  chain(note, text.substr(here.size()));
  return note;
}

/* The note, which stands nowhere, comes below its parent behind the previous one, or as the first. */
void outline::attach(ref note, ref parent, ref previous) {
  const ref then = previous ? next(previous) : first(parent);
  write(note, parent_at, packed(parent) + packed(previous) + packed(then));
  if (previous) set_link(previous, next_at, note);
  else set_link(parent, first_at, note);
  if (then) set_link(then, previous_at, note);
  else set_link(parent, last_at, note);
}
void outline::detach(ref note) {
  const ref from = parent(note), before = previous(note), then = next(note);
  if (before) set_link(before, next_at, then);
  else set_link(from, first_at, then);
  if (then) set_link(then, previous_at, before);
  else set_link(from, last_at, before);
}

/* Whether it is an outline: each chunk is one piece of one note, and each note is linked from both sides. */

class outline::checking {
public:
  explicit checking(outline &o) : o_(o) {}
  std::string fault() {
    for (const geosvm::block b : o_.session_.list()) {
      const geosvm::block_info i = o_.session_.info(b);
      if (!i.is_heap || i.user_id != user_id) return "it has blocks of another kind";
      for (const geosvm::chunk c : o_.session_.chunks(b)) unreached_.insert(ref{b, c}.key());
    }
    if (reach(o_.root_, true) && !o_.first(o_.root_)) wrong_ = "it has no note";
    while (wrong_.empty() && !left_.empty()) {
      const ref note = left_.back();
      left_.pop_back();
      check(note);
      o_.copies_.trim(4096);
    }
    return wrong_.empty() && !unreached_.empty() ? "a chunk belongs to no note" : wrong_;
  }

private:
  /* A link leads here, to a note or to a further piece. */
  bool reach(ref r, bool is_note) {
    if (unreached_.erase(r.key()) == 0) wrong_ = "a link leads nowhere, or two to one place";
    else if (o_.bytes(r).size() < (is_note ? note_head : piece_head)) wrong_ = "a link leads to too short a chunk";
    else if ((o_.flags(r) & ~(is_note ? folded : 0u)) != is_note) wrong_ = "a link leads to a chunk of another kind";
    else if (is_note) left_.push_back(r);
    return wrong_.empty();
  }
  void check(ref note) {
    for (ref piece = o_.more(note); piece && reach(piece, false); piece = o_.more(piece))
      if (o_.size(piece) == 0) wrong_ = "a further piece is empty";
    ref before;
    for (ref child = o_.first(note); wrong_.empty() && child && reach(child, true); child = o_.next(child)) {
      if (o_.parent(child) != note || o_.previous(child) != before) wrong_ = "a note is linked from one side alone";
      before = child;
    }
    if (wrong_.empty() && o_.last(note) != before) wrong_ = "another note is told as the last one";
  }
  outline &o_;
  std::unordered_set<std::uint32_t> unreached_;
  std::vector<ref> left_;
  std::string wrong_;
};

std::string outline::fault() { return checking(*this).fault(); }

} // namespace notes
