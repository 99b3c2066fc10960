/* outline.hpp: an outline of notes as a document of geosvm, without a terminal.

   The document: each block is a heap, and each chunk is a piece of text. The first piece of a note is the note itself:
   block and chunk handles never change, so they name it as long as it lives. The map block's first chunk is the root,
   which isn't shown; the notes at the margin stand below it. Numbers have the low byte first; a link is a block handle
   and a chunk handle, two bytes each, zeros for none.

       piece:  0 link to the next piece of the text   4 two bytes of flags   6 text, of a note from 26 on
       note:   6 links to the note above it in depth, 10 the one before it, 14 the one behind it, 18 the first below it,
               22 the last below it

   So a note is moved, with all below it, by a few links, and a letter is typed into one piece. What doesn't fit a piece
   or its heap goes on in a new piece in another heap. Each edit here is one group, so one step of undo with a name;
   where it is refused by geosvm::error it has changed nothing. */
#ifndef OUTLINE_HPP
#define OUTLINE_HPP
#include "copies.hpp"
#include <stdexcept>

namespace notes {

/* The document is one of geosvm, but no outline: what is wrong with it. */
struct not_an_outline : std::runtime_error {
  using std::runtime_error::runtime_error;
};

class outline {
public:
  /* Opens the outline of a file; where the file is missing or empty it is made, with one empty note, and saved. */
  explicit outline(const std::filesystem::path &path) : outline(opened_or_made(path)) {
    if (is_new_) save(), session_.forget(0);
  }
  /* Opens one to be read. Where it was given up before its first save it has one empty note. */
  static outline at(const std::filesystem::path &path) { return outline(geosvm::session::open(path)); }

  /* Notes. Those that lie beside one are told by its links; `above` and `below` go by what is shown, so not into folded
     ones, and `following` goes over all. */

  ref root() const noexcept { return root_; }
  bool is_note(ref r);
  ref parent(ref note) { return link(note, parent_at); }
  ref previous(ref note) { return link(note, previous_at); }
  ref next(ref note) { return link(note, next_at); }
  ref first(ref note) { return link(note, first_at); }
  ref last(ref note) { return link(note, last_at); }
  bool is_folded(ref note) { return (flags(note) & folded) != 0; }
  ref above(ref note);
  ref below(ref note) { return follower(note, !is_folded(note)); }
  ref following(ref note) { return follower(note, true); }
  unsigned depth(ref note);
  std::string text(ref note);
  std::size_t length(ref note) { return text(note).size(); }
  /* Another one after each change of the text, however made, and never an old one again. */
  std::uint64_t stamp(ref note);

  /* Edits. Letters that are typed one behind the other are one step, and so are those that are deleted so, until
     `rest`, another edit, an undo or a commit comes between. */

  void type(ref note, std::size_t at, std::string_view text) {
    typed({"Typing", note, at + text.size()}, at, [&] { put(note, at, text); });
  }
  void erase(ref note, std::size_t at, std::size_t count) {
    const bool goes_back = run_.at == at + count;
    typed({"Deleting", note, at}, goes_back ? at + count : at, [&] { take(note, at, count); });
  }
  void paste(ref note, std::size_t at, std::string_view text) {
    step("Paste", [&] { put(note, at, text); });
  }
  void rest() noexcept { run_ = {}; }
  /* A new note with the text from `at` on: the first below this one where such are shown, else the one behind it. */
  ref split(ref note, std::size_t at);
  /* The text comes behind that of the note above. There is one, and this one has none below it. */
  void join(ref note);
  void remove(ref note); /* with all below it */
  void fold(ref note, bool folds) {
    step(folds ? "Fold" : "Unfold", [&] { set_flag(note, folded, folds); });
  }
  void unfold_above(ref note) { /* so that the note is shown */
    step("Unfold", [&] { for (ref r = parent(note); r != root_; r = parent(r)) set_flag(r, folded, false); });
  }
  /* Each is whether it could be done, with all below the note. */
  bool indent(ref n) { return previous(n) && move("Indent", n, previous(n), last(previous(n))); }
  bool outdent(ref n) { return parent(n) != root_ && move("Outdent", n, parent(parent(n)), parent(n)); }
  bool move_up(ref n) { return previous(n) && move("Move Up", n, parent(n), previous(previous(n))); }
  bool move_down(ref n) { return next(n) && move("Move Down", n, parent(n), next(n)); }

  /* Steps. There is a name only where there is a step. */

  void undo() { settle(), session_.undo(), copies_.follow(); }
  void redo() { settle(), session_.redo(), copies_.follow(); }
  std::size_t undos() { return session_.undos(); }
  std::size_t redos() { return session_.redos(); }
  std::string undo_name() { return std::string(geosvm::bytes_view(session_.undo_name()).text()); }
  std::string redo_name() { return std::string(geosvm::bytes_view(session_.redo_name()).text()); }

  /* Commits. */

  void update() { settle(), session_.update(); }
  void save() { settle(), session_.save(); }
  void save_as(const std::filesystem::path &path) { settle(), session_.save_as(path); }
  void revert();
  geosvm::standing modified() { return session_.modified(); }

  /* What is wrong with the document as an outline; empty where nothing is. It looks at all of it. */
  std::string fault();
  const copies &seen() const noexcept { return copies_; }
  copies &seen() noexcept { return copies_; }

private:
  enum : std::size_t {
    more_at = 0, flags_at = 4, piece_head = 6, parent_at = 6, previous_at = 10, next_at = 14, first_at = 18,
    last_at = 22, note_head = 26,
    piece_most = 4000, /* bytes of text */
    heap_most = 49152  /* no chunk is made where a heap would need more: the rest is for what is there to grow */
  };
  enum : unsigned { is_a_note = 1, folded = 2 };
  enum : std::uint16_t { user_id = 0x6f75 };
  struct spot { /* a place in a text, within a piece; the piece before that, where it isn't the note itself */
    ref before, piece;
    std::size_t at;
  };
  struct run { /* what is typed or deleted in a row */
    std::string name;
    ref note;
    std::size_t at = 0;
  };

  explicit outline(geosvm::session session);
  static geosvm::session opened_or_made(const std::filesystem::path &path);
  const std::string &bytes(ref r) { return copies_.of(r).bytes; }
  unsigned flags(ref r) { return static_cast<unsigned char>(bytes(r).at(flags_at)); }
  std::size_t head(ref r) { return (flags(r) & is_a_note) != 0 ? note_head : piece_head; }
  std::size_t size(ref piece) { return bytes(piece).size() - head(piece); }
  ref more(ref piece) { return link(piece, more_at); }
  ref link(ref r, std::size_t at);
  ref follower(ref note, bool goes_into);
  spot find(ref note, std::size_t at);

  /* Nothing is typed in a row any more. A group that couldn't be taken back at once is taken back now. */
  void settle() {
    rest();
    if (!is_unsettled_) return;
    geosvm::group(session_).end();
    is_unsettled_ = false;
    copies_.clear();
  }
  template <class Edits> void step(std::string_view name, Edits edits) {
    settle();
    geosvm::group group(session_, name);
    try {
      edits();
      group.end();
    } catch (...) {
      std::error_code failed;
      group.abandon(failed);
      is_unsettled_ = static_cast<bool>(failed);
      if (failed) copies_.clear();
      else copies_.follow();
      throw;
    }
  }
  /* A step that is joined with the last one, where that was of this kind and ended at `from`. */
  template <class Edits> void typed(const run &made, std::size_t from, Edits edits) {
    const bool joins = run_.name == made.name && run_.note == made.note && run_.at == from;
    step(made.name, edits);
    std::error_code refused; /* for want of memory: then it stays a step of its own */
    if (joins) session_.join(refused);
    run_ = made;
  }
  bool move(std::string_view name, ref note, ref parent, ref previous);
  /* What edits are made of: each edit of the document is followed at once. */
  void write(ref r, std::size_t at, std::string_view from) {
    session_.write(r.block, r.chunk, at, from), copies_.follow();
  }
  void cut(ref piece, std::size_t at, std::size_t count) {
    if (count > 0) session_.erase(piece.block, piece.chunk, head(piece) + at, count), copies_.follow();
  }
  void release(ref piece) { session_.free(piece.block, piece.chunk), copies_.follow(); }
  void release_all(ref note);
  bool fits(ref piece, std::size_t at, std::string_view text);
  bool has_room(geosvm::block b, std::size_t size);
  ref alloc(std::size_t size);
  void set_link(ref r, std::size_t at, ref to);
  void set_flag(ref note, unsigned flag, bool is_set);
  void put(ref note, std::size_t at, std::string_view text);
  void take(ref note, std::size_t at, std::size_t count);
  void chain(ref piece, std::string_view text);
  ref new_note(std::string_view text);
  void attach(ref note, ref parent, ref previous);
  void detach(ref note);

  class checking;
  geosvm::session session_;
  copies copies_;
  ref root_;
  geosvm::block filling_; /* the heap in which a chunk was made last */
  run run_;
  bool is_new_ = false;
  bool is_unsettled_ = false; /* whether a group may still be taken back that couldn't be at once */
};

} // namespace notes
#endif
