/* Tries outline.hpp, copies.hpp and lines.hpp without a terminal: edits by chance beside a plain list of notes, with
   undo, redo, commits, opening again and files that fail. Run it in an empty folder, as outline_test [STEPS [SEED]],
   or as outline_test --measure. */
#include "lines.hpp"
#include "outline.hpp"
#include <chrono>
#include <clocale>
#include <functional>
#include <iostream>
#include <optional>
#include <random>

/* The functions on files, of which any may fail from here on. */
static bool fails = false;
extern "C" {
int32_t geosvm_io_begin(int32_t, int32_t) { return 0; }
int64_t geosvm_io_read(int32_t file, void *to, size_t size, int64_t at) { return pread(file, to, size, at); }
int64_t geosvm_io_write(int32_t file, const void *from, size_t size, int64_t at) {
  return fails ? -1 : pwrite(file, from, size, at);
}
int64_t geosvm_io_len(int32_t file) { return lseek(file, 0, SEEK_END); }
int32_t geosvm_io_set_len(int32_t file, int64_t size) { return fails ? -1 : ftruncate(file, size); }
int32_t geosvm_io_sync(int32_t) { return 0; }
}

namespace {

using notes::ref;
std::mt19937_64 chance;
unsigned long step, seed = 1;

[[noreturn]] void fail(const std::string &what) {
  std::cout << "step " << step << " of seed " << seed << ": " << what << '\n';
  std::exit(1);
}
void hold(bool is_so, const char *what) {
  if (!is_so) fail(what);
}
std::size_t below(std::size_t most) { return static_cast<std::size_t>(chance() % most); }

std::string some_text(std::size_t most) {
  static const char *const parts[] = {"a", "b ", "word ", "\u00e4", "\u6f22", "e\u0301", "\n", "\xff", "\U0001f600",
                                      "long-word"};
  std::string text;
  for (std::size_t size = below(most + 1); text.size() < size;) text += parts[below(std::size(parts))];
  return text;
}

/* Texts in lines. */

void try_characters() {
  for (wchar_t code = 0; code <= 0x10ffff; code++) {
    if (code >= 0xd800 && code < 0xe000) continue;
    const notes::character c = notes::character_at(notes::utf8_of(code) + "x", 0);
    hold(c.code == code && c.size == notes::utf8_of(code).size(), "a character isn't what was written");
  }
  for (const char *wrong : {"\x80", "\xc0\x80", "\xe0\x80\x80", "\xed\xa0\x80", "\xf4\x90\x80\x80", "\xc3", "\xff"})
    hold(notes::character_at(wrong, 0).code == 0xfffd && notes::character_at(wrong, 0).size == 1, "bytes are UTF-8");
  hold(notes::columns_of("\u6f22e\u0301\t\x1b\u0085") == 6, "a text has other columns");
  for (int i = 0; i < 200; i++) {
    const std::string text = some_text(60);
    std::vector<std::size_t> places{0};
    while (places.back() < text.size()) places.push_back(notes::behind(text, places.back()));
    for (std::size_t p = text.size(); !places.empty(); places.pop_back(), p = notes::before(text, p))
      hold(p == places.back(), "the way back isn't the way there");
  }
}
/* Lines are all of the text, each fits, and no word more would. */
void try_lines() {
  for (int i = 0; i < 3000; i++) {
    const std::string text = some_text(below(20) == 0 ? 2000 : 100);
    const std::size_t columns = 1 + below(30);
    const std::vector<notes::line> lines = notes::lines_of(text, columns);
    std::size_t last = 0;
    for (const notes::line l : lines) {
      const std::string part = text.substr(l.begin, l.end - l.begin);
      const bool is_broken = l.end < text.size() && text[l.end] != '\n';
      const std::size_t word = std::min(text.find_first_of(" \n", l.end), text.size());
      const std::size_t taken = notes::columns_of(part) - (!part.empty() && part.back() == ' ');
      hold(l.begin == last || (l.begin == last + 1 && text[last] == '\n'), "a line doesn't follow the one before");
      hold(part.find('\n') == std::string::npos, "a line has a line feed");
      hold(taken <= columns || notes::character_at(part, 0).size >= part.size() - 1, "a line is too long");
      hold(!is_broken || notes::columns_of(text.substr(l.begin, word - l.begin)) > columns, "a line is too short");
      hold(lines[notes::line_at(lines, l.begin)].begin == l.begin, "a place is in another line");
      last = l.end;
    }
    hold(last == text.size(), "the lines are no whole text");
  }
}

/* Sixty notes in a heap grow until it is full, and on. */
void try_full_heaps() {
  notes::outline o("full.document");
  std::vector<ref> all{o.first(o.root())};
  const std::string half(350, 'a'), middle(1500, 'b');
  while (all.size() < 60) all.push_back(o.split(all.back(), 0));
  for (const ref r : all) o.paste(r, 0, half + half);
  for (const ref r : all) o.paste(r, half.size(), middle);
  for (const ref r : all) hold(o.text(r) == half + middle + half, "a note of a full heap is another one");
  hold(o.fault().empty(), "full heaps are no outline");
  while (o.undos() > 0) o.undo();
  hold(o.text(all[0]).empty() && !o.next(all[0]) && o.fault().empty(), "undone, it isn't as it was");
}

/* What is typed is one step as long as nothing comes between, and what is deleted. */
void try_rows_of_letters() {
  notes::outline o("rows.document");
  const ref r = o.first(o.root()), other = o.split(r, 0);
  const auto steps = [&](std::size_t count, const char *what) { hold(o.undos() == count, what); };
  o.type(r, 0, "a"), o.type(r, 1, "b"), steps(2, "letters in a row are several steps");
  o.type(r, 0, "c"), steps(3, "a letter elsewhere is joined");
  o.type(other, 0, "x"), o.type(r, 1, "d"), steps(5, "a letter in another note is joined");
  o.rest(), o.type(r, 2, "e"), steps(6, "a letter behind a rest is joined");
  o.update(), o.type(r, 3, "f"), steps(7, "a letter behind a commit is joined");
  o.undo(), hold(o.modified().as_updated, "an undo doesn't lead to what was updated");
  o.redo(), o.type(r, 4, "g"), steps(8, "a letter behind a redo is joined");
  o.erase(r, 4, 1), o.erase(r, 3, 1), steps(9, "deleted backwards, they are several steps");
  o.erase(r, 0, 1), o.erase(r, 0, 1), steps(10, "deleted elsewhere, or forwards, they are other steps");
  hold(o.text(r) == "eab", "the letters are others");
}

/* The plain list: each note with all below it is a run, and a state is the whole list. */

struct plain {
  unsigned depth;
  bool folded;
  std::string text;
  friend bool operator==(const plain &a, const plain &b) {
    return a.depth == b.depth && a.folded == b.folded && a.text == b.text;
  }
};
using list = std::vector<plain>;
struct state {
  list all;
  std::string name; /* of the step that led here */
  unsigned long id;
};

class model {
public:
  list now{{0, false, ""}};
  std::vector<state> states{{now, "", 0}};
  std::size_t at = 0;
  unsigned long ids = 0, saved = 0, updated = 0;
  list saved_list = now, updated_list = now;
  bool is_update = false; /* whether the last commit was an update */

  void edited(const std::string &name) {
    states.resize(at + 1);
    states.push_back({now, name, ++ids});
    at++;
  }
  void go(std::size_t to) { now = states[at = to].all; }
  void begin(const list &all, unsigned long id) {
    now = all;
    states = {{now, "", id}};
    at = 0;
  }
  std::size_t end(std::size_t i) const {
    std::size_t e = i + 1;
    while (e < now.size() && now[e].depth > now[i].depth) e++;
    return e;
  }
  bool has_below(std::size_t i) const { return end(i) > i + 1; }
  /* The note before it on its level, or none. */
  std::size_t previous(std::size_t i) const {
    while (i-- > 0 && now[i].depth >= now[i + 1].depth) {
      std::size_t p = i;
      while (now[p].depth > now[i + 1].depth) p--;
      return now[p].depth == now[i + 1].depth ? p : now.size();
    }
    return now.size();
  }
  std::size_t parent(std::size_t i) const {
    std::size_t p = i;
    while (p-- > 0)
      if (now[p].depth < now[i].depth) return p;
    return now.size();
  }
  std::vector<std::size_t> shown() const {
    std::vector<std::size_t> all;
    for (std::size_t i = 0; i < now.size(); i = now[i].folded ? end(i) : i + 1) all.push_back(i);
    return all;
  }
  /* The run from i to its end stands at `to`, counted without it, so much deeper. */
  void move(std::size_t i, std::size_t to, int deeper) {
    list run(now.begin() + static_cast<long>(i), now.begin() + static_cast<long>(end(i)));
    now.erase(now.begin() + static_cast<long>(i), now.begin() + static_cast<long>(end(i)));
    for (plain &p : run) p.depth += static_cast<unsigned>(deeper);
    now.insert(now.begin() + static_cast<long>(to), run.begin(), run.end());
  }
};

/* Both, side by side. */

class pair {
public:
  void open() {
    o_.reset();
    o_.emplace("test.document");
    look();
  }
  void any_step() {
    const std::size_t kind = below(100);
    i_ = below(refs_.size());
    o_->rest();
    if (kind < 22) type();
    else if (kind < 30) erase();
    else if (kind < 38) paste();
    else if (kind < 58) split();
    else if (kind < 61) join();
    else if (kind < 64) remove();
    else if (kind < 69) fold();
    else if (kind < 86) shift();
    else if (kind < 94) turn();
    else if (kind < 97) commit();
    else if (kind < 98) refuse();
    else reopen();
    compare();
  }
  void compare() {
    look();
    hold(refs_.size() == m_.now.size(), "there are notes more or less");
    for (std::size_t i = 0; i < refs_.size(); i++) {
      const plain is{o_->depth(refs_[i]), o_->is_folded(refs_[i]), o_->text(refs_[i])};
      hold(is == m_.now[i] && o_->length(refs_[i]) == is.text.size(), "a note is another one");
    }
    const std::vector<std::size_t> shown = m_.shown();
    for (std::size_t k = 0; k < shown.size(); k++) {
      hold(o_->below(refs_[shown[k]]) == (k + 1 < shown.size() ? refs_[shown[k + 1]] : ref{}), "another note is below");
      hold(o_->above(refs_[shown[k]]) == (k > 0 ? refs_[shown[k - 1]] : ref{}), "another note is above");
    }
    hold(o_->undos() == m_.at && o_->redos() + m_.at + 1 == m_.states.size(), "there are other steps");
    hold(m_.at == 0 || o_->undo_name() == m_.states[m_.at].name, "an undo has another name");
    hold(o_->redos() == 0 || o_->redo_name() == m_.states[m_.at + 1].name, "a redo has another name");
    const unsigned long id = m_.states[m_.at].id;
    hold(o_->modified().as_saved == (id == m_.saved), "the mark is wrong");
    hold(o_->modified().as_updated == (id == m_.updated), "what is to be updated is told wrong");
    if (step % 20 == 0) hold(o_->fault().empty(), o_->fault().c_str());
  }
  void tell() const {
    std::cout << "the outline is the list, of at most " << most_ << " notes; of " << letters_ << " letters " << few_
              << " alone were looked at; " << refused_ << " edits were refused and changed nothing\n";
  }

private:
  void look() {
    refs_.clear();
    for (ref r = o_->first(o_->root()); r; r = o_->following(r)) refs_.push_back(r);
    most_ = std::max(most_, refs_.size());
  }
  ref here() const { return refs_[i_]; }
  std::string &text() { return m_.now[i_].text; }
  /* Of letters that fit no more is looked at than they are, else a piece or two. */
  void type() {
    std::size_t at = below(text().size() + 1);
    for (std::size_t k = 1 + below(6); k > 0; k--) {
      const std::string letter = some_text(1) + "x";
      const std::uint64_t before = o_->seen().looked_at();
      o_->type(here(), at, letter);
      const std::uint64_t looked_at = o_->seen().looked_at() - before;
      hold(looked_at == letter.size() || looked_at <= 8100, "a letter had much looked at");
      few_ += looked_at == letter.size(), letters_++;
      text().insert(at, letter);
      at += letter.size();
    }
    m_.edited("Typing");
  }
  void erase() {
    if (text().empty()) return;
    const bool goes_back = below(2) != 0;
    std::size_t at = below(text().size()) + goes_back;
    for (std::size_t k = 1 + below(4); k > 0 && (goes_back ? at > 0 : at < text().size()); k--) {
      const std::size_t there = goes_back ? at : text().size() - at, some = below(4) == 0 ? 9000 : 3;
      const std::size_t count = 1 + below(std::min(there, some));
      if (goes_back) at -= count;
      o_->erase(here(), at, count);
      text().erase(at, count);
    }
    m_.edited("Deleting");
  }
  void paste() {
    const std::size_t at = below(text().size() + 1);
    const std::string pasted = some_text(below(8) == 0 ? 30000 : 3000) + "p";
    o_->paste(here(), at, pasted);
    text().insert(at, pasted);
    m_.edited("Paste");
  }
  void split() {
    const std::size_t at = below(3) == 0 ? below(text().size() + 1) : text().size();
    const ref made = o_->split(here(), at);
    const bool goes_below = m_.has_below(i_) && !m_.now[i_].folded;
    const plain tail{m_.now[i_].depth + goes_below, false, text().substr(at)};
    text().resize(at);
    const std::size_t to = goes_below ? i_ + 1 : m_.end(i_);
    m_.now.insert(m_.now.begin() + static_cast<long>(to), tail);
    look();
    hold(refs_[to] == made, "the new note stands elsewhere");
    m_.edited("New Note");
  }
  void join() {
    const std::vector<std::size_t> shown = m_.shown();
    const std::size_t k = below(shown.size());
    i_ = shown[k];
    if (k == 0 || m_.has_below(i_)) return;
    o_->join(here());
    m_.now[shown[k - 1]].text += text();
    m_.now.erase(m_.now.begin() + static_cast<long>(i_));
    m_.edited("Join");
  }
  void remove() {
    if (m_.end(i_) - i_ > 3 && below(8) != 0) return;
    o_->remove(here());
    m_.now.erase(m_.now.begin() + static_cast<long>(i_), m_.now.begin() + static_cast<long>(m_.end(i_)));
    if (m_.now.empty()) m_.now = {{0, false, ""}};
    m_.edited("Remove");
  }
  void fold() {
    const bool folds = !m_.now[i_].folded;
    o_->fold(here(), folds);
    m_.now[i_].folded = folds;
    m_.edited(folds ? "Fold" : "Unfold");
  }
  /* Of a move, with whatever is below, links alone are looked at. */
  void shift() {
    const std::size_t p = m_.previous(i_), up = m_.parent(i_), none = m_.now.size(), end = m_.end(i_), kind = below(4);
    const bool has_next = end < none && m_.now[end].depth == m_.now[i_].depth;
    bool (notes::outline::*const ways[])(ref) = {&notes::outline::indent, &notes::outline::outdent,
                                                 &notes::outline::move_up, &notes::outline::move_down};
    static const char *const names[] = {"Indent", "Outdent", "Move Up", "Move Down"};
    const bool can[] = {p != none, up != none, p != none, has_next};
    const std::uint64_t before = o_->seen().looked_at();
    hold(((*o_).*ways[kind])(here()) == can[kind], "a move was done or not");
    hold(o_->seen().looked_at() - before <= 60, "a move had much looked at");
    if (!can[kind]) return;
    const std::size_t out = kind == 1 ? m_.end(up) - (end - i_) : 0, down = kind == 3 ? i_ + m_.end(end) - end : 0;
    const std::size_t to = kind == 0 ? i_ : kind == 1 ? out : kind == 2 ? p : down;
    m_.move(i_, to, kind == 0 ? 1 : kind == 1 ? -1 : 0);
    if (m_.parent(to) != none) m_.now[m_.parent(to)].folded = false;
    m_.edited(names[kind]);
  }
  void turn() {
    for (std::size_t k = below(8); k > 0 && m_.at > 0; k--) o_->undo(), m_.go(m_.at - 1);
    for (std::size_t k = below(8); k > 0 && m_.at + 1 < m_.states.size(); k--) o_->redo(), m_.go(m_.at + 1);
  }
  void commit() {
    const std::size_t kind = below(5);
    if (kind < 3) o_->update();
    else if (kind == 3) o_->save();
    else o_->revert();
    if (kind == 4) m_.begin(m_.saved_list, ++m_.ids);
    if (kind >= 3) m_.saved_list = m_.now, m_.saved = m_.states[m_.at].id;
    m_.updated_list = m_.now;
    m_.updated = m_.states[m_.at].id;
    m_.is_update = kind < 3;
  }
  /* What wasn't updated is gone. It is told as saved where the last commit was no update. */
  void reopen() {
    open();
    m_.begin(m_.updated_list, m_.updated);
    if (m_.is_update) m_.saved = ~0ul;
  }
  /* What is refused leaves all as it was, but for what can be redone, where some of it was done and taken back. */
  void refuse() {
    fails = true;
    try {
      o_->paste(here(), below(text().size() + 1), std::string(1000000, 'r'));
      fail("a text came into a file that fails");
    } catch (const geosvm::error &) { refused_++; }
    if (o_->redos() == 0) m_.states.resize(m_.at + 1);
    try {
      o_->update();
      fail("a file that fails was updated");
    } catch (const geosvm::error &) {}
    fails = false;
  }

  std::optional<notes::outline> o_;
  model m_;
  std::vector<ref> refs_;
  std::size_t i_ = 0, most_ = 0, refused_ = 0, letters_ = 0, few_ = 0;
};

/* How long edits take in an outline of 10,000 notes of 100 bytes, all but two below the first, and one of a million. */

void time_each(const char *what, unsigned times, const std::function<void()> &call) {
  const auto began = std::chrono::steady_clock::now();
  for (unsigned i = 0; i < times; i++) call();
  const std::chrono::duration<double, std::micro> took = std::chrono::steady_clock::now() - began;
  std::cout << what << ": " << took.count() / times << " us\n";
}
void measure() {
  {
    notes::outline o("measured.document");
    const ref first = o.first(o.root()), other = o.split(first, 0), text = o.split(other, 0);
    ref last = o.split(first, 0);
    o.indent(last);
    time_each("a note is made", 9997, [&] {
      last = o.split(last, o.length(last));
      o.type(last, 0, std::string(100, 'n'));
    });
    time_each("a letter is typed", 10000, [&] { o.type(last, 50, "x"); });
    time_each("a letter is typed and rested", 10000, [&] { o.type(last, 50, "x"), o.rest(); });
    time_each("a million letters are pasted", 1, [&] { o.paste(text, 0, std::string(1000000, 't')); });
    time_each("a letter is typed in their midst", 10000, [&] { o.type(text, 500000, "x"); });
    time_each("a note with 9,997 below goes down and up", 1000, [&] { o.move_down(first), o.move_up(first); });
    time_each("an undo and a redo", 1000, [&] { o.undo(), o.redo(); });
    time_each("a letter is typed and updated", 100, [&] { o.type(last, 50, "x"), o.update(); });
    o.save();
  }
  time_each("it is opened, and looked over", 1, [] { notes::outline o("measured.document"); });
}

} // namespace

int main(int count, char **words) {
  std::setlocale(LC_ALL, "C.UTF-8");
  if (count > 1 && std::string(words[1]) == "--measure") return measure(), 0;
  const unsigned long steps = count > 1 ? std::stoul(words[1]) : 1000;
  if (count > 2) seed = std::stoul(words[2]);
  chance.seed(seed);
  try {
    try_characters();
    try_lines();
    try_full_heaps();
    try_rows_of_letters();
    pair p;
    p.open();
    for (step = 1; step <= steps; step++) p.any_step();
    std::cout << steps << " steps: ";
    p.tell();
  } catch (const std::exception &e) { fail(e.what()); }
}
