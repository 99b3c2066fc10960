/* editor.cc: see editor.hpp. */
#include "editor.hpp"
#include <fstream>
#include <map>
#define NCURSES_NOMACROS
#include <curses.h>

namespace notes {

namespace {
constexpr int control(char letter) { return letter & 31; }
constexpr const char *keys_told =
    "^S save ^Z undo ^Y redo Tab indent ^O fold ^K remove ^F find ^G again ^W save as ^R revert ^Q quit";

std::string lower(std::string text) {
  for (char &c : text) c = c >= 'A' && c <= 'Z' ? static_cast<char>(c + ('a' - 'A')) : c;
  return text;
}
} // namespace

std::string in_words(const std::error_code &code) {
  if (code == std::errc::resource_unavailable_try_again) return "it is open in another program";
  if (code == std::errc::permission_denied) return "it may not be written";
  if (code == std::errc::read_only_file_system) return "its disk may only be read";
  if (code == std::errc::no_such_file_or_directory) return "there is no such file or folder";
  if (code == std::errc::is_a_directory || code == std::errc::operation_not_supported) return "it is no file";
  if (code == geosvm::fault::damaged) return "it is damaged";
  if (code == geosvm::fault::not_document) return "it is no document of geosvm";
  if (code == geosvm::fault::no_handles) return "the outline is full";
  if (code == geosvm::fault::memory) return "there is no memory left";
  if (code == geosvm::fault::file) return "the disk is full or has failed: ^W saves elsewhere";
  if (code == geosvm::fault::nothing_to_undo) return "nothing to undo";
  if (code == geosvm::fault::nothing_to_redo) return "nothing to redo";
  return code.message();
}

/* What another run left is told, and asked for. */
editor::editor(outline &o, screen &s, const options &given) : o_(o), s_(s), given_(given) {
  restore({o_.first(o_.root()), 0});
  message_ = "F1 tells the keys";
  if (o_.modified().as_saved) return;
  ask("Left unsaved by an earlier session: k keeps it, r reverts", "kr", [this](const std::string &a) {
    if (a == "r") return revert();
    message_ = "kept, and not saved yet";
  });
}

/* Where the caret is. A place that isn't there, or isn't shown, becomes one that is. */

void editor::restore(const caret &c) {
  caret_ = o_.is_note(c.note) ? c : caret{o_.first(o_.root()), 0};
  for (ref r = o_.parent(caret_.note); r != o_.root(); r = o_.parent(r))
    if (o_.is_folded(r)) caret_ = {r, 0};
  const std::string text = o_.text(caret_.note);
  if (caret_.at > text.size()) caret_.at = text.size();
  else if (caret_.at > 0) caret_.at = behind(text, before(text, caret_.at));
}
void editor::by_rows(bool goes_down, std::size_t count) {
  caret to = caret_;
  while (count-- > 0 && s_.to_row(to, goes_down, column_)) move(to);
  keeps_column_ = true;
}
void editor::by_character(bool goes_right) {
  const std::string text = o_.text(caret_.note);
  const ref over = o_.above(caret_.note), under = o_.below(caret_.note);
  if (goes_right && caret_.at < text.size()) move({caret_.note, behind(text, caret_.at)});
  else if (!goes_right && caret_.at > 0) move({caret_.note, before(text, caret_.at)});
  else if (goes_right ? under : over) move({goes_right ? under : over, goes_right ? 0 : o_.length(over)});
}

/* Edits. For undo and redo it is noted where the caret was before each step and behind it. */

/* There is a step more, or the newest one was joined. */
void editor::edited(const caret &from, std::size_t steps) {
  const std::size_t now = o_.undos();
  steps_.resize(steps);
  steps_.resize(now, {from, from});
  if (now > 0) steps_[now - 1].second = caret_;
  has_failed_ = false;
  if (++edits_ >= given_.every) update();
}
void editor::type(const std::string &text) {
  edit([&] { o_.type(caret_.note, caret_.at, text), caret_.at += text.size(); });
}
void editor::backspace() {
  const caret above{o_.above(caret_.note), o_.above(caret_.note) ? o_.length(o_.above(caret_.note)) : 0};
  const std::size_t at = caret_.at > 0 ? before(o_.text(caret_.note), caret_.at) : 0;
  if (caret_.at > 0) edit([&] { o_.erase(caret_.note, at, caret_.at - at), caret_.at = at; });
  else if (o_.first(caret_.note)) message_ = "there are notes below";
  else if (above.note) edit([&] { o_.join(caret_.note), caret_ = above; });
}
void editor::erase() {
  const std::string text = o_.text(caret_.note);
  if (caret_.at < text.size()) edit([&] { o_.erase(caret_.note, caret_.at, behind(text, caret_.at) - caret_.at); });
}
void editor::shift(bool (outline::*way)(ref), const char *refused) {
  const std::size_t steps = o_.undos();
  if ((o_.*way)(caret_.note)) edited(caret_, steps);
  else message_ = refused;
}
void editor::remove() {
  const ref next = o_.next(caret_.note), beside = next ? next : o_.above(caret_.note);
  edit([&] { o_.remove(caret_.note), caret_ = {beside ? beside : o_.first(o_.root()), 0}; });
}
void editor::fold() {
  if (!o_.first(caret_.note)) message_ = "there is no note below";
  else edit([&] { o_.fold(caret_.note, !o_.is_folded(caret_.note)); });
}
void editor::turn(bool goes_back) {
  if (goes_back) o_.undo();
  else o_.redo();
  edits_++;
  const std::size_t step = o_.undos() - !goes_back; /* that was undone, or redone */
  if (step < steps_.size()) restore(goes_back ? steps_[step].first : steps_[step].second);
  else restore(caret_);
}

/* Search: from behind the caret to the end, and on from the first note until behind the caret. */

bool editor::find(const std::string &searched) {
  ref note = caret_.note;
  std::size_t from = caret_.at + 1;
  for (bool is_again = false;; is_again = true) {
    const std::size_t at = lower(o_.text(note)).find(searched, from);
    if (at != std::string::npos) return move({note, at}), true;
    if (is_again && note == caret_.note) return false;
    const ref then = o_.following(note);
    note = then ? then : o_.first(o_.root());
    from = 0;
    o_.seen().trim(4096);
  }
}
/* Where it stands below a folded note that is unfolded. */
void editor::search() {
  const caret from = caret_;
  if (searched_.empty() || !find(lower(searched_))) return void(message_ = "'" + searched_ + "' isn't there");
  const caret to = caret_;
  restore(to);
  if (caret_.note == to.note) return;
  caret_ = from;
  edit([&] { o_.unfold_above(to.note), caret_ = to; });
}

/* Commits. */

void editor::committed(const char *how, const char *told) {
  edits_ = 0;
  message_ = told;
  if (!given_.log.empty()) std::ofstream(given_.log, std::ios::app) << how << ' ' << keys_ << std::endl;
}
void editor::update() {
  try {
    o_.update();
    committed("update", "autosaved");
  } catch (const geosvm::error &e) {
    edits_ = 0;
    has_failed_ = true; /* and is tried again behind the next edit */
    message_ = "not autosaved: " + in_words(e.code());
  }
}
/* A file that is there is replaced only where that is meant. */
void editor::save_as(const std::string &path) {
  const auto saves = [this, path](const std::string &a) {
    if (a == "n") return;
    o_.save_as(path);
    given_.path = path;
    committed("save", "saved as this file");
  };
  std::error_code unknown;
  if (!std::filesystem::exists(path, unknown)) saves("y");
  else ask(path + " is there: replace it? y or n ", "yn", saves);
}
void editor::revert() {
  o_.revert();
  steps_.clear();
  restore(caret_);
  committed("revert", "reverted to what was saved");
}
void editor::ask_revert() {
  if (o_.modified().as_saved) return void(message_ = "it is as it was saved");
  ask("Give up all since it was saved? y or n ", "yn", [this](const std::string &a) { if (a == "y") revert(); });
}
void editor::quit() {
  if (o_.modified().as_saved) return void(has_ended_ = true);
  ask("Save before leaving? y, n or Esc ", "yn", [this](const std::string &a) {
    a == "y" ? save() : revert();
    has_ended_ = true;
  });
}
void editor::leave() {
  has_ended_ = true;
  if (!o_.modified().as_updated) o_.update(), committed("update", "");
}
int editor::until_pause() {
  if (has_failed_ || o_.modified().as_updated) return -1;
  const std::chrono::duration<double> since = std::chrono::steady_clock::now() - last_key_;
  return std::max(0, static_cast<int>((given_.pause - since.count()) * 1000) + 1);
}

/* Keys. */

void editor::counts() {
  const std::string bytes = std::to_string(o_.seen().looked_at() - looked_at_), rows = std::to_string(s_.drawn());
  message_ = "the key before looked at " + bytes + " bytes and drew " + rows + " rows";
}

editor::command editor::command_of(int k) {
  static const std::map<int, command> commands = {
      {special(KEY_UP), [](editor &e) { e.by_rows(false, 1); }},
      {special(KEY_DOWN), [](editor &e) { e.by_rows(true, 1); }},
      {special(KEY_PPAGE), [](editor &e) { e.by_rows(false, e.s_.rows() - 1); }},
      {special(KEY_NPAGE), [](editor &e) { e.by_rows(true, e.s_.rows() - 1); }},
      {special(KEY_LEFT), [](editor &e) { e.by_character(false); }},
      {special(KEY_RIGHT), [](editor &e) { e.by_character(true); }},
      {special(KEY_HOME), [](editor &e) { e.move(e.s_.in_row(e.caret_, 0)); }},
      {special(KEY_END), [](editor &e) { e.move(e.s_.in_row(e.caret_, SIZE_MAX)); }},
      {control('A'), [](editor &e) { e.move({e.caret_.note, 0}); }},
      {control('E'), [](editor &e) { e.move({e.caret_.note, e.o_.length(e.caret_.note)}); }},
      {'\r', [](editor &e) { e.edit([&] { e.caret_ = {e.o_.split(e.caret_.note, e.caret_.at), 0}; }); }},
      {'\n', [](editor &e) { e.type("\n"); }},
      {special(KEY_BACKSPACE), [](editor &e) { e.backspace(); }},
      {special(KEY_DC), [](editor &e) { e.erase(); }},
      {'\t', [](editor &e) { e.shift(&outline::indent, "there is no note before it on its level"); }},
      {special(KEY_BTAB), [](editor &e) { e.shift(&outline::outdent, "it stands at the margin"); }},
      {special(number_move_up), [](editor &e) { e.shift(&outline::move_up, "it is the first on its level"); }},
      {special(number_move_down), [](editor &e) { e.shift(&outline::move_down, "it is the last on its level"); }},
      {control('K'), [](editor &e) { e.remove(); }},
      {control('O'), [](editor &e) { e.fold(); }},
      {control('Z'), [](editor &e) { e.turn(true); }},
      {control('Y'), [](editor &e) { e.turn(false); }},
      {control('F'), [](editor &e) { e.ask("Find: ", "", [&e](const auto &a) { e.searched_ = a, e.search(); }); }},
      {control('G'), [](editor &e) { e.search(); }},
      {control('S'), [](editor &e) { e.save(); }},
      {control('W'), [](editor &e) { e.ask("Save as: ", "", [&e](const auto &a) { e.save_as(a); }); }},
      {control('R'), [](editor &e) { e.ask_revert(); }},
      {control('Q'), [](editor &e) { e.quit(); }},
      {control('L'), [](editor &e) { e.s_.forget(); }},
      {special(KEY_F(1)), [](editor &e) { e.message_ = keys_told; }},
      {special(KEY_F(2)), [](editor &e) { e.counts(); }}};
  const auto found = commands.find(k);
  return found == commands.end() ? nullptr : found->second;
}

/* A letter of those that are asked for, or a line. Esc gives the question up, but for the first one. */
void editor::answer(int k) {
  question &q = *asked_;
  const bool is_line = q.letters.empty(), is_character = k >= 32 && k < special(0);
  const std::string character = is_character ? utf8_of(static_cast<wchar_t>(k)) : "";
  if ((k == 27 && q.letters != "kr") || (k == '\r' && is_line && q.answer.empty())) return asked_.reset();
  if (is_line && k == special(KEY_BACKSPACE)) q.answer.erase(before(q.answer, q.answer.size()));
  else if (is_line) q.answer += character;
  else if (is_character && q.letters.find(character) != std::string::npos) q.answer = character;
  if (q.answer.empty() || (is_line && k != '\r')) return;
  const question done = std::move(q);
  asked_.reset();
  done.then(done.answer);
}

/* What is pasted is one edit, with its line feeds. */
void editor::pasted_key(int k) {
  if (k < special(0)) pasted_ += utf8_of(k == '\r' ? L'\n' : static_cast<wchar_t>(k));
  if (k != special(number_paste_end)) return;
  pastes_ = false;
  if (asked_ && asked_->letters.empty()) asked_->answer += pasted_.substr(0, pasted_.find('\n'));
  if (asked_ || pasted_.empty()) return;
  edit([&] { o_.paste(caret_.note, caret_.at, pasted_), caret_.at += pasted_.size(); });
}

void editor::key(int k) {
  if (k == special(KEY_RESIZE)) return s_.forget();
  keys_++;
  last_key_ = std::chrono::steady_clock::now();
  message_.clear();
  if (k != special(KEY_F(2))) looked_at_ = o_.seen().looked_at();
  try {
    const command c = command_of(k);
    if (pastes_) pasted_key(k);
    else if (k == special(number_paste)) pastes_ = true, pasted_.clear();
    else if (asked_) answer(k);
    else if (c != nullptr) c(*this);
    else if (k >= 32 && k < special(0)) type(utf8_of(static_cast<wchar_t>(k)));
    if (!std::exchange(keeps_column_, false)) column_ = s_.column(caret_);
  } catch (const geosvm::error &e) {
    message_ = in_words(e.code());
    restore(caret_);
  }
}

void editor::draw() {
  o_.seen().trim(20000);
  const geosvm::standing stands = o_.modified();
  const char *told = stands.as_saved ? "saved" : stands.as_updated ? "autosaved, not saved" : "not saved";
  std::string steps;
  if (o_.undos() > 0) steps = "Undo " + o_.undo_name();
  if (o_.redos() > 0) steps += (steps.empty() ? "Redo " : " | Redo ") + o_.redo_name();
  const std::string left = asked_ ? asked_->label + asked_->answer : message_.empty() ? told : message_;
  s_.draw(caret_, {given_.path + (stands.as_saved ? "" : " *"), left, asked_ ? "" : steps, asked_.has_value()});
}

} // namespace notes
