/* screen.cc: see screen.hpp. */
#include "screen.hpp"
#define NCURSES_NOMACROS
#include <curses.h>

namespace notes {

namespace {
std::string clipped(std::string_view text, std::size_t columns) {
  std::size_t at = 0, sum = 0;
  while (at < text.size()) {
    const character c = character_at(text, at);
    sum += static_cast<std::size_t>(c.columns());
    if (sum > columns) break;
    at += c.size;
  }
  return std::string(text.substr(0, at));
}
std::size_t width() { return static_cast<std::size_t>(std::max(COLS, 4)); }
} // namespace

screen::screen(outline &o) : o_(o), terminal_(::newterm(nullptr, stdout, stdin)) {
  if (terminal_ == nullptr) throw std::runtime_error("the terminal isn't known");
  ::raw();
  ::noecho();
  ::nonl();
  ::nodelay(stdscr, TRUE);
  ::keypad(stdscr, TRUE);
  ::set_escdelay(50);
  ::idlok(stdscr, TRUE);
  std::fputs("\033[?2004h", stdout); /* what is pasted comes between two keys */
  std::fflush(stdout);
}
screen::~screen() {
  std::fputs("\033[?2004l", stdout);
  std::fflush(stdout);
  ::endwin();
  ::delscreen(static_cast<SCREEN *>(terminal_));
}

std::size_t screen::rows() const { return static_cast<std::size_t>(std::max(LINES - 2, 1)); }
void screen::forget() noexcept {
  shown_.clear();
  laid_.clear();
  ::clearok(stdscr, TRUE);
}

/* How texts are laid out. */

std::size_t screen::margin(ref note) { return std::min<std::size_t>(2 * o_.depth(note), width() / 2) + 2; }

const screen::laid &screen::laid_of(ref note) {
  laid &l = laid_[note.key()];
  const std::uint64_t stamp = o_.stamp(note);
  const std::size_t columns = width() - std::min(margin(note) + 1, width() - 1);
  if (l.stamp == stamp && l.columns == columns) return l;
  l.text = o_.text(note);
  l.lines = lines_of(l.text, columns);
  l.stamp = stamp;
  l.columns = columns;
  return l;
}

bool screen::back(position &p) {
  const ref over = p.line > 0 ? p.note : o_.above(p.note);
  if (!over) return false;
  p = {over, p.line > 0 ? p.line - 1 : laid_of(over).lines.size() - 1};
  return true;
}
bool screen::forth(position &p) {
  const bool stays = p.line + 1 < laid_of(p.note).lines.size();
  const ref under = stays ? p.note : o_.below(p.note);
  if (!under) return false;
  p = {under, stays ? p.line + 1 : 0};
  return true;
}

/* Carets. */

std::size_t screen::column(const caret &c) {
  const laid &l = laid_of(c.note);
  const std::size_t begin = l.lines[line_at(l.lines, c.at)].begin;
  return margin(c.note) + columns_of(std::string_view(l.text).substr(begin, c.at - begin));
}
/* At the end of a line that goes on below it is before the last character, since behind it is the next line. */
caret screen::caret_at(position p, std::size_t column) {
  const laid &l = laid_of(p.note);
  const line here = l.lines[p.line];
  const bool goes_on = p.line + 1 < l.lines.size() && l.lines[p.line + 1].begin == here.end;
  std::size_t at = here.begin, sum = margin(p.note);
  while (at < here.end) {
    const std::size_t then = behind(l.text, at);
    sum += columns_of(std::string_view(l.text).substr(at, then - at));
    if (sum > column || (goes_on && then >= here.end)) break;
    at = then;
  }
  return {p.note, at};
}
bool screen::to_row(caret &c, bool goes_down, std::size_t column) {
  position p = position_of(c);
  if (!(goes_down ? forth(p) : back(p))) return false;
  c = caret_at(p, column);
  return true;
}

/* The row of the caret is among those that are shown: they move by as little as needs be, or it comes to the middle. */
void screen::scroll(const caret &c) {
  const position here = position_of(c);
  position p = here, top = here, middle = here;
  std::size_t above = 0;
  for (bool is_there = true; is_there && above < 2 * rows(); above++, is_there = back(p)) {
    if (above < rows()) top = p;
    if (above <= rows() / 2) middle = p;
    if (p == top_) return void(top_ = top);
  }
  p = here;
  for (std::size_t under = 0; under < rows() && !(p == top_) && forth(p); under++) {}
  top_ = p == top_ ? here : middle;
}
/* No row stays empty while there are others above. */
void screen::fill() {
  position p = top_;
  std::size_t under = 1;
  while (under < rows() && forth(p)) under++;
  while (under++ < rows() && back(top_)) {}
}

/* Drawing. */

std::string screen::row_of(position p) {
  const laid &l = laid_of(p.note);
  const line here = l.lines[p.line];
  const char *mark = !o_.first(p.note) ? "\u2022 " : o_.is_folded(p.note) ? "\u25b8 " : "\u25be ";
  const std::string margins(margin(p.note) - 2, ' ');
  return margins + (p.line == 0 ? mark : "  ") + l.text.substr(here.begin, here.end - here.begin);
}

void screen::draw_row(std::size_t y, const std::string &row, bool is_bar) {
  if (shown_.size() <= y) shown_.resize(y + 1, std::string(1, '\0')); /* which no row is */
  if (shown_[y] == row) return;
  shown_[y] = row;
  drawn_++;
  ::attrset(is_bar ? A_REVERSE : A_NORMAL);
  ::move(static_cast<int>(y), 0);
  ::clrtoeol();
  ::addwstr(shown_of(clipped(row, width())).c_str());
  ::attrset(A_NORMAL);
}
/* The right text goes where there is no room for it. */
void screen::draw_bar(std::size_t y, const std::string &left, const std::string &right) {
  std::string row = clipped(" " + left, width() - 1);
  const std::size_t taken = columns_of(row), needed = columns_of(right) + 2;
  row += std::string(width() - taken - (taken + needed > width() ? 0 : needed - 1), ' ');
  if (taken + needed <= width()) row += right + " ";
  draw_row(y, row, true);
}

void screen::draw(const caret &c, const bars &b) {
  drawn_ = 0;
  if (laid_.size() > 4 * rows() + 100) laid_.clear();
  scroll(c);
  fill();
  const position here = position_of(c);
  position p = top_;
  bool is_there = true;
  std::size_t y = 1, at = 1;
  for (; y <= rows(); y++) {
    if (is_there && p == here) at = y;
    draw_row(y, is_there ? row_of(p) : "", false);
    is_there = is_there && forth(p);
  }
  draw_bar(0, b.title, "");
  draw_bar(y, b.left, b.right);
  const std::size_t x = b.asks ? std::min(columns_of(b.left) + 1, width() - 1) : std::min(column(c), width() - 1);
  ::move(static_cast<int>(b.asks ? y : at), static_cast<int>(x));
  ::refresh();
}

} // namespace notes
