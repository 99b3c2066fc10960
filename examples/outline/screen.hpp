/* screen.hpp: the outline on a terminal, by ncurses. Texts are laid out again where their stamps tell that they
   changed, and only rows that are other than what stands there are drawn. */
#ifndef SCREEN_HPP
#define SCREEN_HPP
#include "lines.hpp"
#include "outline.hpp"

namespace notes {

/* A place in the text of a note, where typing goes. */
struct caret {
  ref note;
  std::size_t at = 0;
};

/* The first and the last row. While something is asked the cursor stands behind `left`. */
struct bars {
  std::string title, left, right;
  bool asks = false;
};

class screen {
public:
  explicit screen(outline &o);
  ~screen();
  screen(const screen &) = delete;
  screen &operator=(const screen &) = delete;

  void draw(const caret &c, const bars &b);
  /* All is drawn anew, as after a change of size. */
  void forget() noexcept;
  std::size_t rows() const;
  /* How many rows the last `draw` has drawn. */
  std::size_t drawn() const noexcept { return drawn_; }

  /* The column of a caret; a caret at a column of its row; whether there is a row above or below, and then there. */
  std::size_t column(const caret &c);
  caret in_row(const caret &c, std::size_t column) { return caret_at(position_of(c), column); }
  bool to_row(caret &c, bool goes_down, std::size_t column);

private:
  struct position { /* a row of a note */
    ref note;
    std::size_t line = 0;
    friend bool operator==(position a, position b) noexcept { return a.note == b.note && a.line == b.line; }
  };
  struct laid { /* a text in lines */
    std::string text;
    std::vector<line> lines;
    std::uint64_t stamp = 0;
    std::size_t columns = 0;
  };
  const laid &laid_of(ref note);
  std::size_t margin(ref note);
  position position_of(const caret &c) { return {c.note, line_at(laid_of(c.note).lines, c.at)}; }
  caret caret_at(position p, std::size_t column);
  bool back(position &p);
  bool forth(position &p);
  void scroll(const caret &c);
  void fill();
  std::string row_of(position p);
  void draw_row(std::size_t y, const std::string &row, bool is_bar);
  void draw_bar(std::size_t y, const std::string &left, const std::string &right);

  outline &o_;
  void *terminal_;
  std::unordered_map<std::uint32_t, laid> laid_;
  std::vector<std::string> shown_; /* what stands in each row */
  position top_;                   /* what the second row shows */
  std::size_t drawn_ = 0;
};

} // namespace notes
#endif
