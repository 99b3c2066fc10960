/* editor.hpp: what keys do. It knows an outline and its screen. */
#ifndef EDITOR_HPP
#define EDITOR_HPP
#include "screen.hpp"
#include <chrono>
#include <functional>
#include <optional>

namespace notes {

/* A key that is no character, by its number in curses.h or one of those that are defined here. */
constexpr int special(int number) { return 0x200000 + number; }
enum : int { number_move_up = 1000, number_move_down, number_paste, number_paste_end };

struct options {
  std::string path, log;
  double pause = 2;     /* seconds without a key behind which what was edited is updated */
  unsigned every = 100; /* edits after which it is */
};

/* What went wrong, for people. */
std::string in_words(const std::error_code &code);

class editor {
public:
  editor(outline &o, screen &s, const options &given);
  void key(int k);
  void draw();
  bool has_ended() const noexcept { return has_ended_; }
  /* How many milliseconds are left until `update` is to be called; -1 where nothing waits for it. */
  int until_pause();
  void update();
  /* Updates, and ends. */
  void leave();

private:
  struct question {
    std::string label, letters, answer; /* one of the letters is the answer; where there is none, a line is */
    std::function<void(const std::string &)> then;
  };
  using command = void (*)(editor &);
  static command command_of(int k);

  void answer(int k);
  void pasted_key(int k);
  void ask(std::string label, std::string letters, std::function<void(const std::string &)> then) {
    asked_ = question{std::move(label), std::move(letters), "", std::move(then)};
  }
  template <class Made> void edit(Made made) {
    const caret from = caret_;
    const std::size_t steps = o_.undos();
    made();
    edited(from, steps);
  }
  void edited(const caret &from, std::size_t steps);
  void move(const caret &to) { o_.rest(), caret_ = to; }
  void restore(const caret &c);
  void by_rows(bool goes_down, std::size_t count);
  void by_character(bool goes_right);
  void type(const std::string &text);
  void backspace();
  void erase();
  void shift(bool (outline::*way)(ref), const char *refused);
  void remove();
  void fold();
  void turn(bool goes_back);
  bool find(const std::string &searched);
  void search();
  void committed(const char *how, const char *told);
  void save() { o_.save(), committed("save", "saved"); }
  void save_as(const std::string &path);
  void revert();
  void ask_revert();
  void quit();
  void counts();

  outline &o_;
  screen &s_;
  options given_;
  caret caret_;
  std::size_t column_ = 0; /* where up and down lead */
  bool keeps_column_ = false;
  std::vector<std::pair<caret, caret>> steps_; /* of each step where the caret was before it and behind it */
  std::optional<question> asked_;
  std::string message_, searched_, pasted_;
  bool pastes_ = false, has_ended_ = false, has_failed_ = false;
  unsigned edits_ = 0; /* since the last commit */
  unsigned long keys_ = 0;
  std::uint64_t looked_at_ = 0;
  std::chrono::steady_clock::time_point last_key_ = std::chrono::steady_clock::now();
};

} // namespace notes
#endif
