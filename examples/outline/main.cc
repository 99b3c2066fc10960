/* An editor for outlines of notes, on a terminal, over geosvm.hpp. README.md beside it has its keys, and its design.

       outline [--pause SECONDS] [--every EDITS] [--log FILE] FILE
       outline --print FILE */
#include "editor.hpp"
#include <clocale>
#include <csignal>
#include <iostream>
#include <langinfo.h>
#include <poll.h>
#define NCURSES_NOMACROS
#include <curses.h>

namespace {

volatile std::sig_atomic_t is_told_to_leave = 0;
void told_to_leave(int) { is_told_to_leave = 1; }

/* SIGTERM, SIGHUP and SIGINT come only while a key is waited for, under this mask. */
sigset_t catch_signals() {
  sigset_t blocked, waiting;
  sigemptyset(&blocked);
  struct sigaction action = {};
  action.sa_handler = told_to_leave;
  for (const int number : {SIGTERM, SIGHUP, SIGINT}) {
    sigaddset(&blocked, number);
    sigaction(number, &action, nullptr);
  }
  sigprocmask(SIG_BLOCK, &blocked, &waiting);
  for (const int number : {SIGTERM, SIGHUP, SIGINT}) sigdelset(&waiting, number);
  return waiting;
}

/* Sequences that not every description of a terminal has. */
void define_sequences() {
  ::define_key("\033[1;3A", notes::number_move_up);
  ::define_key("\033[1;3B", notes::number_move_down);
  ::define_key("\033[1;5A", notes::number_move_up);
  ::define_key("\033[1;5B", notes::number_move_down);
  ::define_key("\033[200~", notes::number_paste);
  ::define_key("\033[201~", notes::number_paste_end);
}

int key_of(wint_t code, bool is_special) {
  if (is_special) return code == KEY_ENTER ? '\r' : notes::special(static_cast<int>(code));
  return code == 127 || code == 8 ? notes::special(KEY_BACKSPACE) : static_cast<int>(code);
}

/* Keys that have come, then what they changed is drawn, then the next key is waited for, or a pause, or a signal. */
void run(notes::editor &e, const sigset_t &waiting) {
  while (!e.has_ended()) {
    wint_t code;
    for (int kind; !e.has_ended() && (kind = ::get_wch(&code)) != ERR;) e.key(key_of(code, kind == KEY_CODE_YES));
    if (e.has_ended()) return;
    e.draw();
    const int left = e.until_pause();
    const timespec time = {left / 1000, left % 1000 * 1000000L};
    pollfd input = {0, POLLIN, 0};
    const int came = ::ppoll(&input, 1, left < 0 ? nullptr : &time, &waiting);
    if (is_told_to_leave || (input.revents & (POLLHUP | POLLERR)) != 0) e.leave();
    else if (came == 0) e.update();
  }
}

/* Whatever ends it, the terminal is given back, and what can still be updated is. */
void edit(const notes::options &given) {
  if (!isatty(0) || !isatty(1)) throw std::runtime_error("it needs a terminal");
  notes::outline o(given.path);
  const sigset_t waiting = catch_signals();
  notes::screen s(o);
  define_sequences();
  notes::editor e(o, s, given);
  try {
    run(e, waiting);
  } catch (...) {
    if (!e.has_ended()) e.leave();
    throw;
  }
}

/* A line for each note: a tab for each level, - or + where it is folded, and its text. */
void print(const std::string &path) {
  notes::outline o = notes::outline::at(path);
  for (notes::ref r = o.first(o.root()); r; r = o.following(r)) {
    std::cout << std::string(o.depth(r), '\t') << (o.is_folded(r) ? "+ " : "- ");
    for (const char c : o.text(r)) c == '\n' ? std::cout << "\\n" : c == '\\' ? std::cout << "\\\\" : std::cout << c;
    std::cout << '\n';
    o.seen().trim(4096);
  }
}

int usage() {
  std::cerr << "usage: outline [--pause SECONDS] [--every EDITS] [--log FILE] FILE\n       outline --print FILE\n";
  return 2;
}

} // namespace

int main(int count, char **words) {
  notes::options given;
  bool prints = false;
  int at = 1;
  try {
    for (; at < count && words[at][0] == '-'; at++) {
      const std::string word = words[at];
      if (word == "--print") prints = true;
      else if (at + 1 == count) return usage();
      else if (word == "--pause") given.pause = std::stod(words[++at]);
      else if (word == "--every") given.every = static_cast<unsigned>(std::stoul(words[++at]));
      else if (word == "--log") given.log = words[++at];
      else return usage();
    }
  } catch (const std::logic_error &) { return usage(); }
  if (at + 1 != count || !(given.pause >= 0 && given.pause < 1e6)) return usage();
  given.path = words[at];
  std::setlocale(LC_ALL, "");
  if (std::string(::nl_langinfo(CODESET)) != "UTF-8") std::setlocale(LC_CTYPE, "C.UTF-8");
  try {
    if (prints) print(given.path);
    else edit(given);
    return 0;
  } catch (const geosvm::error &e) {
    std::cerr << "outline: " << given.path << ": " << notes::in_words(e.code()) << '\n';
  } catch (const notes::not_an_outline &e) {
    std::cerr << "outline: " << given.path << ": it is no outline: " << e.what() << '\n';
  } catch (const std::exception &e) {
    std::cerr << "outline: " << e.what() << '\n';
  }
  return 1;
}
