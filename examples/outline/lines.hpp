/* lines.hpp: characters of UTF-8 text, how wide they are, and text in lines of some width. It knows no document. */
#ifndef LINES_HPP
#define LINES_HPP
#include <algorithm>
#include <cstddef>
#include <string>
#include <string_view>
#include <vector>
#include <wchar.h>

namespace notes {

struct character {
  wchar_t code;     /* U+FFFD of a byte that is no UTF-8 */
  std::size_t size; /* bytes */
  bool is_control() const noexcept { return code < 32 || code == 127; }
  int columns() const noexcept { return is_control() || ::wcwidth(code) < 0 ? 1 : ::wcwidth(code); }
};

/* The character at a place before the end. */
inline character character_at(std::string_view text, std::size_t at) {
  static const unsigned long least[] = {0, 0, 0x80, 0x800, 0x10000};
  const unsigned char first = static_cast<unsigned char>(text[at]);
  const std::size_t size = first < 0x80 ? 1 : first >= 0xf0 ? 4 : first >= 0xe0 ? 3 : first >= 0xc0 ? 2 : 0;
  if (size == 1) return {static_cast<wchar_t>(first), 1};
  if (size == 0 || first > 0xf4 || text.size() - at < size) return {0xfffd, 1};
  unsigned long code = first & (0x7fu >> size);
  for (std::size_t i = 1; i < size; i++) {
    const unsigned char byte = static_cast<unsigned char>(text[at + i]);
    if ((byte & 0xc0) != 0x80) return {0xfffd, 1};
    code = code << 6 | (byte & 0x3f);
  }
  if (code < least[size] || code > 0x10ffff || (code >= 0xd800 && code < 0xe000)) return {0xfffd, 1};
  return {static_cast<wchar_t>(code), size};
}

/* The place behind the character at one, with the marks that stand over it; the end where it stands there. */
inline std::size_t behind(std::string_view text, std::size_t at) {
  if (at < text.size()) at += character_at(text, at).size;
  while (at < text.size() && character_at(text, at).columns() == 0)
    at += character_at(text, at).size;
  return at;
}
/* The place before the character that ends at one, with its marks. */
inline std::size_t before(std::string_view text, std::size_t at) {
  while (at > 0) {
    std::size_t start = at - 1;
    for (std::size_t size = 2; size <= std::min<std::size_t>(at, 4); size++)
      if (character_at(text, at - size).size == size) start = at - size;
    at = start;
    if (character_at(text, at).columns() > 0) break;
  }
  return at;
}

inline std::string utf8_of(wchar_t wide) {
  static const unsigned long leads[] = {0, 0xc0, 0xe0, 0xf0};
  const auto code = static_cast<unsigned long>(wide);
  const unsigned more = code < 0x80 ? 0 : code < 0x800 ? 1 : code < 0x10000 ? 2 : 3;
  std::string text(1, static_cast<char>(leads[more] | code >> 6 * more));
  for (unsigned i = more; i > 0; i--) text += static_cast<char>(0x80 | (code >> 6 * (i - 1) & 0x3f));
  return text;
}

inline std::size_t columns_of(std::string_view text) {
  std::size_t columns = 0;
  for (std::size_t at = 0; at < text.size(); at += character_at(text, at).size)
    columns += static_cast<std::size_t>(character_at(text, at).columns());
  return columns;
}

/* What a terminal is given of a text: blanks for tabs, dots for other controls. */
inline std::wstring shown_of(std::string_view text) {
  std::wstring shown;
  for (std::size_t at = 0; at < text.size(); at += character_at(text, at).size) {
    const character c = character_at(text, at);
    shown += c.code == '\t' ? L' ' : c.is_control() ? L'\u00b7' : ::wcwidth(c.code) < 0 ? L'\ufffd' : c.code;
  }
  return shown;
}

struct line {
  std::size_t begin, end; /* without the line feed */
};

/* Where the line ends that begins here: behind a blank where it can be, which may itself stand behind the last column,
   and behind one character at least. */
inline std::size_t end_of_line(std::string_view text, std::size_t begin, std::size_t most) {
  std::size_t columns = 0, blank = begin;
  for (std::size_t at = begin; at < text.size();) {
    if (text[at] == '\n') return at;
    const character c = character_at(text, at);
    columns += static_cast<std::size_t>(c.columns());
    if (columns > most && at > begin) return c.code == ' ' ? at + 1 : blank > begin ? blank : at;
    at += c.size;
    if (c.code == ' ') blank = at;
  }
  return text.size();
}
/* A text in lines of at most so many columns, one at least. */
inline std::vector<line> lines_of(std::string_view text, std::size_t most) {
  std::vector<line> lines;
  for (std::size_t at = 0;; at = lines.back().end + (text[lines.back().end] == '\n')) {
    lines.push_back({at, end_of_line(text, at, most)});
    if (lines.back().end == text.size()) return lines;
  }
}
/* The number of the line in which a place stands. */
inline std::size_t line_at(const std::vector<line> &lines, std::size_t place) {
  const auto begins_behind = [](std::size_t p, line l) { return p < l.begin; };
  const auto next = std::upper_bound(lines.begin(), lines.end(), place, begins_behind);
  return static_cast<std::size_t>(next - lines.begin()) - 1;
}

} // namespace notes
#endif
