/*
** geosvm_types.hpp: what geosvm.hpp hands over and takes: faults as std::error_code has them, handles, bytes and places.
** Include geosvm.hpp.
*/
#ifndef GEOSVM_TYPES_HPP
#define GEOSVM_TYPES_HPP
#include "geosvm.h"
#include <cerrno>
#include <cstdint>
#include <cstring>
#include <filesystem>
#include <functional>
#include <string>
#include <string_view>
#include <system_error>
#include <type_traits>
#include <utility>
#include <vector>

namespace geosvm {

/* Faults. */

enum class fault : std::int32_t {
  memory = GEOSVM_MEMORY, file = GEOSVM_FILE, damaged = GEOSVM_DAMAGED, not_document = GEOSVM_NOT_DOCUMENT,
  no_block = GEOSVM_NO_BLOCK, no_chunk = GEOSVM_NO_CHUNK, wrong_kind = GEOSVM_WRONG_KIND, full = GEOSVM_FULL,
  too_big = GEOSVM_TOO_BIG, no_handles = GEOSVM_NO_HANDLES, range = GEOSVM_RANGE, not_array = GEOSVM_NOT_ARRAY,
  no_element = GEOSVM_NO_ELEMENT, count_full = GEOSVM_COUNT_FULL, no_name = GEOSVM_NO_NAME,
  name_in_use = GEOSVM_NAME_IN_USE, bad_chain = GEOSVM_BAD_CHAIN, is_map = GEOSVM_IS_MAP, locked = GEOSVM_LOCKED,
  not_locked = GEOSVM_NOT_LOCKED, cache_full = GEOSVM_CACHE_FULL, nothing_to_undo = GEOSVM_NOTHING_TO_UNDO,
  nothing_to_redo = GEOSVM_NOTHING_TO_REDO, no_target = GEOSVM_NO_TARGET, bad_command = GEOSVM_BAD_COMMAND,
  lock_limit = GEOSVM_LOCK_LIMIT, worn = GEOSVM_WORN, group_open = GEOSVM_GROUP_OPEN, no_group = GEOSVM_NO_GROUP,
  not_open = GEOSVM_NOT_OPEN, open_already = GEOSVM_OPEN_ALREADY, bad_argument = GEOSVM_BAD_ARGUMENT,
  cut_off = GEOSVM_CUT_OFF, untold = GEOSVM_UNTOLD
};

/* The sentence of a fault. A group that is given up within one isn't known to the library. */
inline const char *sentence_of(fault f) noexcept {
  if (f == fault::no_group) return "no group is open, or it was given up within";
  return geosvm_code_text(static_cast<std::int32_t>(f));
}

/* Why a call answered fault::file: the error of the call on a file that failed last in this thread. */
inline std::error_code last_error() noexcept { return {geosvm_last_error(), std::generic_category()}; }

/* The name of a fault, as "NothingToUndo"; none for those from 100 on. */
inline std::string name_of(fault f) {
  std::uint8_t name[16];
  std::size_t length = 0;
  if (geosvm_fault_name(static_cast<std::int32_t>(f), name, sizeof name, &length) != GEOSVM_OK) return {};
  return std::string(reinterpret_cast<const char *>(name), length);
}

class fault_category final : public std::error_category {
public:
  const char *name() const noexcept override { return "geosvm"; }
  /* "Full: the heap would need more than 65,520 bytes" */
  std::string message(int code) const override {
    const std::string name = name_of(static_cast<fault>(code));
    return (name.empty() ? name : name + ": ") + sentence_of(static_cast<fault>(code));
  }
  std::error_condition default_error_condition(int code) const noexcept override {
    if (code == GEOSVM_MEMORY) return std::errc::not_enough_memory;
    if (code == GEOSVM_FILE) return std::errc::io_error;
    return std::error_condition(code, *this);
  }
};
inline const std::error_category &category() noexcept {
  static const fault_category the_category;
  return the_category;
}
inline std::error_code make_error_code(fault f) noexcept { return {static_cast<int>(f), category()}; }

class error : public std::system_error {
public:
  using std::system_error::system_error;
};

/* Where a call tells how it went: in a std::error_code, or, where none was passed, by throwing geosvm::error. */
class report {
public:
  report() noexcept = default;
  report(std::error_code &to) noexcept : to_(&to) { to.clear(); }
  /* Whether it went well. */
  bool tell(const std::error_code &code) const {
    if (code && to_ == nullptr) throw path_ == nullptr ? error(code) : error(code, path_->string());
    if (code) *to_ = code;
    return !code;
  }
  bool tell(std::int32_t code) const { return code == GEOSVM_OK || tell(make_error_code(static_cast<fault>(code))); }
  /* It is of a path, which is told with an error that is thrown. */
  report of(const std::filesystem::path &path) const noexcept {
    report r = *this;
    r.path_ = &path;
    return r;
  }

private:
  std::error_code *to_ = nullptr;
  const std::filesystem::path *path_ = nullptr;
};

/* Handles, bytes and what is told. */

/* A handle, which is a number of its own kind. 0 is none, and is false. */
template <class Kind> class handle {
public:
  constexpr handle() noexcept = default;
  constexpr explicit handle(std::uint16_t number) noexcept : number_(number) {}
  constexpr std::uint16_t number() const noexcept { return number_; }
  constexpr explicit operator bool() const noexcept { return number_ != 0; }
  friend constexpr bool operator==(handle a, handle b) noexcept { return a.number_ == b.number_; }
  friend constexpr bool operator!=(handle a, handle b) noexcept { return a.number_ != b.number_; }
  friend constexpr bool operator<(handle a, handle b) noexcept { return a.number_ < b.number_; }
  friend constexpr bool operator>(handle a, handle b) noexcept { return b < a; }
  friend constexpr bool operator<=(handle a, handle b) noexcept { return !(b < a); }
  friend constexpr bool operator>=(handle a, handle b) noexcept { return !(a < b); }

private:
  std::uint16_t number_ = 0;
};
using block = handle<struct kind_of_block>;
using chunk = handle<struct kind_of_chunk>;
using token = handle<struct kind_of_token>;
using bytes = std::vector<unsigned char>;

/* Bytes that lie elsewhere, and have to stay there: of a text, a vector, an array, a std::span, or whatever has `data`
   and `size`. An array of char is a text, which ends before its first zero. */
class bytes_view {
public:
  bytes_view() noexcept = default;
  bytes_view(const void *first, std::size_t size) noexcept { set(first, size); }
  bytes_view(const char *text) noexcept { set(text, std::strlen(text)); }
  template <std::size_t Size> bytes_view(const unsigned char (&array)[Size]) noexcept { set(array, Size); }
  template <class Bytes, class Byte = std::remove_reference_t<decltype(*std::declval<const Bytes &>().data())>,
            class = std::enable_if_t<sizeof(Byte) == 1 && std::is_trivially_copyable_v<Byte>>>
  bytes_view(const Bytes &all) noexcept { set(all.data(), all.size()); }

  /* Never null, as geosvm.h wants it. */
  const unsigned char *data() const noexcept { return first_; }
  std::size_t size() const noexcept { return size_; }
  bool empty() const noexcept { return size_ == 0; }
  const unsigned char *begin() const noexcept { return first_; }
  const unsigned char *end() const noexcept { return first_ + size_; }
  const unsigned char &operator[](std::size_t at) const noexcept { return first_[at]; }
  std::string_view text() const noexcept { return {reinterpret_cast<const char *>(first_), size_}; }
  friend bool operator==(bytes_view a, bytes_view b) noexcept { return a.text() == b.text(); }
  friend bool operator!=(bytes_view a, bytes_view b) noexcept { return a.text() != b.text(); }

private:
  void set(const void *first, std::size_t size) noexcept {
    if (first == nullptr) return;
    first_ = static_cast<const unsigned char *>(first);
    size_ = size;
  }
  static constexpr unsigned char none[1] = {0};
  const unsigned char *first_ = none;
  std::size_t size_ = 0;
};

struct block_info {
  bool is_heap = false;
  std::uint16_t user_id = 0;
  std::uint32_t size = 0;
};

/* Whether the document is as it was saved, and as it was updated. */
struct standing {
  bool as_saved = false, as_updated = false;
};

enum class place_kind : std::uint8_t {
  all = GEOSVM_PLACE_ALL, map_block = GEOSVM_PLACE_MAP_BLOCK, attributes = GEOSVM_PLACE_ATTRIBUTES,
  whole_block = GEOSVM_PLACE_BLOCK, whole_chunk = GEOSVM_PLACE_CHUNK, run = GEOSVM_PLACE_RUN
};

/* A place of the document that was changed, as geosvm_place. */
struct place {
  place_kind kind;
  geosvm::block block;
  geosvm::chunk chunk;
  std::uint32_t at, before, after;
  friend bool operator==(const place &a, const place &b) noexcept {
    return a.kind == b.kind && a.block == b.block && a.chunk == b.chunk && a.at == b.at && a.before == b.before &&
           a.after == b.after;
  }
  friend bool operator!=(const place &a, const place &b) noexcept { return !(a == b); }
};

/* The version of the library that is linked; GEOSVM_VERSION is that of the header. */
inline const char *version() noexcept { return geosvm_version(); }

} // namespace geosvm
#endif
