/* copies.hpp: copies of the chunks of a document that a program has looked at, kept by what `touched` tells.

   After each accepted edit, undo, redo, abandon and revert `follow` is called, once. It looks again at the places that
   are told, and only at those of which there is a copy: what nobody has looked at is read when it is asked for. */
#ifndef COPIES_HPP
#define COPIES_HPP
#include <geosvm.hpp>
#include <unordered_map>

namespace notes {

/* Where a chunk lies. None is false. */
struct ref {
  geosvm::block block;
  geosvm::chunk chunk;
  explicit operator bool() const noexcept { return static_cast<bool>(block); }
  friend bool operator==(ref a, ref b) noexcept { return a.block == b.block && a.chunk == b.chunk; }
  friend bool operator!=(ref a, ref b) noexcept { return !(a == b); }
  std::uint32_t key() const noexcept { return std::uint32_t{block.number()} << 16 | chunk.number(); }
};

struct copy {
  std::string bytes;
  std::string unknown; /* of each byte 1 where it is to be looked at again, else 0 */
  std::uint64_t stamp; /* another one after each look: who keeps something made of the bytes sees that it is old */
};

class copies {
public:
  explicit copies(geosvm::session &session) : session_(session) {}
  copies(const copies &) = delete;
  copies &operator=(const copies &) = delete;

  /* The copy of a chunk, which stays until the next `follow`, `clear` or `trim`. */
  const copy &of(ref r) {
    const auto found = all_.find(r.key());
    if (found != all_.end()) return found->second;
    const geosvm::bytes bytes = session_.read(r.block, r.chunk);
    looked_at_ += bytes.size();
    return all_[r.key()] = {std::string(bytes.begin(), bytes.end()), std::string(bytes.size(), 0), ++stamps_};
  }
  /* Where it isn't told what changed, as without memory, nothing is known any more. */
  void follow() {
    std::error_code failed;
    const std::vector<geosvm::place> places = session_.touched(failed);
    if (failed) return clear();
    try {
      for (const geosvm::place &p : places) mark(p);
      for (const geosvm::place &p : places) look({p.block, p.chunk});
    } catch (...) {
      clear();
      throw;
    }
  }
  void clear() { all_.clear(); }
  void trim(std::size_t most) { if (all_.size() > most) clear(); }
  /* How many bytes were looked at so far. */
  std::uint64_t looked_at() const noexcept { return looked_at_; }

private:
  /* A place becomes unknown, in the coordinates behind the places that were told before it. */
  void mark(const geosvm::place &p) {
    const ref r{p.block, p.chunk};
    if (p.kind == geosvm::place_kind::all) clear();
    else if (p.kind == geosvm::place_kind::whole_block)
      for (auto i = all_.begin(); i != all_.end();)
        i = i->first >> 16 == p.block.number() ? all_.erase(i) : std::next(i);
    else if (p.kind == geosvm::place_kind::whole_chunk) all_.erase(r.key());
    const auto found = all_.find(r.key());
    if (p.kind != geosvm::place_kind::run || found == all_.end()) return;
    copy &kept = found->second;
    kept.bytes.replace(p.at, p.before, p.after, 0);
    kept.unknown.replace(p.at, p.before, p.after, 1);
    kept.stamp = ++stamps_;
  }
  /* What is unknown of a copy is taken from the document as it is now. */
  void look(ref r) {
    const auto found = all_.find(r.key());
    if (found == all_.end()) return;
    copy &kept = found->second;
    std::size_t at = kept.unknown.find(1);
    if (at == std::string::npos) return;
    const geosvm::locked_block lock(session_, r.block);
    const std::string_view bytes = lock.read(r.chunk).text();
    while (at != std::string::npos) {
      const std::size_t end = std::min(kept.unknown.find('\0', at), bytes.size());
      kept.bytes.replace(at, end - at, bytes, at, end - at);
      kept.unknown.replace(at, end - at, end - at, 0);
      looked_at_ += end - at;
      at = kept.unknown.find(1, end);
    }
  }

  geosvm::session &session_;
  std::unordered_map<std::uint32_t, copy> all_;
  std::uint64_t stamps_ = 0, looked_at_ = 0;
};

} // namespace notes
#endif
