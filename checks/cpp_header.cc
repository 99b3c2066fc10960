/* Tries embedding/geosvm.hpp: each member, each fault that can be made, sessions that move, groups that are given up by
   an exception, files by their paths, and 2,000 edits by chance beside a model, undone and redone. It runs in an empty
   folder, and prints what failed.

       cpp_header           runs all of it
       cpp_header --faults  prints the number and the sentence of each fault */
#include <geosvm.hpp>

#include <array>
#include <csignal>
#include <fstream>
#include <iterator>
#include <map>
#include <optional>
#include <random>
#include <set>
#include <stdexcept>
#include <sys/resource.h>
#include <sys/syscall.h>
#include <unordered_set>
#if __cplusplus >= 202002L
#include <span>
#endif

using geosvm::block;
using geosvm::bytes;
using geosvm::bytes_view;
using geosvm::chunk;
using geosvm::fault;
using geosvm::group;
using geosvm::locked_block;
using geosvm::place_kind;
using geosvm::session;
using geosvm::token;

static int count_passed = 0, count_failed = 0;

static void must(bool is_so, const char *what, int line) {
  if (is_so) count_passed++;
  else count_failed++, std::printf("FAILED  line %d: %s\n", line, what);
}
#define MUST(is_so) must(is_so, #is_so, __LINE__)

/* A call is refused with a fault in both forms: it is passed a std::error_code, and then nothing. */
static std::set<int> faults_met;
template <class Call> static void refused(const std::error_code &wanted, Call call, const char *what, int line) {
  std::error_code told, thrown;
  call(told);
  must(told == wanted, what, line);
  try {
    call();
  } catch (const geosvm::error &e) {
    thrown = e.code();
  }
  must(thrown == wanted, what, line);
  if (told.category() == geosvm::category()) faults_met.insert(told.value());
}
#define REFUSED(code, call) refused(code, [&](auto &...to) { (void)(call); }, #call, __LINE__)

static bool is(const bytes_view &got, std::string_view wanted) { return got.text() == wanted; }

static const std::error_code in_use = make_error_code(std::errc::resource_unavailable_try_again);

static std::string whole_file(const std::string &path) {
  std::ifstream file(path, std::ios::binary);
  return std::string(std::istreambuf_iterator<char>(file), {});
}
static void put_file(const std::string &path, const std::string &all) { std::ofstream(path, std::ios::binary) << all; }

/* The order of calls that bring files to the disk: `f` and `d` for the sync of a file and of a folder, `r` for a
   rename. One of them may fail. */
static std::string order;
static char failing = 0;

static bool is_made(char call) {
  order += call;
  if (call == failing) errno = EIO;
  return call != failing;
}
extern "C" int fsync(int number) {
  struct stat status;
  if (!is_made(::fstat(number, &status) == 0 && S_ISDIR(status.st_mode) ? 'd' : 'f')) return -1;
  return static_cast<int>(::syscall(SYS_fsync, number));
}
extern "C" int rename(const char *from, const char *to) noexcept {
  return is_made('r') ? static_cast<int>(::syscall(SYS_rename, from, to)) : -1;
}

/* Codes */

static const fault all_faults[] = {
  fault::memory, fault::file, fault::damaged, fault::not_document, fault::no_block, fault::no_chunk,
  fault::wrong_kind, fault::full, fault::too_big, fault::no_handles, fault::range, fault::not_array,
  fault::no_element, fault::count_full, fault::no_name, fault::name_in_use, fault::bad_chain, fault::is_map,
  fault::locked, fault::not_locked, fault::cache_full, fault::nothing_to_undo, fault::nothing_to_redo,
  fault::no_target, fault::bad_command, fault::lock_limit, fault::worn, fault::group_open, fault::no_group,
  fault::not_open, fault::open_already, fault::bad_argument, fault::cut_off, fault::untold};

static void print_faults() {
  for (const fault f : all_faults) std::printf("%d %s\n", static_cast<int>(f), geosvm::sentence_of(f));
}

static void codes() {
  const std::error_code code = fault::full;
  MUST(code == fault::full && code != fault::range && code.value() == GEOSVM_FULL);
  MUST(std::string(code.category().name()) == "geosvm");
  MUST(code.message() == "Full: the heap would need more than 65,520 bytes");
  MUST(std::error_code(fault::not_open).message() == "the session is closed");
  MUST(make_error_code(fault::memory) == std::errc::not_enough_memory);
  MUST(make_error_code(fault::file) == std::errc::io_error);
  MUST(geosvm::name_of(fault::nothing_to_undo) == "NothingToUndo" && geosvm::name_of(fault::untold).empty());
  MUST(geosvm::category().message(77) == "no code has this number");
  for (int i = 1; i <= GEOSVM_NO_GROUP; i++) MUST(static_cast<int>(all_faults[i - 1]) == i);
  MUST(std::string(geosvm::version()) == GEOSVM_VERSION);
  std::error_code failed;
  session::open(199, 8, failed);
  MUST(failed == fault::file && geosvm::last_error() == std::errc::bad_file_descriptor);
  try {
    session().undo();
    MUST(false);
  } catch (const std::system_error &e) {
    MUST(e.code() == fault::not_open && std::string(e.what()) == "the session is closed");
  }
}

/* Handles and bytes */

static_assert(!std::is_convertible_v<block, chunk> && !std::is_convertible_v<std::uint16_t, block>);
static_assert(!std::is_copy_constructible_v<session> && !std::is_copy_assignable_v<session>);
static_assert(std::is_nothrow_move_constructible_v<session> && std::is_nothrow_move_assignable_v<session>);
static_assert(std::is_nothrow_move_constructible_v<locked_block> && !std::is_copy_constructible_v<locked_block>);
static_assert(!std::is_move_constructible_v<group>);
static_assert(!std::is_convertible_v<std::vector<int>, bytes_view> && std::is_convertible_v<bytes, bytes_view>);

static void handles_and_bytes() {
  const std::unordered_set<block> blocks = {block(1), block(2), block(1)};
  MUST(blocks.size() == 2 && block(1) < block(2) && block(2) >= block(1) && block(1) != block(2));
  MUST(!block() && token(5));
  const unsigned char array[] = {1, 0, 3};
  const std::array<char, 2> two = {'a', 'b'};
  MUST(is(bytes_view(array), std::string_view("\1\0\3", 3)) && is("abc", "abc") && is(two, "ab"));
  MUST(is(std::string("a\0b", 3), std::string_view("a\0b", 3)));
  MUST(is(std::string_view("ab"), "ab") && is(bytes{97}, "a"));
  MUST(bytes_view().data() != nullptr && bytes_view(bytes()).data() != nullptr && bytes_view(nullptr, 0).empty());
  MUST(bytes_view("ab")[1] == 'b' && bytes_view("a") != bytes_view("b"));
#if __cplusplus >= 202002L
  const std::array<std::byte, 2> parts = {std::byte{97}, std::byte{98}};
  const std::span<const unsigned char> lent = bytes_view("abc");
  MUST(is(std::span<const std::byte>(parts), "ab") && is(lent, "abc") && lent.size() == 3);
#endif
}

/* Members, in the order of geosvm.h */

static void blocks_and_chunks(session &s) {
  const block heap = s.newheap(7), raw = s.newraw(9, 5);
  MUST(s.list() == (std::vector<block>{heap, raw}) && s.find(9) == raw && !s.find(9, raw) && !s.mapblock());
  s.vwrite(raw, 1, "xyz");
  s.vsplice(raw, 0, 1, "ab");
  MUST(is(s.vread(raw), std::string_view("abxyz\0", 6)));
  s.attach(raw, "all");
  const block copy = s.vcopy(raw);
  session second = session::create("second.document");
  const block there = second.copy_block(s, raw);
  MUST(second.vread(there) == s.vread(raw) && second.info(there).user_id == s.info(raw).user_id);
  second.undo();
  MUST(second.list().empty());
  second.close();
  MUST(is(s.vread(copy), "all"));
  s.vfree(copy);
  s.uid(heap, 8);
  s.settype(heap, 3);
  s.map(heap);
  MUST(s.mapblock() == heap && s.gettype(heap) == 3);
  MUST(s.info(heap).is_heap && s.info(heap).user_id == 8 && s.info(raw).size == 3 && !s.info(raw).is_heap);
  s.map({});
  const chunk c = s.alloc(heap, 3), other = s.alloc(heap, 1);
  MUST(s.chunks(heap) == (std::vector<chunk>{c, other}));
  s.free(heap, other);
  s.write(heap, c, 0, "abc");
  s.insert(heap, c, 1, 2);
  s.erase(heap, c, 1, 1);
  s.resize(heap, c, 5);
  s.splice(heap, c, 1, 1, "--");
  MUST(is(s.read(heap, c), std::string_view("a--bc\0", 6)));
  s.write(heap, c, 0, {});
  const chunk large = s.alloc(heap, 40000);
  MUST(s.read(heap, large).size() == 40000);
}

static void arrays(session &s) {
  const block heap = s.newheap(1);
  const chunk array = s.acreate(heap, 0, 2), elements = s.ecreate(heap, 0), names = s.ncreate(heap, 1);
  s.ainsert(heap, array, 0, "one");
  s.ainsert(heap, array, 1, "two");
  s.aset(heap, array, 1, "three");
  s.aresize(heap, array, 0, 1);
  MUST(s.acount(heap, array) == 2 && is(s.aget(heap, array, 0), "o") && is(s.aget(heap, array, 1), "three"));
  s.adelete(heap, array, 0, 1);
  s.azero(heap, array);
  MUST(s.acount(heap, array) == 0);
  const token t = s.eadd(heap, elements, "bold");
  s.eref(heap, elements, t);
  MUST(s.eadd(heap, elements, "bold") == t && s.ecount(heap, elements, t) == 3 && s.eused(heap, elements) == 1);
  s.eunref(heap, elements, t);
  s.echange(heap, elements, t, "thin");
  MUST(is(s.edata(heap, elements, t), "thin") && s.etoken(heap, elements, 0) == t && s.eindex(heap, elements, t) == 0);
  s.edelete(heap, elements, t);
  const token n = s.nadd(heap, names, "Body", "1", true);
  s.nname(heap, names, n, "Text");
  s.nset(heap, names, n, "2");
  MUST(s.nfind(heap, names, "Text") == n && s.ncount(heap, names, n) == 1);
  MUST(is(s.ntext(heap, names, n), "Text") && is(s.ndata(heap, names, n), "2"));
  s.nunref(heap, names, n);
}

static void chains(session &s) {
  const unsigned char end[] = {0, 0, 'a'};
  const block last = s.newraw(2, 3), first = s.newraw(2, 2);
  s.vwrite(last, 0, end);
  MUST(last.number() < 256);
  s.vwrite(first, 0, std::string(1, static_cast<char>(last.number())));
  MUST(s.walk(first) == (std::vector<block>{first, last}) && s.chsize(first) == 5);
  const block copy = s.chcopy(first);
  MUST(s.chequal(first, copy) && !s.chequal(first, last));
  s.chfree(copy);
}

static void large_arrays(session &s) {
  const block text = s.hcreate(3, 1), lines = s.hcreate(3, 0);
  s.hinsert(text, 0, std::string(70000, 'x'));
  s.hset(text, 65509, "ab");
  s.hdelete(text, 0, 65508);
  MUST(s.hcount(text) == 4492 && is(s.hread(text, 0, 4), "xabx") && is(s.hget(text, 1), "a"));
  s.undo();
  MUST(s.hcount(text) == 70000 && s.hread(text, 1, 65520).size() == 65520 && s.walk(text).size() == 3);
  s.hinsert(lines, 0, "one");
  s.hinsert(lines, 1, {});
  MUST(s.hcount(lines) == 2 && is(s.hget(lines, 0), "one") && s.hget(lines, 1).empty());
  REFUSED(fault::range, s.hread(lines, 0, 1, to...));
  REFUSED(fault::range, s.hinsert(text, 70001, "x", to...));
  REFUSED(fault::range, s.hcreate(3, std::size_t{1} << 32, to...));
  REFUSED(fault::no_element, s.hget(text, std::size_t{1} << 32, to...));
  REFUSED(fault::no_element, s.hdelete(text, 0, std::size_t{1} << 32, to...));
  REFUSED(fault::no_element, s.hset(text, 70000, "x", to...));
  REFUSED(fault::too_big, s.hinsert(lines, 0, std::string(65509, 'x'), to...));
  REFUSED(fault::not_array, s.hcount(s.newraw(3, 1), to...));
  s.lock(text);
  REFUSED(fault::locked, s.hset(text, 0, "y", to...));
  s.unlock(text);
}

static void steps(session &s) {
  const block raw = s.newraw(4, 1);
  s.name("Make");
  MUST(is(s.undo_name(), "Make"));
  s.vwrite(raw, 0, "a");
  s.vwrite(raw, 0, "b");
  s.join();
  const std::size_t before = s.undos();
  const auto places = s.undo_places();
  MUST(places.size() == 2 && places[0].kind == place_kind::run && places[0].block == raw && places[0].after == 1);
  s.undo();
  MUST(s.touched() == places && s.undos() == before - 1);
  MUST(s.redos() == 1 && s.redo_places().size() == 2 && s.redo_name().empty());
  s.redo();
  MUST(is(s.vread(raw), "b"));
  s.begin();
  s.vwrite(raw, 0, "c");
  MUST(s.abandon_places().size() == 1);
  s.abandon();
  s.begin();
  s.vwrite(raw, 0, "d");
  s.end();
  MUST(s.undos() == before + 1 && is(s.vread(raw), "d"));
  s.forget(2);
  MUST(s.undos() == 2);
  s.limit_undo(1);
  s.vwrite(raw, 0, "e");
  MUST(s.undos() == 1);
  s.limit_undo(0);
  s.update();
  MUST(!s.modified().as_saved && s.modified().as_updated);
  s.save();
  MUST(s.modified().as_saved);
  s.vwrite(raw, 0, "f");
  s.revert();
  MUST(is(s.vread(raw), "e") && s.undos() == 0);
}

static void locks(session &s) {
  const block raw = s.newraw(5, 3), heap = s.newheap(5);
  const chunk c = s.alloc(heap, 2);
  s.lock(raw);
  s.lock(raw);
  s.dirty(raw);
  MUST(s.locks(raw) == 2 && s.locked_raw(raw).size() == 3);
  s.unlock(raw);
  {
    locked_block l(s, heap), m(s, raw);
    s.write(heap, c, 0, "hi");
    l.dirty();
    MUST(is(l.read(c), "hi") && m.vread().size() == 3 && is(s.locked_chunk(heap, c), "hi") && l.handle() == heap);
    locked_block moved(std::move(l));
    MUST(!l.is_locked() && moved.is_locked() && s.locks(heap) == 1);
    REFUSED(fault::not_locked, l.read(c, to...));
    m = std::move(moved);
    MUST(s.locks(raw) == 1 && s.locks(heap) == 1 && is(m.read(c), "hi"));
    m.unlock();
    REFUSED(fault::not_locked, m.unlock(to...));
    MUST(s.locks(heap) == 0);
    std::error_code refusal;
    const locked_block none(s, block(999), refusal);
    MUST(refusal == fault::no_block && !none.is_locked());
  }
  s.unlock(raw);
  MUST(s.locks(raw) == 0);
  const std::string root_digits = s.command("hcreate 5 2").substr(6, 4);
  const block root(static_cast<std::uint16_t>(std::stoul(root_digits, nullptr, 16)));
  MUST(s.command("hinsert " + root_digits + " 0 61626364") == "ok\n");
  block has_it;
  MUST(is(s.lock_run(root, 1, has_it), "cd") && s.locks(has_it) == 1);
  {
    bytes_view elements, none;
    const locked_block l(s, root, 0, elements);
    MUST(l.is_locked() && is(elements, "abcd") && l.handle() == has_it && s.locks(has_it) == 2);
    std::error_code refusal;
    const locked_block past(s, root, 2, none, refusal);
    MUST(refusal == fault::no_element && !past.is_locked() && none.size() == 0);
  }
  s.unlock(has_it);
  MUST(s.locks(has_it) == 0);
  REFUSED(fault::not_array, s.lock_run(raw, 0, has_it, to...));
}

static void commands(session &s) {
  MUST(s.command("newraw 6 2").substr(0, 6) == "block " && s.command("# note").empty());
  MUST(s.command("saveas") == "no 24 NoTarget\n" && s.command("what") == "no 25 BadCommand\n");
  const block heap = s.newheap(6);
  const chunk array = s.acreate(heap, 1, 0);
  s.ainsert(heap, array, 0, "a");
  group many(s);
  for (int i = 0; i < 20000; i++) s.aset(heap, array, 0, "b");
  many.end();
  s.undo();
  const std::string reply = s.command("touched");
  MUST(s.touched().size() == 20000 && reply.size() > GEOSVM_REPLY_MOST && reply.back() == '\n');
}

/* Refusals */

static void refusals(session &s) {
  const block heap = s.newheap(7), raw = s.newraw(7, 4);
  const chunk c = s.alloc(heap, 4), array = s.acreate(heap, 0, 0);
  const chunk elements = s.ecreate(heap, 0), names = s.ncreate(heap, 0);
  REFUSED(fault::no_block, s.vfree(block(9999), to...));
  REFUSED(fault::no_chunk, s.read(heap, chunk(9), to...));
  REFUSED(fault::wrong_kind, s.alloc(raw, 1, to...));
  REFUSED(fault::full, s.alloc(heap, 65520, to...));
  REFUSED(fault::too_big, s.newraw(1, 65521, to...));
  REFUSED(fault::range, s.write(heap, c, 3, "ab", to...));
  REFUSED(fault::range, s.write(heap, c, std::size_t{1} << 32, "ab", to...));
  REFUSED(fault::full, s.resize(heap, c, std::size_t{1} << 32, to...));
  REFUSED(fault::not_array, s.acount(heap, c, to...));
  REFUSED(fault::no_element, s.aget(heap, array, 0, to...));
  const token t = s.eadd(heap, elements, "x");
  const unsigned char most_references[] = {0xff, 0xff, 0xfe};
  s.write(heap, elements, 12, most_references);
  REFUSED(fault::count_full, s.eref(heap, elements, t, to...));
  REFUSED(fault::no_name, s.nfind(heap, names, "x", to...));
  const token first = s.nadd(heap, names, "a", {}, false);
  s.nadd(heap, names, "b", {}, false);
  REFUSED(fault::name_in_use, s.nname(heap, names, first, "b", to...));
  s.attach(raw, "\1");
  REFUSED(fault::bad_chain, s.walk(raw, to...));
  s.map(raw);
  REFUSED(fault::is_map, s.vfree(raw, to...));
  REFUSED(fault::too_big, s.name(std::string(65, 'x'), to...));
  REFUSED(fault::not_locked, s.unlock(raw, to...));
  for (int i = 0; i < 255; i++) s.lock(raw);
  REFUSED(fault::lock_limit, s.lock(raw, to...));
  REFUSED(fault::locked, s.save(to...));
  for (int i = 0; i < 255; i++) s.unlock(raw);
  REFUSED(fault::no_group, s.end(to...));
  REFUSED(fault::no_group, s.abandon(to...));
  s.begin();
  REFUSED(fault::group_open, s.begin(to...));
  REFUSED(fault::group_open, s.save(to...));
  REFUSED(fault::group_open, group(s, "x", to...));
  s.end();
  REFUSED(fault::nothing_to_redo, s.redo(to...));
  s.forget(0);
  REFUSED(fault::nothing_to_undo, s.undo(to...));
  REFUSED(fault::bad_argument, session::open(-1, 0, to...));
  REFUSED(fault::bad_argument, session::create("bad.document", 65, to...));
  std::error_code told;
  s.undo(told);
  s.newraw(1, 1, told);
  MUST(!told);
}

/* Refusals that need a session, or a file, of their own. */
static void further_refusals() {
  session s = session::create("further.document", 1);
  const block a = s.newraw(1, 0), b = s.newraw(1, 0);
  {
    const locked_block l(s, a);
    REFUSED(fault::cache_full, s.vread(b, to...));
  }
  s.save();
  MUST(geosvm_open(s.raw(), 0, 1) == GEOSVM_OPEN_ALREADY);
  s.close();
  MUST(!s.is_open());
  REFUSED(fault::not_open, s.close(to...));
  REFUSED(fault::not_open, s.command("list", to...));
  const std::string all = whole_file("further.document");
  put_file("worn.document", std::string(all).replace(8, 8, 8, '\xff'));
  session worn = session::open("worn.document");
  REFUSED(fault::worn, worn.save(to...));
  put_file("text.document", "this is no document");
  put_file("cut.document", all.substr(0, all.size() / 2));
  REFUSED(fault::not_document, session::open("text.document", to...));
  REFUSED(fault::damaged, session::open("cut.document", to...));
  const int appends = ::open("further.document", O_RDWR | O_APPEND);
  REFUSED(fault::file, session::open(appends, to...));
  REFUSED(fault::file, session::create(appends, to...));
  MUST(whole_file("further.document") == all && ::close(appends) == 0);
}

/* All handles in use. */
static void no_handles() {
  session s = session::create("handles.document");
  std::error_code told;
  std::size_t count = 0;
  for (; !told && count < 9000; count++) s.newraw(1, 0, told);
  MUST(told == fault::no_handles && s.list().size() == count - 1);
  REFUSED(fault::no_handles, s.newheap(1, to...));
}

/* Sessions that move */

static session made_elsewhere() {
  session s = session::create("moved.document");
  s.newraw(1, 3);
  return s;
}

static void moves() {
  session s = made_elsewhere();
  const block raw = s.list().at(0);
  {
    group g(s, "Move");
    locked_block l(s, raw);
    session elsewhere(std::move(s));
    MUST(!s.is_open() && elsewhere.is_open());
    REFUSED(fault::not_open, s.list(to...));
    elsewhere.vwrite(raw, 0, "abc");
    g.end();
    MUST(is(l.vread(), "abc") && elsewhere.undos() == 2 && is(elsewhere.undo_name(), "Move"));
    s = std::move(elsewhere);
  }
  MUST(s.is_open() && s.locks(raw) == 0);
  session &same = s;
  s = std::move(same);
  MUST(s.is_open());
  session other = session::create("other.document");
  REFUSED(in_use, session::open("other.document", to...));
  other = std::move(s);
  MUST(is(other.vread(raw), "abc") && session::open("other.document").list().empty());
  auto gone = std::make_unique<session>(session::create("gone.document"));
  group late(*gone);
  locked_block lock(*gone, gone->newraw(1, 1));
  gone.reset();
  MUST(!late.is_open());
  REFUSED(fault::not_open, lock.vread(to...));
  REFUSED(fault::no_group, late.end(to...));
  MUST(session::open("gone.document").list().empty());
}

/* Groups */

static void fail_within(session &s, block raw) {
  group outer(s, "Outer");
  s.vwrite(raw, 0, "1");
  group inner(s, "Inner");
  s.vwrite(raw, 0, "2");
  inner.end();
  throw std::runtime_error("within");
}

static void groups_given_up(session &s, block raw) {
  bool is_thrown = false;
  try {
    fail_within(s, raw);
  } catch (const std::runtime_error &) {
    is_thrown = true;
  }
  MUST(is_thrown && is(s.vread(raw), "0") && s.undos() == 1);
  {
    const locked_block l(s, raw);
    try {
      fail_within(s, raw);
    } catch (const std::runtime_error &) {
    }
    MUST(is(s.vread(raw), "2"));
    REFUSED(fault::locked, s.vwrite(raw, 0, "3", to...));
    REFUSED(fault::locked, s.save(to...));
    REFUSED(fault::locked, group(s, "x", to...));
  }
  MUST(is(s.vread(raw), "0"));
  s.save();
  s.lock(raw);
  {
    group g(s);
    s.vwrite(raw, 0, "4");
    std::error_code told;
    g.abandon(told);
    MUST(told == fault::locked && !g.is_open());
  }
  s.unlock(raw);
  MUST(is(s.vread(raw), "0"));
  s.save();
}

static void groups_within(session &s, block raw) {
  {
    group outer(s, "Outer");
    {
      group inner(s, "Inner");
      s.vwrite(raw, 0, "5");
      inner.end();
      REFUSED(fault::no_group, inner.end(to...));
    }
    MUST(outer.is_open() && s.undos() == 1);
    outer.end();
  }
  MUST(s.undos() == 2 && is(s.undo_name(), "Outer"));
  s.undo();
  MUST(is(s.vread(raw), "0") && is(s.redo_name(), "Outer"));
  {
    group outer(s, "Outer");
    s.vwrite(raw, 0, "6");
    {
      group inner(s);
      s.vwrite(raw, 0, "7");
    }
    s.vwrite(raw, 0, "8");
    REFUSED(fault::no_group, outer.end(to...));
    MUST(is(s.vread(raw), "0") && !outer.is_open());
  }
  {
    group outer(s, "Outer");
    s.vwrite(raw, 0, "6");
    group(s).abandon();
    REFUSED(fault::no_group, s.end(to...));
    MUST(is(s.vread(raw), "0") && !outer.is_open());
    group within(s), further(s);
    s.vwrite(raw, 0, "7");
    s.end();
    MUST(!within.is_open() && !further.is_open() && is(s.vread(raw), "7"));
    s.undo();
  }
  {
    group outer(s, "Outer");
    s.abandon();
    MUST(!outer.is_open());
    s.begin();
  }
  s.vwrite(raw, 0, "9");
  s.end();
  s.undo();
}

/* A name is that of the group's own step, also where the oldest step goes with it, and where the edit was a command. */
static void groups_named(session &s, block raw) {
  const auto named = [&](bool has_edit, const char *name) {
    group g(s, name);
    if (has_edit) s.vwrite(raw, 0, "n");
    g.end();
  };
  named(true, "First");
  const std::size_t before = s.undos();
  named(false, "Empty");
  MUST(s.undos() == before && is(s.undo_name(), "First"));
  s.limit_undo(1);
  s.forget(1);
  named(false, "Empty");
  MUST(s.undos() == 1 && is(s.undo_name(), "First"));
  named(true, "Second");
  MUST(s.undos() == 1 && is(s.undo_name(), "Second"));
  group g(s, "Third");
  MUST(s.command("newraw 9 1").substr(0, 6) == "block ");
  g.end();
  MUST(is(s.undo_name(), "Third"));
  s.limit_undo(0);
  REFUSED(fault::too_big, group(s, std::string(65, 'x'), to...));
  std::error_code told;
  group ended(s, told);
  MUST(!told && ended.is_open());
  ended.end();
  s.save();
}

static void groups() {
  session s = session::create("groups.document");
  const block raw = s.newraw(1, 1);
  s.attach(raw, "0");
  s.forget(1);
  groups_given_up(s, raw);
  groups_within(s, raw);
  groups_named(s, raw);
}

/* Files by their paths */

static std::set<std::string> names_here() {
  std::set<std::string> names;
  for (const auto &entry : std::filesystem::directory_iterator(".")) names.insert(entry.path().filename());
  return names;
}

/* Where a file is missing or empty a document is made; else that of the file is opened. */
static void files_opened_or_made() {
  const auto names = names_here();
  session::open_or_create("either.document", 8).newraw(1, 1);
  MUST(session::open_or_create("either.document").list().empty());
  std::filesystem::remove("either.document");
  put_file("either.document", "");
  {
    session s = session::open_or_create("either.document");
    s.newraw(1, 1);
    s.save();
    REFUSED(in_use, session::open_or_create("either.document", to...));
  }
  MUST(session::open_or_create("either.document").list().size() == 1);
  put_file("either.document", "a text");
  REFUSED(fault::not_document, session::open_or_create("either.document", to...));
  MUST(whole_file("either.document") == "a text");
  std::filesystem::remove("either.document");
  MUST(names_here() == names);
}

/* The version of the first slot, which counts in a new file and behind the third commit. */
static int version_of(const char *path) { return whole_file(path).at(5); }

/* Checksums are asked for where a file is made, or where it is opened: then it has them with its next commit. */
static void files_with_checksums() {
  const auto names = names_here();
  session::create("plain.document");
  session::create_checksums("summed.document");
  session::open_or_create_checksums("either.document");
  MUST(version_of("plain.document") == 2 && version_of("summed.document") == 3 && version_of("either.document") == 3);
  {
    session s = session::open_checksums("plain.document");
    s.save();
    s.save();
    s.save_as("saved.document");
  }
  MUST(version_of("plain.document") == 3 && version_of("saved.document") == 3);
  const int number = ::open("summed.document", O_RDWR);
  session::create(number);
  MUST(version_of("summed.document") == 2);
  session::create_checksums(number);
  MUST(version_of("summed.document") == 3 && session::open_checksums(number).list().empty());
  ::close(number);
  REFUSED(fault::bad_argument, session::open_checksums(-1, 0, to...));
  REFUSED(fault::bad_argument, session::create_checksums(-1, 0, to...));
  REFUSED(fault::bad_argument, session::open_checksums("plain.document", 65, to...));
  REFUSED(fault::bad_argument, session::create_checksums("plain.document", 65, to...));
  REFUSED(fault::bad_argument, session::open_or_create_checksums("plain.document", 65, to...));
  for (const char *name : {"plain.document", "summed.document", "either.document", "saved.document"}) {
    std::filesystem::remove(name);
  }
  MUST(names_here() == names);
}

static void files_kept() {
  REFUSED(make_error_code(std::errc::no_such_file_or_directory), session::open("missing.document", to...));
  REFUSED(make_error_code(std::errc::is_a_directory), session::create(".", to...));
  REFUSED(make_error_code(std::errc::invalid_argument), session::create(std::string("a\0b", 3), to...));
  MUST(::mkfifo("pipe.document", 0600) == 0);
  REFUSED(make_error_code(std::errc::operation_not_supported), session::create("pipe.document", to...));
  std::filesystem::remove("pipe.document");
  MUST(!std::filesystem::exists("missing.document"));
  try {
    session::open("missing.document");
  } catch (const std::system_error &e) {
    MUST(std::string(e.what()) == "missing.document: No such file or directory");
  }
  session s = session::create("kept.document");
  s.newraw(1, 3);
  s.save();
  const std::string all = whole_file("kept.document");
  const auto names = names_here();
  REFUSED(in_use, session::open("kept.document", to...));
  REFUSED(in_use, session::create("kept.document", to...));
  REFUSED(in_use, s.save_as("kept.document", to...));
  MUST(whole_file("kept.document") == all && s.list().size() == 1);
  s.close();
  REFUSED(fault::bad_argument, session::create("kept.document", 65, to...));
  std::filesystem::create_hard_link("kept.document", "second.name");
  REFUSED(make_error_code(std::errc::operation_not_supported), session::create("kept.document", to...));
  std::filesystem::remove("second.name");
  MUST(whole_file("kept.document") == all && names_here() == names);
  std::filesystem::permissions("kept.document", std::filesystem::perms(0640));
  std::filesystem::create_symlink("kept.document", "link.document");
  struct stat before, after;
  if (::geteuid() == 0) MUST(::chown("kept.document", 1, 1) == 0);
  MUST(::stat("kept.document", &before) == 0);
  {
    const session anew = session::create("link.document");
    REFUSED(in_use, session::open("kept.document", to...));
  }
  MUST(session::open("kept.document").list().empty());
  MUST(std::filesystem::is_symlink("link.document") && ::stat("kept.document", &after) == 0);
  MUST(after.st_uid == before.st_uid && after.st_gid == before.st_gid && after.st_ino != before.st_ino);
  MUST(std::filesystem::status("kept.document").permissions() == std::filesystem::perms(0640));
  std::filesystem::remove("link.document");
  MUST(names_here() == names);
}

/* A new document takes the place of an old one when it is on the disk, and its folder is synced behind that. */
static void files_on_the_disk() {
  const std::error_code broken = make_error_code(std::errc::io_error);
  session s = session::create("disk.document");
  const block raw = s.newraw(1, 3);
  s.save();
  const std::string all = whole_file("disk.document");
  MUST(order.find('d') != std::string::npos);
  s.close();
  const auto names = names_here();
  for (const char call : {'f', 'r'}) {
    failing = call;
    REFUSED(call == 'f' ? make_error_code(fault::file) : broken, session::create("disk.document", to...));
    MUST(whole_file("disk.document") == all && names_here() == names);
  }
  failing = 0;
  s = session::open("disk.document");
  session::create("old.document").close();
  s.attach(raw, "abc");
  order.clear();
  s.save_as("old.document");
  MUST(order.size() >= 3 && order.substr(order.size() - 3) == "frd");
  MUST(session::open("disk.document").vread(raw).size() == 3);
  const std::string left = whole_file("disk.document");
  failing = 'r';
  std::error_code told;
  s.save_as("disk.document", told);
  failing = 0;
  MUST(told == broken && whole_file("disk.document") == left);
  s.attach(raw, "def");
  s.save();
  s.close();
  MUST(is(session::open("old.document").vread(raw), "abc"));
  std::string beside;
  for (const std::string &name : names_here()) if (name.rfind("disk.document.", 0) == 0) beside = name;
  MUST(is(session::open(beside).vread(raw), "def") && std::filesystem::remove(beside));
}

/* No file may be as long as a document: so nothing new can be written, and the old one stays. */
static void files_kept_on_a_full_disk() {
  session made = session::create("full.document"), s = session::create("small.document");
  made.newraw(1, 3);
  made.save();
  made.close();
  const block raw = s.newraw(2, 60000);
  s.save();
  const std::string all = whole_file("full.document");
  const auto names = names_here();
  const std::string small = whole_file("small.document");
  std::signal(SIGXFSZ, SIG_IGN);
  struct rlimit before;
  ::getrlimit(RLIMIT_FSIZE, &before);
  struct rlimit least = before;
  least.rlim_cur = 30000;
  ::setrlimit(RLIMIT_FSIZE, &least);
  put_file("empty.document", "");
  REFUSED(fault::file, s.save_as("empty.document", to...));
  MUST(whole_file("empty.document").empty() && std::filesystem::remove("empty.document"));
  least.rlim_cur = 100;
  ::setrlimit(RLIMIT_FSIZE, &least);
  REFUSED(fault::file, session::create("full.document", to...));
  REFUSED(fault::file, s.save_as("full.document", to...));
  s.attach(raw, "new");
  REFUSED(fault::file, s.save(to...));
  ::setrlimit(RLIMIT_FSIZE, &before);
  MUST(whole_file("full.document") == all && names_here() == names);
  s.save();
  MUST(is(s.vread(raw), "new"));
}

static void files_saved_as() {
  session s = session::create("from.document"), busy = session::create("busy.document");
  const block raw = s.newraw(1, 0);
  s.save();
  s.attach(raw, "abc");
  REFUSED(in_use, s.save_as("busy.document", to...));
  busy.newraw(9, 9);
  busy.save();
  busy.close();
  s.save_as("busy.document");
  MUST(session::open("from.document").vread(raw).empty() && is(s.vread(raw), "abc") && s.undos() == 2);
  s.save_as("new.document");
  s.undo();
  s.save();
  MUST(is(session::open("busy.document").vread(raw), "abc"));
  const int number = ::open("number.document", O_RDWR | O_CREAT | O_CLOEXEC, 0644);
  MUST(::flock(number, LOCK_EX | LOCK_NB) == 0);
  REFUSED(fault::file, s.save_as(-7, to...));
  s.save_as(number);
  REFUSED(fault::bad_argument, s.save_as(number, to...));
  MUST(session::open("new.document").vread(raw).empty());
  s.close();
  MUST(session::open(number).list().size() == 1);
  MUST(session::create(number, 8).list().empty());
  MUST(::fcntl(number, F_GETFD) >= 0 && ::close(number) == 0);
}

/* Edits by chance, beside a model that has the bytes of each chunk. */

using model = std::map<block, std::map<chunk, std::string>>;

static std::mt19937 chance(1);
static std::size_t below(std::size_t most) { return most == 0 ? 0 : chance() % most; }
template <class Map> static auto one_of(Map &map) {
  return std::next(map.begin(), static_cast<std::ptrdiff_t>(below(map.size())));
}

static model looked_at(session &s) {
  model m;
  for (const block b : s.list()) {
    auto &texts = m[b];
    for (const chunk c : s.chunks(b)) texts[c] = std::string(bytes_view(s.read(b, c)).text());
  }
  return m;
}

static void edit(session &s, model &m) {
  if (m.empty() || (m.size() < 6 && below(20) == 0)) return void(m[s.newheap(1)]);
  const auto at = one_of(m);
  const block b = at->first;
  if (below(60) == 0) return s.vfree(b), void(m.erase(at));
  if (at->second.empty() || below(5) == 0) {
    const std::size_t size = below(90);
    return void(at->second[s.alloc(b, size)] = std::string(size, '\0'));
  }
  const auto [c, text] = *one_of(at->second);
  std::string &bytes = at->second[c];
  const std::size_t from = below(text.size() + 1), count = below(text.size() - from + 1);
  const std::string some(below(30), static_cast<char>('a' + below(26)));
  switch (below(5)) {
  case 0: return s.splice(b, c, from, count, some), void(bytes.replace(from, count, some));
  case 1: return s.insert(b, c, from, count), void(bytes.insert(from, count, '\0'));
  case 2: return s.erase(b, c, from, count), void(bytes.erase(from, count));
  case 3: return s.resize(b, c, from), bytes.resize(from);
  default: return s.free(b, c), void(at->second.erase(c));
  }
}

static void edits_by_chance() {
  session s = session::create("chance.document", 3);
  std::vector<model> documents(1);
  for (int edits = 0; edits < 2000;) {
    model next = documents.back();
    const bool is_group = below(4) == 0, is_given_up = below(2) == 0;
    try {
      std::optional<group> g;
      if (is_group) g.emplace(s, "Some");
      for (std::size_t i = is_group ? 1 + below(6) : 1; i > 0; i--, edits++) edit(s, next);
      if (is_group && is_given_up) throw std::runtime_error("by chance");
      if (g) g->end();
      documents.push_back(next);
    } catch (const std::runtime_error &) {
      if (looked_at(s) != documents.back()) return MUST(!"a group that was given up is gone");
    }
    if (below(100) == 0) s.save();
  }
  MUST(s.undos() == documents.size() - 1);
  std::size_t same = 0;
  for (std::size_t i = documents.size() - 1; i > 0; i--) same += looked_at(s) == documents[i], s.undo();
  MUST(same == documents.size() - 1 && looked_at(s).empty() && s.undos() == 0);
  for (std::size_t i = 1; i < documents.size(); i++) s.redo();
  MUST(looked_at(s) == documents.back());
}

int main(int count, char **words) {
  if (count > 1 && std::string_view(words[1]) == "--faults") return print_faults(), 0;
  codes();
  handles_and_bytes();
  {
    session s = session::create("members.document");
    blocks_and_chunks(s);
    arrays(s);
    chains(s);
    large_arrays(s);
    steps(s);
    locks(s);
    commands(s);
    refusals(s);
  }
  further_refusals();
  no_handles();
  moves();
  groups();
  files_opened_or_made();
  files_with_checksums();
  files_kept();
  files_kept_on_a_full_disk();
  files_on_the_disk();
  files_saved_as();
  edits_by_chance();
  const std::set<fault> not_made = {fault::memory,       fault::no_target, fault::bad_command,
                                    fault::open_already, fault::cut_off,   fault::untold};
  for (const fault f : all_faults) {
    must((faults_met.count(static_cast<int>(f)) > 0) != (not_made.count(f) > 0), geosvm::sentence_of(f), __LINE__);
  }
  std::printf("%d passed, %d failed\n", count_passed, count_failed);
  return count_failed != 0;
}
