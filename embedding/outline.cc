/* An outline: notes in a heap, groups with names, undo, save, and opening it again. It is written to be copied.

       g++ -std=c++17 outline.cc $(pkg-config --cflags --libs geosvm)

   A note is an element of an array: a byte that tells how deep it stands, and its text. The array is the heap's first
   chunk, and the heap is the map block, by which it is found again. */
#include <geosvm.hpp>
#include <iostream>

class outline {
public:
  explicit outline(const std::string &path) : document_(geosvm::session::open_or_create(path)) {
    heap_ = document_.mapblock();
    if (!heap_) make();
    notes_ = document_.chunks(heap_).at(0);
  }
  std::size_t size() { return document_.acount(heap_, notes_); }
  void add(std::size_t at, unsigned char depth, const std::string &text) {
    geosvm::group typing(document_, "Add");
    document_.ainsert(heap_, notes_, at, static_cast<char>(depth) + text);
    typing.end();
  }
  /* A note with all that stand below it. */
  void remove(std::size_t at) {
    geosvm::group removing(document_, "Remove");
    const unsigned char depth = document_.aget(heap_, notes_, at).at(0);
    do document_.adelete(heap_, notes_, at, 1);
    while (at < size() && document_.aget(heap_, notes_, at).at(0) > depth);
    removing.end();
  }
  /* One deeper, with all below it. Where one is too deep nothing changes: the group is given up by the exception. */
  void indent(std::size_t at) {
    geosvm::group indenting(document_, "Indent");
    const unsigned char depth = document_.aget(heap_, notes_, at).at(0);
    do {
      geosvm::bytes note = document_.aget(heap_, notes_, at);
      if (++note.at(0) > 3) throw std::length_error("a note would stand too deep");
      document_.aset(heap_, notes_, at, note);
    } while (++at < size() && document_.aget(heap_, notes_, at).at(0) > depth);
    indenting.end();
  }
  void undo() {
    std::cout << "undo " << geosvm::bytes_view(document_.undo_name()).text() << '\n';
    document_.undo();
  }
  void save() { document_.save(); }
  void print(const std::string &title) {
    std::cout << title << (document_.modified().as_saved ? "" : " (not saved)") << '\n';
    for (std::size_t i = 0; i < size(); i++) {
      const geosvm::bytes note = document_.aget(heap_, notes_, i);
      std::cout << std::string(2 * note.at(0) + 2, ' ') << "- " << geosvm::bytes_view(note).text().substr(1) << '\n';
    }
  }

private:
  void make() {
    heap_ = document_.newheap(7);
    document_.acreate(heap_, 0, 0);
    document_.map(heap_);
    document_.save();
    document_.forget(0);
  }
  geosvm::session document_;
  geosvm::block heap_;
  geosvm::chunk notes_;
};

int main(int count, char **words) try {
  const std::string path = count > 1 ? words[1] : "outline.document";
  {
    outline notes(path);
    notes.add(0, 0, "House");
    notes.add(1, 1, "Kitchen");
    notes.add(2, 2, "Lamp");
    notes.add(3, 0, "Garden");
    notes.save();
    notes.print("made");
    notes.remove(1);
    notes.print("the kitchen removed");
    notes.undo();
    notes.print("and there again");
    notes.indent(1);
    try {
      notes.indent(1);
    } catch (const std::length_error &e) {
      std::cout << e.what() << '\n';
    }
    notes.print("deeper");
  }
  outline again(path);
  again.print("opened again, as it was saved");
} catch (const std::exception &e) {
  std::cerr << "outline: " << e.what() << '\n';
  return 1;
}
