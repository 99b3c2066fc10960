/*
** codes.c: the names of codes, and what they mean. The names of faults are those of crates/geos_model, which replies have: try.c compares
** them with geosvm_fault_name. The sentences are those of geosvm.h, where that has one; checks/cpp_header.sh compares these.
*/
#include "private.h"

static const struct meaning {
  int32_t code;
  const char *name, *text;
} meanings[] = {
    {GEOSVM_OK, "Ok", "it went well"},
    {GEOSVM_MEMORY, "Memory", "no memory"},
    {GEOSVM_FILE, "File", "a call on the file has failed"},
    {GEOSVM_DAMAGED, "Damaged", "the file is a damaged document"},
    {GEOSVM_NOT_DOCUMENT, "NotDocument", "the file is no document"},
    {GEOSVM_NO_BLOCK, "NoBlock", "no block has this handle"},
    {GEOSVM_NO_CHUNK, "NoChunk", "no chunk of the block has this handle"},
    {GEOSVM_WRONG_KIND, "WrongKind", "a heap where a raw block is wanted, or the reverse"},
    {GEOSVM_FULL, "Full", "the heap would need more than 65,520 bytes"},
    {GEOSVM_TOO_BIG, "TooBig", "over 65,520 bytes in a raw block, 64 in a step's name, or 65,508 in an element"},
    {GEOSVM_NO_HANDLES, "NoHandles", "fewer block handles are free than are needed"},
    {GEOSVM_RANGE, "Range", "a place, length or size is outside its bounds"},
    {GEOSVM_NOT_ARRAY, "NotArray", "the chunk is no array of the kind that is wanted, or the block no root of a large array"},
    {GEOSVM_NO_ELEMENT, "NoElement", "there is no such element, or the token isn't used"},
    {GEOSVM_COUNT_FULL, "CountFull", "the element has as many references as any can have"},
    {GEOSVM_NO_NAME, "NoName", "no element has the name"},
    {GEOSVM_NAME_IN_USE, "NameInUse", "another token has the name"},
    {GEOSVM_BAD_CHAIN, "BadChain", "no chain begins at the block, or a branch isn't what the root of a large array says"},
    {GEOSVM_IS_MAP, "IsMap", "the map block would be freed"},
    {GEOSVM_LOCKED, "Locked", "a block is locked"},
    {GEOSVM_NOT_LOCKED, "NotLocked", "the block isn't locked"},
    {GEOSVM_CACHE_FULL, "CacheFull", "every frame has a locked block"},
    {GEOSVM_NOTHING_TO_UNDO, "NothingToUndo", "no step is left to undo, or no two to be joined"},
    {GEOSVM_NOTHING_TO_REDO, "NothingToRedo", "no undo is left to take back"},
    {GEOSVM_NO_TARGET, "NoTarget", "a saveas as a command, which has no target: call geosvm_save_as"},
    {GEOSVM_BAD_COMMAND, "BadCommand", "the line is no command"},
    {GEOSVM_LOCK_LIMIT, "LockLimit", "the block is locked 255 times"},
    {GEOSVM_WORN, "Worn", "the file's sequence number is at its last value"},
    {GEOSVM_GROUP_OPEN, "GroupOpen", "a group is open"},
    {GEOSVM_NO_GROUP, "NoGroup", "no group is open"},
    {GEOSVM_NOT_OPEN, "NotOpen", "the session is closed"},
    {GEOSVM_OPEN_ALREADY, "OpenAlready", "the session is open"},
    {GEOSVM_BAD_ARGUMENT, "BadArgument", "a number is out of its bounds, or the session's own"},
    {GEOSVM_CUT_OFF, "CutOff", "the buffer took a part; all was done"},
    {GEOSVM_UNTOLD, "Untold", "no memory for a reply; the command may be done"},
};
static const struct meaning unknown = {-1, "Unknown", "no code has this number"};

static const struct meaning *meaning_of(int32_t code) {
  for (size_t i = 0; i < sizeof meanings / sizeof meanings[0]; i++)
    if (meanings[i].code == code) return &meanings[i];
  return &unknown;
}

const char *geosvm_code_name(int32_t code) { return meaning_of(code)->name; }

const char *geosvm_code_text(int32_t code) { return meaning_of(code)->text; }
