"""Compares the prototypes of geosvm.h with the exports of crates/geos_c: the same names, and the same parameters in the same order; and
the struct of a place, which calls are passed: the same fields of the same types in the same order. Calls that are written in C have
no export, and are each in a source here; of those that stand in front of an export (sessions.c) private.h has the export's prototype.
No proof reads C, and a program that is compiled by a wrong prototype links all the same. Run it anywhere; build.sh does."""
import re
import sys
from pathlib import Path

HERE = Path(__file__).resolve().parent
# What C passes for a parameter. A slice is a pointer and a size, whose name is C's own; the allocator is nothing.
IN_C = {
    "&mut Handle": ["geosvm_session *"], "Global": [], "bool": ["bool"], "i32": ["int32_t"],
    "u8": ["uint8_t"], "u16": ["uint16_t"], "u32": ["uint32_t"], "usize": ["size_t"],
    "&mut u8": ["uint8_t *"], "&mut u16": ["uint16_t *"], "&mut u32": ["uint32_t *"], "&mut usize": ["size_t *"],
    "&mut *const u8": ["const uint8_t **"],
    "&[u8]": ["const uint8_t *", "size_t"], "&mut [u8]": ["uint8_t *", "size_t"], "&mut [u16]": ["uint16_t *", "size_t"],
    "&mut [ToldPlace]": ["geosvm_place *", "size_t"],
}


# The calls with no export that answer a code. The compiler compares them with geosvm.h.
WRITTEN_IN_C = {"geosvm_open_path", "geosvm_save_as_path", "geosvm_copy_block"}


def declared(header, prefix="geosvm_(?!io_)"):
    """The parameters of each prototype, as pairs of a type and a name. Those of files are the program's, not exports."""
    text = re.sub(r"/\*.*?\*/", "", header, flags=re.S)
    found = re.findall(rf"int32_t\s+({prefix}\w+)\s*\(([^)]*)\)\s*;", text)
    return {name: re.findall(r"\s*([^,]*?)(\w+)\s*(?:,|$)", parameters) for name, parameters in found}


def exported(source):
    """The same of each export, where a name that is C's own is None."""
    exports = {}
    for name, parameters in re.findall(r'pub extern "C" fn (geosvm_\w+)\((.*?)\) -> i32', source, flags=re.S):
        pairs = exports[name] = []
        for parameter in filter(None, (p.strip() for p in parameters.split(","))):
            own, kind = parameter.split(": ", 1)
            pairs += [(part, None if i else own) for i, part in enumerate(IN_C[kind])]
    return exports


def struct_in_c(header):
    """The fields of geosvm_place, as pairs of a type and a name."""
    body = re.search(r"typedef struct geosvm_place \{(.*?)\}", re.sub(r"/\*.*?\*/", "", header, flags=re.S), flags=re.S)[1]
    lines = [line.split(None, 1) for line in body.split(";") if line.strip()]
    return [(kind, name.strip()) for kind, names in lines for name in names.split(",")]


def struct_in_rattle(source):
    body = re.search(r"#\[repr\(C\)\][^{]*pub struct ToldPlace \{(.*?)\}", source, flags=re.S)[1]
    return [(IN_C[kind][0], name) for name, kind in re.findall(r"pub (\w+): (\w+),", body)]


def agree(in_c, in_rattle):
    def same(a, b):
        return a[0].split() == b[0].split() and b[1] in (None, "handle", a[1])
    return len(in_c) == len(in_rattle) and all(map(same, in_c, in_rattle))


def is_defined(name):
    return any(re.search(rf"^int32_t {name}\(", p.read_text(), flags=re.M) for p in HERE.glob("*.c"))


header = (HERE / "geosvm.h").read_text()
source = "".join(p.read_text() for p in sorted((HERE / "../crates/geos_c/src").glob("**/*.rt")))
c, rattle = declared(header), exported(source)
renamed = {name.removeprefix("proved_"): given for name, given in declared((HERE / "private.h").read_text(), "proved_").items()}
wrong = sorted(name for name in (c.keys() | rattle.keys()) - WRITTEN_IN_C
               if name not in c or name not in rattle or not agree(c[name], rattle[name]))
wrong += sorted(name for name in WRITTEN_IN_C if name not in c or name in rattle or not is_defined(name))
wrong += sorted(f"proved_{name}" for name in renamed if name not in rattle or not agree(renamed[name], rattle[name]))
if struct_in_c(header) != struct_in_rattle(source):
    wrong.append("geosvm_place")
print(f"prototypes: {len(c)}, " + (f"wrong: {' '.join(wrong)}" if wrong else "as exported"))
sys.exit(1 if wrong else 0)
