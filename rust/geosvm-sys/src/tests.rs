//! All that is declared here is compared with `geosvm.h`: prototypes and fields as text, and numbers, sizes and places
//! as the compiler for C has them. `GEOSVM_HEADER` may name the header.
use super::{geosvm_place, geosvm_session, GEOSVM_CLOSED};
use core::mem::{align_of, offset_of, size_of};
use std::collections::{BTreeMap, BTreeSet};
use std::path::PathBuf;
use std::process::Command;
use std::{env, fs};

const SOURCE: &str = include_str!("lib.rs");

fn header_path() -> PathBuf {
    let beside = concat!(env!("CARGO_MANIFEST_DIR"), "/../../embedding/geosvm.h");
    env::var_os("GEOSVM_HEADER").map_or_else(|| PathBuf::from(beside), PathBuf::from)
}

/// The header without comments.
fn header() -> String {
    let text = fs::read_to_string(header_path()).expect("geosvm.h can be read");
    let mut parts = text.split("/*");
    let first = parts.next().unwrap_or_default().to_string();
    parts.fold(first, |all, part| all + part.split_once("*/").expect("a comment ends").1)
}

/// The declarations without comments.
fn source() -> String {
    SOURCE.lines().filter(|line| !line.trim_start().starts_with("//")).collect::<Vec<_>>().join("\n")
}

fn words(text: &str) -> String {
    text.split_whitespace().collect::<Vec<_>>().join(" ")
}

/// The text between two others, the first time that they come.
fn between<'a>(text: &'a str, begin: &str, end: &str) -> &'a str {
    let from = text.split_once(begin).unwrap_or_else(|| panic!("there is {begin}")).1;
    from.split_once(end).unwrap_or_else(|| panic!("there is {end} behind {begin}")).0
}

/// What is declared in C, as "uint16_t block", as a name with the type that Rust has for it.
fn rust_of(declared: &str) -> (String, String) {
    let declared = words(declared);
    let at = declared.rfind(|c: char| !c.is_alphanumeric() && c != '_').expect("a type stands before the name") + 1;
    (declared[at..].to_string(), rust_type(declared[..at].trim()))
}

fn rust_type(kind: &str) -> String {
    if let Some(inner) = kind.strip_suffix('*') {
        let inner = inner.trim();
        return match (inner.strip_prefix("const "), inner.ends_with('*')) {
            (Some(pointed), false) => format!("*const {}", rust_type(pointed)),
            _ => format!("*mut {}", rust_type(inner)),
        };
    }
    match kind {
        "void" => "c_void",
        "char" => "c_char",
        "int" => "c_int",
        "bool" => "bool",
        "uint8_t" => "u8",
        "uint16_t" => "u16",
        "uint32_t" => "u32",
        "int32_t" => "i32",
        "int64_t" => "i64",
        "size_t" => "usize",
        "intptr_t" => "isize",
        "geosvm_session" | "geosvm_place" => kind,
        other => panic!("no type of Rust is known for {other}"),
    }
    .to_string()
}

type Prototypes = BTreeMap<String, (Vec<(String, String)>, String)>;

/// The prototypes of the header, in words of Rust. Those of files are the program's own, and aren't declared.
fn prototypes_in_c() -> Prototypes {
    let text = header();
    let code = text.lines().filter(|line| !line.trim_start().starts_with('#')).collect::<Vec<_>>().join("\n");
    let declared = code.split(';').filter_map(|part| part.trim().strip_suffix(')')?.rsplit_once('('));
    declared
        .map(|(before, given)| {
            let (name, result) = rust_of(before.rsplit(['{', '}']).next().unwrap_or_default());
            let given = given.split(',').filter(|it| it.trim() != "void").map(rust_of).collect();
            (name, (given, result))
        })
        .filter(|(name, _)| !name.starts_with("geosvm_io_"))
        .collect()
}

fn typed(part: &str) -> Option<(String, String)> {
    let (name, kind) = part.split_once(':')?;
    Some((words(name).replace("pub ", ""), words(kind)))
}

fn prototypes_in_rust() -> Prototypes {
    let text = source();
    let code = text.split_once("unsafe extern \"C\" {").expect("functions are declared").1;
    let declared = code.split(';').filter_map(|part| words(part).strip_prefix("pub fn ").map(str::to_string));
    declared
        .map(|part| {
            let (name, rest) = part.split_once('(').expect("there are parameters");
            let (given, result) = rest.split_once(") -> ").expect("there is a result");
            (name.to_string(), (given.split(',').filter_map(typed).collect(), result.to_string()))
        })
        .collect()
}

#[test]
fn prototypes_are_those_of_the_header() {
    let (c, rust) = (prototypes_in_c(), prototypes_in_rust());
    assert!(c.len() > 80, "the header has {} prototypes", c.len());
    for name in c.keys().chain(rust.keys()) {
        assert_eq!(c.get(name), rust.get(name), "{name}: as in C, and as in Rust");
    }
}

fn fields_in_c(name: &str) -> Vec<(String, String)> {
    let text = header();
    let body = between(&text, &format!("typedef struct {name} {{"), "}");
    let mut fields = vec![];
    for line in body.split(';').filter(|it| !it.trim().is_empty()) {
        let mut names = line.split(',');
        let (first, kind) = rust_of(names.next().unwrap_or_default());
        fields.push((first, kind.clone()));
        fields.extend(names.map(|name| (words(name), kind.clone())));
    }
    fields
}

fn fields_in_rust(name: &str) -> Vec<(String, String)> {
    let text = source();
    between(&text, &format!("pub struct {name} {{"), "}").split(',').filter_map(typed).collect()
}

#[test]
fn fields_are_those_of_the_header() {
    for name in ["geosvm_session", "geosvm_place"] {
        assert_eq!(fields_in_c(name), fields_in_rust(name), "{name}: as in C, and as in Rust");
    }
}

/// The names of the header's numbers: those that are defined, and those of enumerations.
fn numbers_named() -> BTreeSet<String> {
    let text = header();
    let defined = text.lines().filter_map(|line| line.strip_prefix("#define ")?.split_once(' '));
    let defined = defined.map(|(name, _)| name);
    let bodies = text.split("enum").skip(1).filter_map(|part| part.split_once('{')?.1.split_once('}'));
    let listed = bodies.flat_map(|(body, _)| body.split(',').filter_map(|it| it.split_once('=')));
    let names = defined.map(str::trim).chain(listed.map(|(name, _)| name.trim()));
    let others = ["GEOSVM_VERSION", "GEOSVM_CLOSED"];
    names
        .filter(|it| it.starts_with("GEOSVM_") && !it.contains('(') && !others.contains(it))
        .map(str::to_string)
        .collect()
}

fn numbers_in_rust() -> BTreeMap<String, i64> {
    let text = source();
    let declared = text.split(';').filter_map(|part| part.trim().strip_prefix("pub const GEOSVM_")?.split_once(':'));
    let numbers = declared.filter_map(|(name, rest)| Some((name, rest.split_once('=')?.1.trim().parse().ok()?)));
    numbers.map(|(name, number)| (format!("GEOSVM_{name}"), number)).collect()
}

const TELL: &str = "#include <stdio.h>\n\
    #define TELL(name, number) printf(\"%s %lld\\n\", name, (long long)(number))\n";

/// What a program in C prints, which has these lines in its `main`: a name and a number each. No two tests share a
/// name.
fn printed_by_c(test: &str, lines: &str) -> BTreeMap<String, i64> {
    let folder = env::temp_dir().join(format!("geosvm-sys-{}-{test}", std::process::id()));
    fs::create_dir_all(&folder).expect("a folder can be made");
    let (source, program) = (folder.join("numbers.c"), folder.join("numbers"));
    let header = header_path().canonicalize().expect("there is geosvm.h");
    let text = format!(
        "#include \"{}\"\n{TELL}int main(void) {{ geosvm_session closed = GEOSVM_CLOSED;\n{lines}return 0; }}\n",
        header.display()
    );
    fs::write(&source, text).expect("a program can be written");
    let compiler = env::var_os("CC").unwrap_or_else(|| "cc".into());
    let compiled = Command::new(compiler).arg("-std=c11").arg(&source).arg("-o").arg(&program).status();
    assert!(compiled.expect("there is a compiler for C").success());
    let output = Command::new(&program).output().expect("what was compiled runs").stdout;
    fs::remove_dir_all(&folder).expect("the folder can be removed");
    let text = String::from_utf8(output).expect("it prints text");
    text.lines()
        .filter_map(|it| it.rsplit_once(' '))
        .map(|(name, it)| (name.to_string(), it.parse().unwrap()))
        .collect()
}

#[test]
fn numbers_are_those_of_the_header() {
    let lines: String = numbers_named().iter().map(|it| format!("TELL(\"{it}\", {it});\n")).collect();
    let (c, rust) = (printed_by_c("numbers", &lines), numbers_in_rust());
    assert!(c.len() > 40, "the header has {} numbers", c.len());
    for name in c.keys().chain(rust.keys()) {
        assert_eq!(c.get(name), rust.get(name), "{name}: as in C, and as in Rust");
    }
}

macro_rules! layout {
    ($told:ident, $kind:ident, $($field:ident),+) => {
        $told.push((stringify!($kind).to_string(), "sizeof", size_of::<$kind>()));
        $told.push((stringify!($kind).to_string(), "_Alignof", align_of::<$kind>()));
        $(
            let of = concat!(stringify!($kind), ", ", stringify!($field)).to_string();
            $told.push((of, "offsetof", offset_of!($kind, $field)));
        )+
    };
}

#[test]
fn sizes_and_places_are_those_of_the_header() {
    let mut told = vec![];
    layout!(told, geosvm_session, private_at, private_is_open, private_file);
    layout!(told, geosvm_place, kind, block, chunk, at, before, after);
    let lines: String = told.iter().map(|(of, what, _)| format!("TELL(\"{what} {of}\", {what}({of}));\n")).collect();
    let c = printed_by_c("sizes", &lines);
    for (of, what, in_rust) in told {
        assert_eq!(c.get(&format!("{what} {of}")), Some(&(in_rust as i64)), "{what} {of}: in C, and in Rust");
    }
}

#[test]
fn a_closed_session_is_that_of_the_header() {
    let lines = "TELL(\"at\", closed.private_at == 0); TELL(\"is_open\", closed.private_is_open);\
                 TELL(\"file\", closed.private_file);";
    let c = printed_by_c("closed", lines);
    let closed = GEOSVM_CLOSED;
    assert_eq!(c["at"], i64::from(closed.private_at.is_null()));
    assert_eq!(c["is_open"], i64::from(closed.private_is_open));
    assert_eq!(c["file"], closed.private_file as i64);
}
