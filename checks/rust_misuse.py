"""Compiles what the documentation of a crate says must not compile, and compares the errors with the codes that stand there.
`cargo test` sees that there is an error: not which, so a misspelt name would do.

    python3 checks/rust_misuse.py rust/geosvm/src TARGET/debug
"""
import re
import subprocess
import sys
import tempfile
from pathlib import Path

BLOCK = re.compile(r"^ *//[/!] ```compile_fail,(E\d+)\n((?: *//[/!].*\n)*?) *//[/!] ```$", re.M)


def program(body):
    """The lines of a block as rustdoc compiles them: within `main`, with those that it doesn't show."""
    lines = [re.sub(r"^ *//[/!] ?(# )?", "", line) for line in body.splitlines()]
    return "fn main() {\n" + "\n".join(lines) + "\n}\n"


def errors(text, built, folder):
    """The codes of the errors that a program has; of one without a code its text."""
    source = folder / "misuse.rs"
    source.write_text(text)
    words = ["rustc", "--edition", "2021", "--crate-type", "bin", "--emit", "metadata", "--error-format", "short",
             "--extern", f"geosvm={built / 'libgeosvm.rlib'}", "-L", f"dependency={built / 'deps'}", str(source)]
    run = subprocess.run(words, cwd=folder, capture_output=True, text=True)
    found = re.findall(r": error(?:\[(E\d+)\])?: (.*)", run.stderr)
    return sorted({code or message for code, message in found})


def main():
    sources, built = Path(sys.argv[1]), Path(sys.argv[2]).resolve()
    count = wrong = 0
    with tempfile.TemporaryDirectory() as folder:
        for path in sorted(sources.glob("*.rs")):
            for wanted, body in BLOCK.findall(path.read_text()):
                count += 1
                got = errors(program(body), built, Path(folder))
                if got != [wanted]:
                    wrong += 1
                    print(f"{path.name}: wanted {wanted}, got {got}:\n{program(body)}")
    stated = sum(path.read_text().count("```compile_fail") for path in sources.glob("*.rs"))
    print(f"{count} programs that must not compile, {wrong} of them wrong, {stated - count} not tried")
    sys.exit(0 if count >= 8 and wrong == 0 and stated == count else 1)


main()
