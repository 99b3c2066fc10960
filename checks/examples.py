# Needs: python3
"""Runs each example's script, and compares the replies with those that stand beside it, byte for byte, with 1, 8 and 64 frames.

    python3 checks/examples.py crates/geosvm/out/geosvm
"""
import os
import subprocess
import sys
import tempfile

FOLDER = os.path.join(os.path.dirname(os.path.realpath(__file__)), "..", "examples")
# Each list begins on a new document, and what comes behind another one goes on with the file that that one left, with a
# new file for a save-as, or with that file where the save-as made it.
EXAMPLES = [
    ["first_path"],
    ["chunk_edits"],
    ["arrays"],
    ["chains"],
    ["large_text"],
    ["contents"],
    ["groups"],
    ["joined_steps"],
    ["places"],
    ["locks"],
    ["files_made", "files_opened"],
    ["small_document"],
    ["tutorial_book", "tutorial_book_opened"],
    ["tutorial_drawing"],
    ["tutorial_table", "tutorial_table_opened", "tutorial_table_copied"],
    ["tutorial_letter", "tutorial_letter_opened"],
    ["tutorial_novel"],
    ["designed_text"],
    ["designed_drawing", "designed_drawing_opened"],
    ["designed_database"],
]
# What some are run with besides.
OPTIONS = {"tutorial_letter_opened": ["--undo", "2"]}


def text_of(name, kind):
    with open(os.path.join(FOLDER, f"{name}.{kind}"), "rb") as it:
        return it.read()


def first_difference(wanted, given):
    """The first line in which these differ, with both."""
    wanted, given = wanted.split(b"\n"), given.split(b"\n")
    for number, (want, give) in enumerate(zip(wanted, given), 1):
        if want != give:
            return f"line {number} is {give.decode()!r}, where {want.decode()!r} is expected"
    return f"{len(given)} lines came, where {len(wanted)} are expected"


def play(geosvm, names, frames, folder):
    """Runs examples in turn, each on what the one before it left. Gives how many went as expected."""
    document, right = os.path.join(folder, "document"), 0
    for number, name in enumerate(names):
        copy = os.path.join(folder, f"copy{number}")
        words = ["--new", document] if number == 0 else ["--as", copy, document]
        options = OPTIONS.get(name, []) + ([] if frames == 8 else ["--cache", str(frames)])
        ran = subprocess.run([geosvm, *options, *words], input=text_of(name, "script"), capture_output=True, check=False)
        wanted = text_of(name, "replies")
        if ran.returncode != 0 or ran.stdout != wanted:
            print(f"{name}, {frames} frames: status {ran.returncode}; {first_difference(wanted, ran.stdout)}; {ran.stderr.decode()}")
            return right
        right += 1
        if os.path.exists(copy) and os.path.getsize(copy) > 0:
            document = copy
    return right


def main():
    geosvm = os.path.realpath(sys.argv[1])
    named = {name.partition(".")[0] for name in os.listdir(FOLDER) if name.endswith(".script")}
    played = {name for names in EXAMPLES for name in names}
    if named != played:
        sys.exit(f"no list has {sorted(named - played)}, or there is no {sorted(played - named)}")
    right, count = 0, 0
    for frames in (1, 8, 64):
        for names in EXAMPLES:
            if frames != 8 and "locks" in names:
                # It locks a block in each of eight frames.
                continue
            with tempfile.TemporaryDirectory() as folder:
                right += play(geosvm, names, frames, folder)
                count += len(names)
    print(f"{right} of {count} runs as expected")
    sys.exit(right != count)


main()
