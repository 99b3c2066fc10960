# Needs: python3
"""Changes each byte of a document file, one at a time, and compares what `geosdoc check` says with how `geosvm` opens it.

    python3 checks/changed_bytes.py GEOSVM GEOSDOC FILE [EVERY] [SEED]

Where EVERY is given only one of so many bytes is changed, beside all of both slots. The verdict must be the same, and where the file
doesn't open something must be said to be wrong. FILE stays as it is.
"""
import os
import random
import subprocess
import sys
import tempfile


def verdict_of_opening(geosvm, path):
    done = subprocess.run([geosvm, path], stdin=subprocess.DEVNULL, capture_output=True, text=True)
    return "yes" if done.returncode == 0 else "no, " + done.stderr.split()[-1]


def verdict_of_check(geosdoc, path):
    """The verdict, and whether anything is said to be wrong."""
    done = subprocess.run([geosdoc, "check", path], capture_output=True, text=True)
    first, *facts = done.stdout.splitlines()
    assert done.returncode == (0 if first == "opens: yes" else 1), (done.returncode, first)
    wrong = any(fact.startswith("slot") and ": open, version" not in fact for fact in facts)
    return first.removeprefix("opens: "), wrong or "counts: no slot" in done.stdout


def try_one(geosvm, geosdoc, path):
    """The verdict of a file, which both programs have to give."""
    wanted = verdict_of_opening(geosvm, path)
    told, wrong = verdict_of_check(geosdoc, path)
    assert told == wanted, ("wanted", wanted, "told", told)
    assert told == "yes" or wrong, "nothing is said to be wrong"
    return told


def main():
    geosvm, geosdoc, path = map(os.path.abspath, sys.argv[1:4])
    every = int(sys.argv[4]) if len(sys.argv) > 4 else 1
    chance = random.Random(int(sys.argv[5]) if len(sys.argv) > 5 else 1)
    with open(path, "rb") as file:
        document = file.read()
    # The slots: 32 bytes on each of the first two pages.
    places = sorted({*range(32), *range(512, 544), *range(0, len(document), every)})
    verdicts, failed = {}, 0
    with tempfile.TemporaryDirectory() as folder:
        changed = os.path.join(folder, "changed")
        for at in places:
            data = bytearray(document)
            data[at] = chance.choice([byte for byte in (0, 1, 255, data[at] ^ (1 << chance.randrange(8))) if byte != data[at]])
            with open(changed, "wb") as file:
                file.write(data)
            try:
                told = try_one(geosvm, geosdoc, changed)
                verdicts[told] = verdicts.get(told, 0) + 1
            except AssertionError as wrong:
                failed += 1
                print(f"FAILED  byte {at} is {data[at]}: {wrong}")
    print("        ", ", ".join(f"opens {verdict}: {count}" for verdict, count in sorted(verdicts.items())))
    print(f"{len(places) - failed} passed, {failed} failed")
    sys.exit(failed != 0)


if __name__ == "__main__":
    main()
