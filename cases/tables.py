"""What the scripts in this folder share: the special pieces of files in tables, and runs of the program.

In a file `@` is a line break, `<0xE9>` that byte, and `<3|PIECE>` the piece three times, in which `$i` is the number of the copy, from 0
on, and `$(6,3)` stands for i / 6 % 3 + 1, in whole numbers.
"""

import concurrent.futures
import os
import pathlib
import re
import subprocess
import sys

FOLDER = pathlib.Path(__file__).resolve().parent
RATE = os.environ.get("RATE") or str(FOLDER.parent / "rate")
SPECIAL = re.compile(r"@|<0x([0-9A-F]{2})>|<([0-9]+)\|([^<>]*)>")
COPY = re.compile(r"\$i|\$\(([0-9]+),([0-9]+)\)")


def copies(count, piece):
    """The piece so many times, with the numbers of the copies in it."""

    def numbered(i):
        return COPY.sub(lambda m: str(i // int(m[1]) % int(m[2]) + 1) if m[1] else str(i), piece)

    return "".join(map(numbered, range(count))).replace("@", "\n")


def bytes_of(text):
    """The bytes that a text with special pieces stands for."""
    written = b""
    start = 0
    for special in SPECIAL.finditer(text):
        written += text[start : special.start()].encode()
        start = special.end()
        byte, count, piece = special.groups()
        if byte:
            written += bytes([int(byte, 16)])
        elif count:
            written += copies(int(count), piece).encode()
        else:
            written += b"\n"
    return written + text[start:].encode()


def lines_of(path):
    """The lines of a table that are no remarks, each with the place where it stands."""
    for number, line in enumerate(path.read_text(encoding="utf-8").splitlines(), 1):
        if line and not line.startswith("#"):
            yield f"{path.name}:{number}", line


def run(words, file):
    """The exit code, standard output and standard error."""
    try:
        done = subprocess.run([RATE, *words], input=file, capture_output=True, timeout=120, check=False)
    except subprocess.TimeoutExpired:
        return -1, "no answer in two minutes", ""
    return done.returncode, done.stdout.decode(errors="replace"), done.stderr.decode(errors="replace")


def check(rows, fault, what):
    """Prints what the program answers in place of what a row wants, and ends with 0 where there is no such row."""
    with concurrent.futures.ThreadPoolExecutor(os.cpu_count()) as pool:
        faults = [text for text in pool.map(fault, rows) if text]
    for text in faults:
        print(text[:600])
    print(f"{len(rows) - len(faults)} of {len(rows)} {what} agree")
    sys.exit(0 if rows and not faults else 1)
