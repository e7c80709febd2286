"""What the tests share: the documents, and calls of the tools."""

import functools
import io
import pathlib
import subprocess
import sys
from unittest import mock

TOOLS = pathlib.Path(__file__).resolve().parent
TOP = TOOLS.parent
FORMATS = TOP / "docs" / "FORMATS.md"
EXAMPLES = sorted((TOP / "examples").glob("*/orders.txt"))
PROGRAM = TOP / "crates" / "globex_cli"


@functools.cache
def code_of(tool):
    return compile((TOOLS / tool).read_text(), str(TOOLS / tool), "exec")


def stream(data=b""):
    return io.TextIOWrapper(io.BytesIO(data), encoding="utf-8", newline="\n", write_through=True)


def call(tool, *words, given=b""):
    """Status, standard output and standard error of a call. It is made in this process, which is faster."""
    out, error, status = stream(), stream(), 0
    with mock.patch.multiple(sys, argv=[tool, *map(str, words)], stdin=stream(given), stdout=out, stderr=error):
        try:
            exec(code_of(tool), {"__name__": "__main__", "__doc__": None})
        except SystemExit as end:
            status = end.code or 0
            if isinstance(status, str):
                print(status, file=error)
                status = 1
    return status, out.buffer.getvalue(), error.buffer.getvalue().decode()


def call_program(tool, *words, given=b""):
    """The same of a process of its own."""
    command = [str(TOOLS / tool), *(str(word) for word in words)]
    done = subprocess.run(command, input=given, capture_output=True)
    return done.returncode, done.stdout, done.stderr.decode()


def soh(text):
    """The bytes of `|`-text."""
    return text.replace("|", "\x01").encode("ascii")


def documented_frames():
    """The lines of docs/FORMATS.md that are whole frames."""
    lines = FORMATS.read_text().splitlines()
    return [line for line in lines if line.startswith("8=FIX.4.2|9=") and "|35=" in line]
