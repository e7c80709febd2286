#!/usr/bin/env python3
"""Tries an engine by the sessions of this folder, and compares what it answers byte by byte.

PROGRAM is any program with the words of docs/FORMATS.md ("The words"); it may be a command of several words in one
argument. A CHAPTER is a line of chapters.txt, or one session of it (CHAPTER/SESSION); without one all are tried.
The exit status is 1 if anything differs.
"""

import argparse
import contextlib
import hashlib
import math
import os
import re
import shlex
import shutil
import signal
import subprocess
import sys
import tempfile
import threading
import time
from dataclasses import dataclass
from pathlib import Path

from session_file import Call, Claim, read_chapters, read_sessions

HERE = Path(__file__).resolve().parent
PRODUCT, JOURNAL = "product.toml", "journal.gxj"
WRITING = {"run", "drill", "checkpoint", "amend"}       # the commands that may change the journal
UNCHANGED_AT = {2, 3, 9, 10, 11, 13}                    # statuses at which the journal stays, whatever the command
TIME_LIMIT = 60                                         # seconds for one call, if --limit does not say it
PAUSE = 0.05                                            # seconds between two pieces of an input
REPORT = re.compile(rb"8=FIX\.4\.2\x01.*?\x0110=\d{3}\x01", re.DOTALL)


class Difference(Exception):
    """What differs in a step."""


@dataclass(frozen=True)
class Result:
    chapter: str
    session: str
    difference: str | None


def content_of(path):
    """The bytes of a file; an absent one is as an empty one."""
    return path.read_bytes() if path.exists() else b""


def shown(data):
    return data.replace(b"\x01", b"|").replace(b"\n", b"\\n").decode("ascii", "backslashreplace")


# ---- product file and journal ----

def put(work, step):
    path = work / (PRODUCT if step.file == "product" else JOURNAL)
    content = bytearray(content_of(path))
    if step.action == "gone":
        path.unlink(missing_ok=True)
        return
    if step.action == "is":
        content = step.content
    elif step.action == "zeros":
        content = bytes(int(step.values[0]))
    elif step.action == "pad":
        content = content.ljust(int(step.values[0]), b"#")
    elif step.action == "set":
        place, data = int(step.values[0]), bytes.fromhex(step.values[1])
        content[place:place + len(data)] = data
    elif step.action == "add":
        content += bytes.fromhex(step.values[0])
    path.write_bytes(content)


def hold(journal, claim):
    """Holds the journal to what it has to be."""
    if claim.action == "has" and len(journal) != int(claim.values[0]):
        raise Difference(f"the journal has {len(journal)} bytes, and not {claim.values[0]}")
    if claim.action == "shows":
        place, data = int(claim.values[0]), bytes.fromhex(claim.values[1])
        if journal[place:place + len(data)] != data:
            raise Difference(f"the journal has {journal[place:place + len(data)].hex() or 'nothing'} at {place}")
    if claim.action == "is" and journal != claim.content:
        raise Difference(f"the journal differs at {first_difference(claim.content, journal)}: "
                         f"{len(claim.content)} bytes are expected, and {len(journal)} there")
    if claim.action == "digest":
        found = [str(len(journal)), hashlib.sha256(journal).hexdigest()]
        if found != claim.values:
            raise Difference(f"the journal is {' '.join(found)}, and not {' '.join(claim.values)}")


def first_difference(one, two):
    """The first place at which two lists differ, or the shorter one ends."""
    return next((place for place, (left, right) in enumerate(zip(one, two)) if left != right), min(len(one), len(two)))


# ---- calls of the program ----

def answer_of(program, work, call, limit):
    """Calls the program, and hands it its input from a file, or in pieces through a pipe. The status is nothing if it was stopped."""
    command = [*program, *call.words]
    with tempfile.TemporaryFile() as output, tempfile.TemporaryFile() as errors, tempfile.TemporaryFile() as file:
        file.write(call.pieces[0])
        file.seek(0)
        source = file if len(call.pieces) == 1 else subprocess.PIPE
        started = subprocess.Popen(command, cwd=work, stdin=source, stdout=output, stderr=errors, start_new_session=True)
        if len(call.pieces) > 1:
            threading.Thread(target=hand_over, args=[started.stdin, call.pieces], daemon=True).start()
        status = status_of(started, limit)
        output.seek(0)
        errors.seek(0)
        return status, output.read(), errors.read()


def status_of(started, limit):
    """Waits for a program, and answers its status. If it does not end in time, it is stopped with all that it started."""
    try:
        return started.wait(limit)
    except subprocess.TimeoutExpired:
        return None
    finally:
        if started.returncode is None:
            os.killpg(started.pid, signal.SIGKILL)
            started.wait()


def hand_over(pipe, pieces):
    with contextlib.suppress(BrokenPipeError), pipe:
        for piece in pieces:
            pipe.write(piece)
            pipe.flush()
            time.sleep(PAUSE)


def copy_if_there(path, copy):
    if path.exists():
        shutil.copyfile(path, copy)


def keep_given(kept, work, call):
    """Keeps what a call is given: its input, the product file, and the journal before it."""
    kept.mkdir(parents=True)
    (kept / "input").write_bytes(b"".join(call.pieces))
    copy_if_there(work / PRODUCT, kept / PRODUCT)
    copy_if_there(work / JOURNAL, kept / "before.gxj")


def keep_left(kept, work, output, errors):
    """Keeps what a call sent, and the journal after it."""
    (kept / "sent").write_bytes(output)
    (kept / "errors").write_bytes(errors)
    copy_if_there(work / JOURNAL, kept / JOURNAL)


def try_call(program, work, call, limit, kept):
    before = content_of(work / JOURNAL)
    if kept:
        keep_given(kept, work, call)
    status, output, errors = answer_of(program, work, call, limit)
    if kept:
        keep_left(kept, work, output, errors)
    if status is None:
        raise Difference(f"no end within {limit:g} seconds")
    faults = output_faults(call.output, output)
    if status != call.status:
        faults.append(f"exit status: expected {call.status}, got {status}")
    line = f"globex: status {call.status} at {call.at} after {call.after} messages\n" if call.status else ""
    last = last_line(errors)
    if last != line.encode():
        faults.append(f"the last line of standard error:\n  expected {line.strip() or 'nothing'}\n"
                      f"  got      {shown(last.strip()) or 'nothing'}")
    if call.status in UNCHANGED_AT or not WRITING & set(call.words):
        if content_of(work / JOURNAL) != before:
            faults.append("the journal has changed")
    if faults:
        raise Difference("\n".join(faults))


def last_line(errors):
    """The line of the status. What comes before it is words for people, and free."""
    return errors[errors.rfind(b"\n", 0, -1) + 1:]


def parts_of(output):
    """The reports of an output, or the lines of a printed form, and whatever is neither."""
    parts, place = [], 0
    while place < len(output):
        report = REPORT.match(output, place)
        end = report.end() if report else output.find(b"\n", place) + 1 or len(output)
        parts.append(output[place:end])
        place = end
    return parts


def output_faults(expected, got):
    """Nothing, or the first report or line that differs."""
    if expected == got:
        return []
    wanted, given = parts_of(expected), parts_of(got)
    place = first_difference(wanted, given)
    one, two = (shown(parts[place]) if place < len(parts) else "no more output" for parts in (wanted, given))
    return [f"report or line {place + 1} (expected {len(wanted)}, got {len(given)}):\n  expected {one}\n  got      {two}"]


# ---- sessions ----

def name_of(action):
    return f"call {action.number}: {' '.join(action.words)}" if isinstance(action, Call) else "journal"


def try_session(program, session, limit=TIME_LIMIT, keep=None):
    """Nothing, or what differs in the first step that differs, with its rule. Files are kept in a folder, if there is one."""
    with tempfile.TemporaryDirectory(prefix="conformance-") as folder:
        work = Path(folder)
        for step in session.steps:
            try:
                if isinstance(step.action, Call):
                    kept = keep and keep / session.chapter / session.name / f"call-{step.action.number}"
                    try_call(program, work, step.action, limit, kept)
                elif isinstance(step.action, Claim):
                    hold(content_of(work / JOURNAL), step.action)
                else:
                    put(work, step.action)
            except Difference as difference:
                return f"line {step.line}, {name_of(step.action)}\nrule: {step.rule}\n{difference}"
    return None


def chosen_sessions(chapters, names, without):
    """The sessions of the chapters or of the names, but for those that need what the engine does not offer."""
    chosen = {chapter: read_sessions(HERE, chapter) for chapter in chapters
              if not names or any(name.partition("/")[0] == chapter for name in names)}
    return [session for chapter, sessions in chosen.items() for session in sessions
            if (not names or chapter in names or f"{chapter}/{session.name}" in names)
            and not session.needs() & set(without)]


def try_sessions(program, sessions, headings, arguments):
    """Tries sessions one after the other, and prints each that differs."""
    results = []
    for session in sessions:
        result = Result(session.chapter, session.name, try_session(program, session, arguments.limit, arguments.keep))
        results.append(result)
        if result.difference:
            lines = f"{result.chapter}/{result.session} differs ({headings[result.chapter]})\n{result.difference}"
            print(lines.replace("\n", "\n  "), flush=True)
            if arguments.first:
                break
    return results


def print_summary(results):
    chapters = list(dict.fromkeys(result.chapter for result in results))
    width = max(map(len, chapters))
    print(f"{'chapter':{width}}  sessions  differ")
    for chapter in chapters:
        found = [result for result in results if result.chapter == chapter]
        print(f"{chapter:{width}}  {len(found):8}  {sum(result.difference is not None for result in found):6}")
    print(f"{len(results)} sessions, {sum(result.difference is not None for result in results)} differ")


def program_of(text):
    """The words of a command; those that are files are made absolute, since sessions run in folders of their own."""
    words = shlex.split(text)
    found = [str(Path(word).resolve()) if Path(word).is_file() else word for word in words]
    if not found or not shutil.which(found[0]):
        raise SystemExit(f"no program {text}")
    return found


def seconds(text):
    number = float(text)
    if not 0 < number < math.inf:
        raise ValueError
    return number


def new_folder(text):
    """A folder that is not there yet, or is empty, so that no files of other runs are among those that are kept."""
    folder = Path(text).resolve()
    if folder.exists() and (not folder.is_dir() or any(folder.iterdir())):
        raise argparse.ArgumentTypeError(f"{text} is there, and is no empty folder")
    return folder


def read_arguments():
    parser = argparse.ArgumentParser(description=__doc__, formatter_class=argparse.RawDescriptionHelpFormatter)
    parser.add_argument("program", metavar="PROGRAM")
    parser.add_argument("chapters", metavar="CHAPTER", nargs="*")
    parser.add_argument("--without", metavar="WORD", action="append", default=[],
                        help="leave out the sessions that call this command, or send a message of this type (as 35=G)")
    parser.add_argument("--list", action="store_true", help="print the sessions and the rules that they try, and run none")
    parser.add_argument("--keep", metavar="FOLDER", type=new_folder,
                        help="keep the files of each call in FOLDER/CHAPTER/SESSION/call-N; FOLDER is new or empty")
    parser.add_argument("--limit", metavar="SECONDS", type=seconds, default=TIME_LIMIT,
                        help=f"stop a call that does not end in this time; its session differs ({TIME_LIMIT} if absent)")
    parser.add_argument("--first", action="store_true", help="end at the first session that differs")
    return parser, parser.parse_args()


def main():
    parser, arguments = read_arguments()
    headings = read_chapters(HERE)
    unknown = [name for name in arguments.chapters if name.partition("/")[0] not in headings]
    sessions = chosen_sessions(headings, arguments.chapters, arguments.without)
    if unknown or not sessions:
        parser.error(f"no chapter {unknown[0]}" if unknown else "no session is chosen")
    if arguments.list:
        for session in sessions:
            print(f"{session.chapter}/{session.name}")
            print("".join(f"  {rule}\n" for rule in dict.fromkeys(step.rule for step in session.steps)), end="")
        return 0
    results = try_sessions(program_of(arguments.program), sessions, headings, arguments)
    print_summary(results)
    return 1 if any(result.difference for result in results) else 0


if __name__ == "__main__":
    sys.exit(main())
