#!/usr/bin/env python3
"""Measures how many messages a second `globex run` serves, how many it recovers, and how long it takes after a checkpoint.

Makes 100,000 limit orders and cancels of four firms, always the same ones, in ten streams of 10,000. In a folder in memory
it runs the program over each stream with a new journal, one after the other, forty times, and then over the journals that
these runs leave with an empty input, which is recovery alone. It measures the time by the clock, and the processor time of the
program with its starts. In a folder on a disk it runs the program over one stream of
100,000 from a file, where each record waits for two syncs, and measures beside it, in turn, what the syncs of records of
8,192 bytes cost without the engine. It does the same once more on a slower disk, which strace makes of this one: each sync takes
two milliseconds more. The spread between the rounds is the machine's noise.

At the end it measures what a checkpoint spares a start, in a folder in memory, over two journals of 400,000 messages: those of a
drill, which fill a book of 100,000 orders, so that the image is as long as may be; and orders of which each trades, with one
live order. In each round the program recovers with an empty input from a journal without an image, makes a checkpoint of it, and
recovers from the image. The bytes are those that the process read beside its words and what `steps` reads: the journal's.

    ./run-example.sh                           builds the program
    bench/measure.py [PROGRAM [DISK_FOLDER]]   the folder is a new one in that one, or in the current one
    bench/measure.py --disk [PROGRAM [DISK_FOLDER]]   the part on a disk alone
    bench/measure.py --checkpoint [PROGRAM]    the last part alone
    bench/measure.py --compare PROGRAM..       the first part alone, of several programs, in turn within each round. Any program will do
                                               that takes the word `run`, and product, input and journal as this one does. For each
                                               program after the first it also says how many times the first one's speed it has, by
                                               processor time in the same round
"""

import os
import pathlib
import resource
import shutil
import statistics
import subprocess
import sys
import tempfile
import time

import streams

STREAMS = 10
MESSAGES = 10_000
ROUNDS = 40
JOURNAL_START = 4_096
RECORD = 8_192
DISK_ROUNDS = 5
SLOWER_BY = 2_000
PAIRS = "--pairs"
RESTART_MESSAGES = 400_000
RESTART_ROUNDS = 5
KEYS = "max_orders = 100000\njournal_limit = 67108864\n"


class Seconds:
    """Seconds by the clock, and seconds of processor time of the processes that ended meanwhile, user and system together."""

    def __init__(self, clock=0.0, processor=0.0):
        self.clock = clock
        self.processor = processor

    @staticmethod
    def now():
        used = resource.getrusage(resource.RUSAGE_CHILDREN)
        return Seconds(time.perf_counter(), used.ru_utime + used.ru_stime)

    def since(self, start):
        return Seconds(self.clock - start.clock, self.processor - start.processor)

    def add(self, other):
        self.clock += other.clock
        self.processor += other.processor


def run(program, folder, bytes_in):
    """Seconds and report bytes of one run."""
    started = Seconds.now()
    done = subprocess.run([program, "run"], cwd=folder, input=bytes_in, stdout=subprocess.PIPE, check=True)
    return Seconds.now().since(started), len(done.stdout)


def new_folder(parent, keys=""):
    """A new folder with the product in it, which goes when it is closed."""
    folder = tempfile.TemporaryDirectory(dir=parent)
    streams.write_product(folder.name, keys)
    return folder


def serve_and_recover(program, folder, inputs):
    """Seconds of serving, seconds of recovering and report bytes, of one round over all inputs."""
    served, recovered = Seconds(), Seconds()
    reports = 0
    for bytes_in in inputs:
        pathlib.Path(folder, streams.JOURNAL).unlink(missing_ok=True)
        seconds, sent = run(program, folder, bytes_in)
        served.add(seconds)
        reports += sent
        seconds, _ = run(program, folder, b"")
        recovered.add(seconds)
    return served, recovered, reports


def sync_pairs(folder, count):
    """Seconds of writing a record, syncing, writing one byte, and syncing, so many times."""
    with open(os.path.join(folder, "pairs"), "wb", buffering=0) as file:
        file.write(bytes(JOURNAL_START))
        os.fsync(file)
        place = JOURNAL_START
        started = time.perf_counter()
        for _ in range(count):
            os.pwrite(file.fileno(), bytes(RECORD), place)
            os.fsync(file)
            os.pwrite(file.fileno(), b"\1", place - 1)
            os.fsync(file)
            place += RECORD
        return time.perf_counter() - started


def slower(microseconds):
    """The words in front of a call in which each sync takes so much longer; none where that is 0."""
    if microseconds == 0:
        return []
    delay = f"inject=fsync:delay_exit={microseconds}"
    return ["strace", "-f", "-qq", "--seccomp-bpf", "-o", os.devnull, "-e", "trace=fsync", "-e", delay]


def rates(count, seconds):
    per_second = [count / s for s in seconds]
    return f"{max(per_second):,.0f} at best, {statistics.median(per_second):,.0f} in the middle, {min(per_second):,.0f} at worst"


def measure_in_memory(programs):
    """Prints what each program serves and recovers. In each round they come one after the other."""
    inputs = [b"".join(streams.mixed(seed, MESSAGES)) for seed in range(1, STREAMS + 1)]
    with new_folder(streams.MEMORY_FOLDER) as folder:
        rounds = [[serve_and_recover(program, folder, inputs) for program in programs] for _ in range(ROUNDS)]
    total = STREAMS * MESSAGES
    print(f"{total} messages, {sum(map(len, inputs))} bytes in, {rounds[0][0][2]} bytes of reports out, journal in {streams.MEMORY_FOLDER}")
    by_program = list(zip(*rounds))
    for number, (program, measured) in enumerate(zip(programs, by_program)):
        if len(programs) > 1:
            print(program)
        for part, what in enumerate(("served", "recovered")):
            print(f"messages a second, {what}: {rates(total, [each[part].clock for each in measured])}")
            print(f"messages a second of processor time, {what}: {rates(total, [each[part].processor for each in measured])}")
            if number > 0:
                times = [first[part].processor / each[part].processor for first, each in zip(by_program[0], measured)]
                print(f"times the speed of the first program, {what}, by processor time: {statistics.median(times):.2f} in the middle")


def run_from_file(program, folder, input_file, microseconds):
    """Seconds of a run whose input is a file, over a new journal, and how many records it leaves."""
    pathlib.Path(folder, streams.JOURNAL).unlink(missing_ok=True)
    with open(input_file, "rb") as file:
        started = time.perf_counter()
        subprocess.run([*slower(microseconds), program, "run"], cwd=folder, stdin=file, stdout=subprocess.DEVNULL, check=True)
        seconds = time.perf_counter() - started
    return seconds, len(streams.payloads(os.path.join(folder, streams.JOURNAL)))


def pairs_alone(folder, count, microseconds):
    """Seconds of so many pairs of syncs in a process of their own."""
    words = [*slower(microseconds), sys.executable, __file__, PAIRS, folder, str(count)]
    return float(subprocess.run(words, stdout=subprocess.PIPE, check=True).stdout)


def measure_on_disk(program, parent, microseconds):
    """Prints what a run reaches of what the syncs of its records allow, where each sync takes so much longer than the disk's."""
    bytes_in = b"".join(streams.mixed(1, STREAMS * MESSAGES))
    with new_folder(parent, KEYS) as folder:
        input_file = os.path.join(folder, "input")
        pathlib.Path(input_file).write_bytes(bytes_in)
        least = -(-len(bytes_in) // RECORD)
        served, bare = [], []
        for _ in range(DISK_ROUNDS):
            seconds, records = run_from_file(program, folder, input_file, microseconds)
            served.append(seconds)
            bare.append(pairs_alone(folder, least, microseconds))
    disk = f"the disk of {parent}" + (f", each sync {microseconds} microseconds slower" if microseconds else "")
    print(f"{STREAMS * MESSAGES} messages from a file, journal on {disk}: {records} records, {least} at the least")
    print(f"messages a second, served: {rates(STREAMS * MESSAGES, served)}")
    print(f"two writes and two syncs of {RECORD} bytes without the engine: {rates(least, bare)} a second")
    print(f"of what these syncs allow the run reaches {statistics.median(b / s for b, s in zip(bare, served)):.3f} in the middle of {DISK_ROUNDS} rounds")


def timed(program, folder, command):
    """Seconds of a call with an empty input, and how many bytes its process read, libraries and product too, but for its word."""
    started = time.perf_counter()
    call = subprocess.Popen([program, command], cwd=folder, stdin=subprocess.DEVNULL, stdout=subprocess.DEVNULL)
    # The process is left to be waited for until its counts are read.
    os.waitid(os.P_PID, call.pid, os.WEXITED | os.WNOWAIT)
    seconds = time.perf_counter() - started
    counts = dict(line.split(": ") for line in pathlib.Path(f"/proc/{call.pid}/io").read_text().splitlines())
    if call.wait() != 0:
        sys.exit(f"{command} ended with status {call.returncode}")
    return seconds, int(counts["rchar"]) - len(command)


def restart(program, folder):
    """Seconds and bytes of a start without an image, of a checkpoint, and of a start from its image, over the journal there."""
    journal = os.path.join(folder, streams.JOURNAL)
    kept = os.path.join(folder, "kept")
    shutil.copyfile(journal, kept)
    _, others = timed(program, folder, "steps")
    rounds = []
    for _ in range(RESTART_ROUNDS):
        shutil.copyfile(kept, journal)
        calls = [timed(program, folder, command) for command in ("run", "checkpoint", "run")]
        rounds.append([(seconds, read - others) for seconds, read in calls])
    added = os.path.getsize(journal) - os.path.getsize(kept)
    return rounds, os.path.getsize(kept), added


def measure_restart(program, name, fill):
    """Prints what a checkpoint of a journal that `fill` makes spares a start."""
    with new_folder(streams.MEMORY_FOLDER, KEYS) as folder:
        live = fill(folder)
        rounds, length, added = restart(program, folder)
    middles = [statistics.median(seconds for seconds, _ in calls) for calls in zip(*rounds)]
    read = [calls[0][1] for calls in zip(*rounds)]
    print(f"{RESTART_MESSAGES} messages, {name}, {live} live orders: a journal of {length} bytes, and {added} of the checkpoint")
    for what, seconds, count in zip(("a start without an image", "the checkpoint", "a start from its image"), middles, read):
        print(f"{what}: {seconds * 1_000:,.0f} ms in the middle of {RESTART_ROUNDS} rounds, {count} bytes read")
    print(f"of the first the last is {middles[2] / middles[0]:.3f} in time, and {read[2] / read[0]:.3f} in bytes")


def measure_checkpoints(program):
    def drilled(folder):
        words = [program, "drill", "--first", "1", "--count", str(RESTART_MESSAGES)]
        done = subprocess.run(words, cwd=folder, stdout=subprocess.PIPE, check=True)
        return int(done.stdout.split()[-1])

    def traded(folder):
        run(program, folder, b"".join(streams.trading(RESTART_MESSAGES)))
        return 1

    measure_restart(program, "made by a drill", drilled)
    measure_restart(program, "each of which trades", traded)


def program_at(path):
    if not os.access(path, os.X_OK):
        sys.exit(f"there is no program at {path}: ./run-example.sh builds it")
    return os.path.abspath(path)


def main():
    words = [word for word in sys.argv[1:] if not word.startswith("--")]
    if PAIRS in sys.argv[1:]:
        print(sync_pairs(words[0], int(words[1])))
        return
    if "--compare" in sys.argv[1:]:
        measure_in_memory([program_at(word) for word in words])
        return
    program = program_at(words[0] if words else streams.PROGRAM)
    disk = os.path.abspath(words[1] if len(words) > 1 else os.curdir)
    parts = [word for word in ("--disk", "--checkpoint") if word in sys.argv[1:]]
    if not parts:
        measure_in_memory([program])
    if not parts or "--disk" in parts:
        for microseconds in (0, SLOWER_BY):
            measure_on_disk(program, disk, microseconds)
    if not parts or "--checkpoint" in parts:
        measure_checkpoints(program)


if __name__ == "__main__":
    main()
