"""Runs both programs on every case, and holds their standard output and exit status together."""

import collections
import concurrent.futures
import fcntl
import os
import struct
import subprocess
import termios
import time

import packages

CASES = 6000
# A disagreement past these is counted and saved, but no longer printed.
SHOWN = 20
# Longer than any sound run by far; a program that hangs is a disagreement, not a halt of the bench.
PATIENCE = 60
# What a package can be refused by: 11, 18, 21 and 22 are settled by reading, and by the month being new.
REACHABLE = (1, 2, 3, 4, 5, 6, 12, 13, 14, 15, 16, 17, 23)


def answer(program, data):
    """The program's exit status and standard output; the input goes through a pipe, in pieces."""
    try:
        done = subprocess.run([program], input=data, stdout=subprocess.PIPE, stderr=subprocess.DEVNULL,
                              timeout=PATIENCE)
    except subprocess.TimeoutExpired:
        return "no end", b""
    return done.returncode, done.stdout


def outcome(output):
    """The number of the refusal that was printed, or 0 for a statement."""
    words = output.split(b" ", 2)
    return int(words[1]) if words[0] == b"refused" else 0


def compare(settle, baseline, folder):
    """Compares all cases; answers how many passed, how many failed, and how often each outcome came."""
    passed, failed, outcomes = 0, 0, collections.Counter()

    def one(number):
        kind, data = packages.package(number)
        return number, kind, data, answer(settle, data), answer(baseline, data)

    with concurrent.futures.ThreadPoolExecutor(os.cpu_count()) as pool:
        for number, kind, data, ours, theirs in pool.map(one, range(CASES)):
            if ours == theirs and ours[0] == 0:
                passed += 1
                outcomes[outcome(ours[1])] += 1
                continue
            failed += 1
            path = os.path.join(folder, f"case-{number}.package")
            with open(path, "wb") as file:
                file.write(data)
            if failed <= SHOWN:
                print(f"case {number} ({kind}): settle {told(ours)}, baseline {told(theirs)}; saved as {path}")
    return passed, failed, outcomes


def told(result):
    status, output = result
    last = output.decode(errors="replace").splitlines()[-1:] or ["nothing"]
    return f"status {status}, {len(output)} bytes, last line '{last[0][:100]}'"


def spread(outcomes):
    """Whether the cases still are what they are meant to be: each refusal reached, about half settled."""
    total = sum(outcomes.values())
    missing = [number for number in REACHABLE if not outcomes[number]]
    print(f"{total} cases agree: {outcomes[0]} settle; refused by "
          + ", ".join(f"{number}: {outcomes[number]}" for number in REACHABLE))
    if missing:
        print(f"no case was refused by {missing}")
    half = total > 0 and 0.4 * total <= outcomes[0] <= 0.6 * total
    if not half:
        print("not about half of the cases settle")
    return [not missing, half]


def waiting(pipe):
    """How many bytes stand in the pipe, not yet read."""
    return struct.unpack("i", fcntl.ioctl(pipe, termios.FIONREAD, bytes(4)))[0]


def taken(program):
    """How many bytes the program reads of an input that is too long and comes in two parts: a program
    that reads ahead takes too many of the second."""
    parts = bytes(40_000), bytes(20_000)
    out_of, into = os.pipe()
    process = subprocess.Popen([program], stdin=out_of, stdout=subprocess.DEVNULL, stderr=subprocess.DEVNULL)
    os.write(into, parts[0])
    for _ in range(1000 * PATIENCE):
        if not waiting(out_of) or process.poll() is not None:
            break
        time.sleep(0.001)
    os.write(into, parts[1])
    os.close(into)
    try:
        process.wait(PATIENCE)
    except subprocess.TimeoutExpired:
        process.kill()
        process.wait()
    left = waiting(out_of)
    os.close(out_of)
    return sum(map(len, parts)) - left


def frugal(settle, baseline):
    """Whether each program reads at most one byte past the largest package."""
    counts = taken(settle), taken(baseline)
    for name, count in zip(("settle", "baseline"), counts):
        print(f"of an input that is too long {name} reads {count} bytes; {packages.MAX_BYTES + 1} is the most")
    return [count <= packages.MAX_BYTES + 1 for count in counts]
