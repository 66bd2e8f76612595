"""Counts the instructions of both programs on measured hours, by valgrind's callgrind."""

import os
import re
import subprocess

import packages

# The largest hour may take this many times the baseline's instructions.
MOST = 1.5
# A further holding in the second half of the largest hour may cost this many times one in the first.
# Where cost is linear the two are equal; where a search through all earlier holdings outweighs the rest
# the second is three times the first.
GROWTH = 1.5

MIDDLING = (8, 64, 256)
STEPS = (0, 128, 256, 512, 1024)


class NotCounted(Exception):
    """A measured run did not end as it should, so there is no count of it."""


def hours():
    """Each measured input by its name."""
    yield "no input", b""
    yield "empty hour", packages.measured(0, 0, 0)
    yield "middling hour", packages.measured(*MIDDLING)
    for holdings in STEPS:
        yield step(holdings), packages.measured(32, 256, holdings)
    yield "largest, all derated", packages.measured(*packages.LARGEST, derated=True)


def step(holdings):
    return f"largest, {holdings} holdings"


def count(program, data, folder):
    """The instructions of the whole process from its start to its end, and what it printed."""
    input_path, counts_path = os.path.join(folder, "measured.package"), os.path.join(folder, "callgrind.out")
    with open(input_path, "wb") as file:
        file.write(data)
    command = ["valgrind", "--tool=callgrind", "--vgdb=no", f"--callgrind-out-file={counts_path}", program]
    # The loader reads the environment, so a fixed one makes the count the same for everyone.
    environment = {"PATH": os.environ["PATH"], "TMPDIR": folder}
    with open(input_path, "rb") as file:
        done = subprocess.run(command, stdin=file, capture_output=True, env=environment, check=False)
    if done.returncode != 0:
        said = done.stderr.decode(errors="replace")
        raise NotCounted(f"{' '.join(command)} ended with {done.returncode}:\n{said}")
    with open(counts_path, encoding="utf-8") as file:
        return int(re.search(r"^totals: (\d+)$", file.read(), re.MULTILINE)[1]), done.stdout


def table(settle, baseline, folder):
    """Counts every hour and prints the table; answers the counts, and whether both printed the same."""
    counts, same = {}, True
    print(f"\n{'hour':24}{'settle':>12}{'baseline':>12}{'ratio':>8}{'past start':>12}")
    for name, data in hours():
        ours, our_text = count(settle, data, folder)
        theirs, their_text = count(baseline, data, folder)
        counts[name] = ours, theirs
        same &= our_text == their_text
        past = "-"
        if name != "no input":
            start = counts["no input"]
            past = f"{(ours - start[0]) / (theirs - start[1]):.2f}"
        print(f"{name:24}{ours:12,}{theirs:12,}{ours / theirs:8.2f}{past:>12}", flush=True)
    return counts, same


def growth(counts):
    """Prints what a further holding costs, and answers for both programs whether that stays level."""
    print(f"\n{'a further holding':24}{'settle':>12}{'baseline':>12}")
    for few, more in zip(STEPS, STEPS[1:]):
        ours, theirs = (slope(counts, which, few, more) for which in (0, 1))
        print(f"{f'from {few} to {more}':24}{ours:12,.0f}{theirs:12,.0f}")
    return [slope(counts, which, 512, 1024) <= GROWTH * slope(counts, which, 0, 512) for which in (0, 1)]


def slope(counts, which, few, more):
    return (counts[step(more)][which] - counts[step(few)][which]) / (more - few)


def check(settle, baseline, folder):
    """All that is checked of the counts, as a list of what passed."""
    counts, same = table(settle, baseline, folder)
    ours, theirs = counts[step(1024)]
    level = growth(counts)
    print()
    if not same:
        print("the two programs printed different text for a measured hour")
    if ours > MOST * theirs:
        print(f"the largest hour takes {ours / theirs:.2f} times the baseline's instructions; {MOST} is the most")
    for name, is_level in zip(("settle", "baseline"), level):
        if not is_level:
            print(f"{name}: a holding past 512 costs more than {GROWTH} times one before")
    return [same, ours <= MOST * theirs, *level]
