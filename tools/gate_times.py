#!/usr/bin/env python3
"""The time that each crate takes of the gate: its proof, its must-fail edits, and both together.

    tools/gate_times.py LOG                     from a log of `rt ci`, `rt check` or `rt must-fail`
    bash .ci/run 2>&1 | tools/gate_times.py     as a filter: lines pass through, and the clock's times are added

Seconds are those that rt prints, whole ones. What runs beside something else is counted in full, so the sums exceed the clock's times. As a filter it
ends with 1 where the gate did not pass.
"""
import re
import sys
import time

PROVED = re.compile(r"rt: (\S+) proved \((\d+) s\)")
EDIT = re.compile(r"rt: must-fail (\S+?)/(\S+?): (refused|NOT REFUSED|BAD EDIT)(?:.*?(\d+) s\))?")
RAN = re.compile(r"rt: (\S+) ran ")
VERDICT = re.compile(r"rt: (?:ok|FAILED)|\d+ passed, \d+ failed")


class Crate:
    def __init__(self):
        self.proof, self.edits = 0, []


def read(lines, pass_on):
    """The crates with their times, by name in the log's order; the clock at the last line of each phase; and the verdict."""
    crates, clock, verdict = {}, {}, "no verdict"
    for line in lines:
        if pass_on:
            print(line, end="", flush=True)
        if VERDICT.match(line):
            verdict = line.strip()
        for phase, pattern in (("proofs", PROVED), ("edits", EDIT), ("programs", RAN)):
            found = pattern.match(line)
            if not found:
                continue
            clock[phase] = time.monotonic()
            if phase == "proofs":
                crates.setdefault(found[1], Crate()).proof = int(found[2])
            elif phase == "edits":
                crates.setdefault(found[1], Crate()).edits.append(int(found[4] or 0))
    return crates, clock, verdict


def table(crates):
    row = "{:24} {:>7} {:>6} {:>8} {:>8} {:>7}".format
    print(row("crate", "proof s", "edits", "edits s", "longest", "all s"))
    for name, crate in crates.items():
        print(row(name, crate.proof, len(crate.edits), sum(crate.edits), max(crate.edits, default=0), crate.proof + sum(crate.edits)))
    proof, edits = sum(crate.proof for crate in crates.values()), [seconds for crate in crates.values() for seconds in crate.edits]
    print(row(f"{len(crates)} crates", proof, len(edits), sum(edits), max(edits, default=0), proof + sum(edits)))


def main(arguments):
    if len(arguments) > 1 or (not arguments and sys.stdin.isatty()):
        sys.exit(__doc__)
    began = time.monotonic()
    lines = open(arguments[0], encoding="utf-8") if arguments else sys.stdin
    crates, clock, verdict = read(lines, not arguments)
    table(crates)
    if not arguments:
        for phase, end in clock.items():
            print(f"by the clock, {phase}: {end - began:.0f} s")
            began = end
        print(verdict)
        sys.exit(0 if verdict.startswith("rt: ok") or verdict.endswith("passed, 0 failed") else 1)


if __name__ == "__main__":
    main(sys.argv[1:])
