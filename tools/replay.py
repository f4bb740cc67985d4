#!/usr/bin/env python3
"""Puts together what the program `replay_test` reads and must print: the samples, the refusals (tools/refusals.py) and the sample of the Rust's answers.

    tools/replay.py           writes samples/*.echo from samples/*.txt, crates/echoes/stdin and stdout, crates/replay_test/stdin and stdout
    tools/replay.py check     compares them instead; last line: N passed, M failed
    tools/replay.py list      prints each file's name and what must be printed of it

No expected text comes from the program: samples/*.printed and tools/refusals.py are reasoned from document 01, samples/rust is written by
compare/replay.sh from the Rust's answers.
"""
import struct
import sys
from pathlib import Path

from echo_file import is_search, records, text_bytes
from refusals import CASES

TOP = Path(__file__).resolve().parent.parent
SAMPLES = TOP / "samples"


def samples():
    """Each readable sample, its file and its printed text."""
    for text in sorted(SAMPLES.glob("*.txt")):
        yield text.stem, text_bytes(text.read_text(encoding="utf-8")), text.with_suffix(".printed").read_text()


def answers(lines, count):
    """The lines of the next answers, each of which ends with `whole` or `cut`."""
    text = ""
    while count > 0:
        line = next(lines)
        count -= line.startswith(("whole ", "cut "))
        text += line
    return text


def rust_sample():
    """The files of samples/rust and their answers. The lines of all files stand one after the other, so each file takes those of its searches."""
    data = (SAMPLES / "rust/stdin").read_bytes()
    lines = iter((SAMPLES / "rust/stdout").read_text().splitlines(keepends=True))
    at = 0
    while at < len(data):
        length = struct.unpack_from("<I", data, at)[0]
        file = data[at + 4:at + 4 + length]
        found, ended = records(file)
        assert ended and len(file) == length
        yield f"the Rust's, at byte {at}", file, answers(lines, sum(map(is_search, found)))
        at += 4 + length
    assert next(lines, None) is None


def cases():
    return [*samples(), *CASES, *rust_sample()]


def outputs():
    """Every file that this script writes, with its content."""
    worked = next(case for case in samples() if case[0] == "worked_example")
    made = {SAMPLES / f"{name}.echo": file for name, file, _ in samples()}
    made[TOP / "crates/echoes/stdin"] = worked[1]
    made[TOP / "crates/echoes/stdout"] = worked[2].encode()
    made[TOP / "crates/replay_test/stdin"] = b"".join(struct.pack("<I", len(file)) + file for _, file, _ in cases())
    made[TOP / "crates/replay_test/stdout"] = "".join(text + "-\n" for _, _, text in cases()).encode()
    return made


def check():
    failed = [path for path, content in outputs().items() if not path.exists() or path.read_bytes() != content]
    for path in failed:
        print("not as it would be written:", path.relative_to(TOP))
    print(f"{len(outputs()) - len(failed)} passed, {len(failed)} failed")
    sys.exit(1 if failed else 0)


def main():
    if sys.argv[1:] == ["check"]:
        check()
    elif sys.argv[1:] == ["list"]:
        for name, file, text in cases():
            print(f"{name} ({len(file)} bytes): {text.strip().replace(chr(10), ', ')}")
    elif sys.argv[1:]:
        sys.exit(__doc__)
    else:
        for path, content in outputs().items():
            path.write_bytes(content)
        print(len(cases()), "files,", sum(len(file) + 4 for _, file, _ in cases()), "bytes")


if __name__ == "__main__":
    main()
