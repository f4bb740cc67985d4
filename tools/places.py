#!/usr/bin/env python3
"""The ways back of a crate's proofs, counted anew after its code has changed.

    tools/places.py CRATE            writes them into crates/CRATE/proofs
    tools/places.py CRATE --check    only says which are off

A proof names a place of the code once, `abbrev NAME : tie.LATER → tie.EARLIER`, with the way back as so many `.before`. Both records keep their names when
a statement is put in or taken out between them; the number of steps does not. It is counted in what `rt dev CRATE --generated` prints.
"""
import pathlib
import re
import subprocess
import sys
import tempfile

ROOT = pathlib.Path(__file__).resolve().parent.parent
PLACE = re.compile(r"^(abbrev (?:pub )?(\S+) : (.+?) → (.+)\n\2 (\S+) = )\5((?: \.before)+)$", re.M)
ALIAS = re.compile(r"^abbrev (?:pub )?(\S+) : Type 0\n\1 = tie\.(\S+)", re.M)


def steps_back(generated):
    """For each record of a function's places the record that its field `before` has."""
    before, record = {}, None
    for path in generated.glob("Lts*.antt"):
        for line in path.read_text().splitlines():
            if m := re.match(r"\s*pub record (\S+) :", line):
                record = m.group(1)
            elif m := re.match(r"\s+pub before :\s*(\S+)", line):
                before.setdefault(record, m.group(1).split(".")[-1])
    return before


def distance(before, later, earlier):
    """How many steps back it is from one record to another; None where it is not on the way."""
    steps = 0
    while later is not None and later != earlier:
        later, steps = before.get(later), steps + 1
    return steps if later else None


def recounted(text, aliases, before, off):
    def record(kind):
        m = re.match(r"tie\.(\S+)", kind)
        return m.group(1) if m else aliases.get(kind.split()[0])

    def again(m):
        steps = distance(before, record(m.group(3)), record(m.group(4)))
        if steps is None:
            off.append(f"{m.group(2)}: {m.group(4)} is not on the way back from {m.group(3)}")
            return m.group(0)
        if steps != m.group(6).count(".before"):
            off.append(f"{m.group(2)}: {m.group(6).count('.before')} steps, now {steps}")
        return m.group(1) + m.group(5) + " .before" * steps

    return PLACE.sub(again, text)


def main():
    crate, check = sys.argv[1], "--check" in sys.argv[2:]
    proofs, bad = ROOT / "crates" / crate / "proofs", 0
    with tempfile.TemporaryDirectory() as out:
        subprocess.run(["rt", "dev", crate, "--generated", out], cwd=ROOT, stdout=subprocess.DEVNULL, stderr=subprocess.DEVNULL)
        for proof in sorted(proofs.rglob("Proof.antt")):
            function = proof.parent.relative_to(proofs)
            before = steps_back(pathlib.Path(out) / f"Rattle·{crate}·proofs" / "proofs" / function)
            files = [proof, *sorted((proof.parent / "Proof").glob("*.antt"))]
            aliases = dict(pair for file in files for pair in ALIAS.findall(file.read_text()))
            for file in files:
                off, text = [], file.read_text()
                again = recounted(text, aliases, before, off) if before else text
                if again != text and not check:
                    file.write_text(again)
                for line in off:
                    print(f"{file.relative_to(ROOT)}: {line}")
                bad += len(off)
    print(f"{bad} ways back were off")
    sys.exit(1 if check and bad else 0)


main()
