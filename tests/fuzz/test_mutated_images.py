"""Mutated ELF files, one per line of `mutated_images`: the program refuses each with its error, or loads it."""
import subprocess
from pathlib import Path

from support.limits import HANG

ROWS = Path(__file__).with_name("mutated_images")


def mutated(digits, edits):
    """Returns the digits of the file with changed bytes, truncated to a length."""
    for edit in edits:
        place, new = edit.split("=")
        if place == "cut":
            digits = digits[:2 * int(new)]
        else:
            at = 2 * int(place)
            digits = digits[:at] + new + digits[at + len(new):]
    return digits


def test_each_mutated_image_has_its_error(bench):
    whole, count, wrong = "", 0, []
    for line in ROWS.read_text(encoding="ascii").splitlines():
        fault, *edits = line.split()
        if fault == "=":
            whole += edits[0]
        elif fault != "#":
            count += 1
            wanted = (b"", 0) if fault == "0" else (b"rvbench: image %s\n" % fault.encode(), 1)
            digits = mutated(whole, edits)
            text = "".join(digits[at:at + 120] + "\n" for at in range(0, len(digits), 120)) or "\n"
            done = subprocess.run([bench, "run", "--kind", "elf"], input=text.encode(), stdout=subprocess.PIPE, timeout=HANG, check=False)
            if (done.stdout, done.returncode) != wanted:
                wrong.append(line)
    assert wrong == []
    assert count > 300
