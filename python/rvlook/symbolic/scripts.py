"""Writes each finding as an input of rvbench: the image, and the commands by which a replay reaches it."""
from __future__ import annotations

import os
from typing import List, Sequence, TYPE_CHECKING

from rvlook.errors import Unfinished
from rvlook.finders.races.replay import comment
from rvlook.output.files import replace_file
from rvlook.protocol.bench_line import ended

if TYPE_CHECKING:
    from rvlook.protocol.run import Run
    from rvlook.symbolic.record import Counterexample

STEP = "step 1"  # the command that executes one step


def write(folder: str, run: Run, findings: Sequence[Counterexample], headings: Sequence[str]) -> None:
    """Writes the files of --scripts: for each finding an input of rvbench that shows it, with its heading as a comment. Makes the folder if it does
    not exist. Raises Unfinished if a file cannot be written."""
    try:
        os.makedirs(folder, exist_ok=True)
        for number, (example, heading) in enumerate(zip(findings, headings), 1):
            replace_file(os.path.join(folder, "finding_%d" % number), input_of(run, example, heading))
    except OSError as error:
        raise Unfinished("cannot write to '%s': %s" % (folder, error.strerror)) from None


def input_of(run: Run, example: Counterexample, heading: str) -> bytes:
    """Returns the input of rvbench that shows a finding: the image, comments, and the commands that lead to the last step and execute it."""
    head = [comment(heading), comment("./rvbench %s < this file" % " ".join(run.setup.arguments())),
            comment("./rvlook page --monitor this file, or ./rvlook gdb --monitor this file")]
    lines = [*head, *joined(example.log), "dis %x" % example.pc, "regs", STEP]
    return run.setup.image.text + b"--\n" + "".join(map(ended, lines)).encode("latin-1", "replace")


def joined(commands: Sequence[str]) -> List[str]:
    """Returns the same commands with consecutive commands `step 1` joined into one command `step N`."""
    joined_commands: List[str] = []
    for command in commands:
        if command == STEP and joined_commands and joined_commands[-1].startswith("step "):
            joined_commands[-1] = "step %d" % (int(joined_commands[-1].split()[1]) + 1)
        else:
            joined_commands.append(command)
    return joined_commands
