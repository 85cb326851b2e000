"""The arguments of rvbench for the folders of examples, from the table examples/arguments."""
from pathlib import Path

EXAMPLES = Path(__file__).resolve().parents[2] / "examples"


def argument_table():
    """Returns the arguments of each folder in the table, by its path below examples."""
    lines = [it for it in (EXAMPLES / "arguments").read_text(encoding="ascii").splitlines() if not it.startswith("#")]
    return {folder: words.split() for folder, words in (line.split(": ") for line in lines)}


def arguments_of(folder):
    """Returns the arguments of a folder, given by its path or by its path below examples. Returns no arguments if the table does not have it."""
    path = Path(folder)
    return argument_table().get((path.relative_to(EXAMPLES) if path.is_absolute() else path).as_posix(), [])
