"""The forms of `trace` and `map`: short forms of instructions against objdump, Spike's log against the steps, and `map --brief`."""
import re
import shutil
import subprocess

import pytest

from conftest import EXAMPLES, input_of

FOLDER = EXAMPLES / "enclaves" / "timer"
TIMER = ("--monitor", FOLDER / "image", "--symbols", FOLDER / "symbols")
DUMP = "riscv64-unknown-elf-objdump"
LEVELS = {"M": 3, "S": 1, "U": 0}
SOURCE = """nop
addi x1, x0, 5
addi x2, x3, 0
xori x4, x5, -1
sub x6, x0, x7
sltiu x8, x9, 1
sltu x10, x0, x11
slt x12, x13, x0
slt x14, x0, x15
beq x1, x0, 8
bne x1, x0, 8
bge x0, x1, 8
bge x1, x0, 8
blt x1, x0, 8
blt x0, x1, 8
blt x2, x1, -8
jal x0, 8
jal x1, -8
jal x5, 8
jalr x0, 0(x1)
jalr x0, 0(x5)
jalr x1, 0(x5)
csrrs x5, mstatus, x0
csrrw x0, mtvec, x6
csrrs x0, mie, x7
csrrc x0, mie, x7
csrrw x5, mepc, x6
lw x5, 8(x6)
sw x5, -4(x2)
ecall
mret
"""
# Forms of the manual for which objdump prints others.
OWN = {"csrrwi zero, mscratch, 3": "csrwi mscratch, 3", "csrrsi zero, mie, 3": "csrsi mie, 3", "csrrci zero, mie, 3": "csrci mie, 3",
       "jalr ra, 4(t0)": "jalr ra, 4(t0)", "addi sp, sp, 1": "addi sp, sp, 1"}


def parts_of(text):
    """The parts of an instruction, without the comment, separated by one blank each."""
    return re.sub(r"[\s,]+", " ", text.split("#")[0]).strip()


@pytest.mark.parametrize("text", OWN)
def test_short_form_is_that_of_the_manual(text):
    from rvlook.protocol.instructions import short_form
    assert short_form(text) == OWN[text]


@pytest.fixture(scope="module")
def dumped(bench, tmp_path_factory):
    """Each instruction of SOURCE: the text of the bench, and that of objdump."""
    if not shutil.which(DUMP):
        pytest.skip("%s is not installed" % DUMP)
    raw = tmp_path_factory.mktemp("dump") / "raw"
    image = subprocess.run([bench, "asm"], input=SOURCE, capture_output=True, text=True, check=True).stdout
    texts = subprocess.run([bench, "dis"], input=image, capture_output=True, text=True, check=True).stdout.splitlines()
    raw.write_bytes(bytes.fromhex(image))
    shown = subprocess.run([DUMP, "-D", "-b", "binary", "-m", "riscv:rv32", raw], capture_output=True, text=True, check=True).stdout
    return texts, [it.split("\t", 2)[2] for it in shown.splitlines() if re.match(r" +[0-9a-f]+:\t", it)]


def test_objdump_shows_each_instruction(dumped):
    assert len(dumped[0]) == len(dumped[1]) == len(SOURCE.splitlines())


@pytest.mark.parametrize("number", range(len(SOURCE.splitlines())), ids=SOURCE.splitlines())
def test_short_form_is_that_of_objdump(dumped, number):
    from rvlook.protocol.instructions import short_form
    from rvlook.protocol.names import with_abi_names
    text, wanted = dumped[0][number].split(" ", 1)[1], dumped[1][number]
    if re.match(r"b|jal ", text):  # objdump shows the address of a target, and the bench a distance
        text = re.sub(r"(-?\d+)\Z", lambda it: "0x%x" % (4 * number + int(it[1])), text)
    if "(" not in text:
        wanted = wanted.replace("(", " (")
    assert parts_of(short_form(with_abi_names(text))) == parts_of(wanted)


def access_of(touch):
    """The access of a step in Spike's log."""
    return " mem 0x%s%s" % (touch["address"], " 0x" + touch["value"] if touch["kind"] == "w" else "") if touch else ""


def test_spike_log_has_each_step_that_does_not_trap(results, rvlook):
    steps = [it for it in results("trace", *TIMER) if it["object"] == "step" and it["trap"] is None]
    commits = rvlook("trace", *TIMER, "--format", "spike").stdout.splitlines()
    assert len(commits) == len(steps) > 100
    for step, line in zip(steps, commits):
        assert line.startswith("core   0: %d 0x%s (0x%s)" % (LEVELS[step["mode"]], step["pc"], step["word"]))
        for register in step["registers"].items():
            assert " %-3s 0x%s" % register in line, line
        assert access_of(step["touch"]) == (" mem" + line.split(" mem")[1] if " mem" in line else ""), line
        is_csr_written = bool(re.match(r"csrr(w|[sc](?!i? x\d+, 0x\w+, (x0|0)\Z))", step["text"]))
        assert is_csr_written == bool(re.search(r" c\d+_\w+ 0x[0-9a-f]{8}", line)), line


def test_branch_goes_to_its_target_or_to_the_next_instruction(results):
    steps = [it for it in results("trace", *TIMER) if it["object"] == "step" and it["target"]]
    assert len(steps) > 10
    for step in steps:
        after = [step["target"]["address"]] + ([] if step["text"].startswith("j") else ["%08x" % (int(step["pc"], 16) + 4)])
        assert step["next"]["pc"] in after, "step %d" % step["step"]


def changes_of(lines):
    """The ranges of each event of `map --brief`: first and last byte, and the rights that it changes."""
    found = []
    for line in lines:
        match = re.match(r"  ([0-9a-f]{8})-([0-9a-f]{8}) +\w+  (.*)", line)
        if match:
            rights = re.findall(r"(\w+) (?:[rwx-]{3} -> )?([rwx-]{3})(?=  |$)", match[3])
            found[-1].append((int(match[1], 16), int(match[2], 16), dict(rights)))
        elif not line.startswith(" "):
            found.append([])
    return found


@pytest.mark.parametrize("image", ["enclaves/adds/image", "enclaves/refused/stdin"])
def test_changes_of_the_brief_map_give_the_rows_of_the_map(results, rvlook, image):
    path = EXAMPLES / image
    words = ("--monitor", path if path.exists() else input_of(path.parent))
    events = [it for it in results("map", *words) if it["object"] == "event"]
    starts = sorted({int(row["first"], 16) for it in events for row in it["rows"]})
    now, changes = {at: {} for at in starts}, changes_of(rvlook("map", "--brief", *words).stdout.splitlines())
    assert len(changes) >= len(events) > 2
    for event, ranges in zip(events, changes):
        for first, last, rights in ranges:
            for at in starts:
                if first <= at <= last:
                    now[at].update(rights)
        for at in starts:
            row = [it for it in event["rows"] if int(it["first"], 16) <= at][-1]
            wanted = {column["world"]: row["may"][column["name"]]["S"] for column in event["columns"]}
            assert {world: now[at].get(world, "---") for world in wanted} == wanted, "step %d, %08x" % (event["step"], at)
