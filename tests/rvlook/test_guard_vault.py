"""`guard` on a monitor of another design: TOR entries, contexts in place, cells at fixed places, and loads with MPRV that trap in M. There is no false
alarm, and planted bugs are found."""
import shutil

import pytest

from support.monitors import build, skip_without_compiler

from conftest import ROOT

VAULT = ROOT / "tests" / "rvlook" / "monitors" / "vault"
RANGES = VAULT / "ranges"
# Each bug: its file, an old and a new text, and the check by which guard finds it; an empty text if it does not find it.
C, S = "monitor.c", "start.s"
BUGS = {
    "host entry too large": (C, "WRITE_CSR(pmpaddr0, (unsigned)MONITOR_END >> 2);", "WRITE_CSR(pmpaddr0, ((unsigned)MONITOR_END - 64) >> 2);", "access"),
    "monitor open": (C, "WRITE_CSR(pmpcfg0, TOR | TOR_ALL << 8", "WRITE_CSR(pmpcfg0, TOR_DATA | TOR_ALL << 8", "access"),
    "cell 0 stays open": (C, "cfg[0] << 16 |", "TOR_ALL << 16 |", "zeros"),
    "cell 1 stays open": (C, "cfg[1] << 24);", "(unsigned)TOR_ALL << 24);", "zeros"),
    "cell 1 half open": (C, "WRITE_CSR(pmpaddr3, (FIRST_CELL + 2u * CELL_SIZE) >> 2);", "WRITE_CSR(pmpaddr3, (FIRST_CELL + 2u * CELL_SIZE - 2048) >> 2);",
                         "access"),
    "host lacks memory": (C, "TOR_ALL << 16);", "TOR_DATA << 16);", "access"),
    "mailbox executable": (C, "TOR_DATA << 8 | (unsigned)TOR_ALL << 24", "TOR_ALL << 8 | (unsigned)TOR_ALL << 24", "access"),
    "mailbox closed": (C, "TOR_DATA << 8 | (unsigned)TOR_ALL << 24", "(unsigned)TOR_ALL << 24", "access"),
    "mailbox read only": (C, "TOR_DATA << 8 | (unsigned)TOR_ALL << 24", "9 << 8 | (unsigned)TOR_ALL << 24", "access"),
    "mailbox too large": (C, "((unsigned)MAIL + MAIL_SIZE) >> 2", "((unsigned)MAIL + 2 * MAIL_SIZE) >> 2", "access"),
    "mailbox by a signed shift": (C, "((unsigned)MAIL + MAIL_SIZE) >> 2", "(MAIL + MAIL_SIZE) >> 2", "access"),
    "cell not executable": (C, "TOR_DATA << 8 | (unsigned)TOR_ALL << 24", "TOR_DATA << 8 | (unsigned)TOR_DATA << 24", "access"),
    "cell one word too large": (C, "(cell->base + cell->size) >> 2", "(cell->base + cell->size + 4) >> 2", "access"),
    "cell begins too early": (C, "WRITE_CSR(pmpaddr2, cell->base >> 2);", "WRITE_CSR(pmpaddr2, (cell->base - 64) >> 2);", "access"),
    "entries of the host stay": (C, "    WRITE_CSR(pmpcfg1, 0);\n    WRITE_CSR(pmpcfg0, 0);\n    if", "    if", "access"),
    "entries not written at leave": (C, "    answer(why, value);\n    program_pmp();", "    answer(why, value);", "zeros"),
    "entries not written at enter": (C, "    running = cell;\n    program_pmp();", "    running = cell;", "access"),
    "entries not written at close": (C, "    cell->state = FREE;\n    program_pmp();", "    cell->state = FREE;", "integrity"),
    "timer while the host runs": (C, "running ? MTIE : 0", "MTIE", "trap in M"),
    "stvec not restored": (C, "    WRITE_CSR(stvec, context->stvec);\n", "", "registers"),
    "sscratch not restored": (C, "    WRITE_CSR(sscratch, context->sscratch);\n", "", "registers"),
    "sepc not restored": (C, "    WRITE_CSR(sepc, context->sepc);\n", "", "redirect"),
    "stval not restored": (C, "    WRITE_CSR(stval, context->stval);\n", "", "redirect"),
    "scause not saved": (C, "    context->scause = READ_CSR(scause);\n", "", "context"),
    "sstatus not restored": (C, "    WRITE_CSR(sstatus, context->sstatus);\n", "", "context"),
    "SPP lost": (C, "SWITCHED = SIE | SPIE | SPP | MXR", "SWITCHED = SIE | SPIE | MXR", "context"),
    "mode lost": (C, "WRITE_CSR(mstatus, context->mode << MPP_SHIFT);", "WRITE_CSR(mstatus, MODE_S << MPP_SHIFT);", "context"),
    "x27 not saved": (S, "26, 27, 28, 29, 30, 31\n        sw", "26, 28, 29, 30, 31\n        sw", "context"),
    "x18 not restored": (S, "17, 18, 19, 20, 21, 22, 23, 24, 25, 26, 27, 28, 29, 30, 31\n        lw", "17, 19, 20, 21, 22, 23, 24, 25, 26, 27, 28, 29, 30, 31\n"
                         "        lw", "registers"),
    "sp not saved": (S, "        sw      t0, 8(sp)               # sp of the world\n", "", "context"),
    "t0 not saved": (S, "n, 1, 3, 4, 5, 6, 7, 8, 9, 10, 11, 12, 13, 14, 15, 16, 17, 18, 19, 20, 21, 22, 23, 24, 25, 26, 27, 28, 29, 30, 31\n        sw",
                     "n, 1, 3, 4, 6, 7, 8, 9, 10, 11, 12, 13, 14, 15, 16, 17, 18, 19, 20, 21, 22, 23, 24, 25, 26, 27, 28, 29, 30, 31\n        sw", "context"),
    "interrupt skips an instruction": (C, "        leave(INTERRUPTED, 0);", "        context->x[0] += 4;\n        leave(INTERRUPTED, 0);", "context"),
    "interrupt clears s0": (C, "        leave(INTERRUPTED, 0);", "        context->x[8] = 0;\n        leave(INTERRUPTED, 0);", "context"),
    "interrupt hands over a0": (C, "        leave(INTERRUPTED, 0);", "        leave(INTERRUPTED, context->x[A0]);", "registers"),
    "yield hands over s2": (C, "return leave(YIELDED, value);", "return leave(YIELDED, running->context.x[18]);", "noninterference"),
    "yield hands over a function of s2": (C, "return leave(YIELDED, value);", "return leave(YIELDED, 3 * running->context.x[18] + 1);", "noninterference"),
    "yield hands over a word of the cell": (C, "return leave(YIELDED, value);", "return leave(YIELDED, *(unsigned *)(running->base + 0x1ffc));",
                                            "noninterference"),
    "sum loads as M": (S, "        li      t2, 0x20800             # MPRV, and S in MPP\n        csrs    mstatus, t2\n", "", "noninterference"),
    "close says what it clears": (C, "    clear((void *)cell->base, cell->size);\n    clear(&cell->context, sizeof cell->context);\n    cell->state = FREE;\n"
                                  "    program_pmp();\n    answer(OK, 0);", "    unsigned last = ((unsigned *)cell->base)[5];\n\n    clear((void *)cell->base, cell->size);\n"
                                  "    cell->state = FREE;\n    program_pmp();\n    answer(OK, last);", "noninterference"),
    "steps depend on a secret": (C, "    case YIELD:\n", "    case YIELD:\n        for (volatile unsigned i = 0; i < *(unsigned char *)(running->base + 0x1ffc); i++)\n"
                                 "            ;\n", "noninterference"),
    "refused call tells of a cell": (C, "    default: return answer(REFUSED, 0);\n    }\n}\n\nstatic void call_of_cell",
                                     "    default: return answer(REFUSED, *(unsigned char *)(FIRST_CELL + 0x1ffc));\n    }\n}\n\nstatic void call_of_cell",
                                     "noninterference"),
    "cell reads another cell": (C, "        answer(OK, 0);\n        return leave(YIELDED, value);",
                                "        answer(OK, *(unsigned *)(FIRST_CELL + 0x1ffc) ^ *(unsigned *)(FIRST_CELL + 0x3ffc));\n"
                                "        return leave(YIELDED, value);", "noninterference"),
    "close clears nothing": (C, "    clear((void *)cell->base, cell->size);\n", "", "zeros"),
    "close leaves the last word": (C, "    clear((void *)cell->base, cell->size);\n", "    clear((void *)cell->base, cell->size - 4);\n", "zeros"),
    "close clears another cell": (C, "    clear((void *)cell->base, cell->size);\n", "    clear((void *)cell->base, cell->size + 4);\n", "integrity"),
    "open clears the cell": (C, "    cell->state = READY;\n", "    cell->state = READY;\n    ((unsigned *)cell->base)[9] = 7;\n", ""),
    "sum writes to the host": (C, "    answer(OK, total);", "    *(unsigned *)0x80013ff0 = total;\n    answer(OK, total);", ""),
    "yield writes to the other cell": (C, "        answer(OK, 0);\n        return leave(YIELDED, value);",
                                       "        *(unsigned *)(FIRST_CELL + 0x1000) = value + 1;\n        answer(OK, 0);\n        return leave(YIELDED, value);",
                                       "integrity"),
    "registers in the mailbox": (C, "    running->state = LEFT;\n", "    *(volatile unsigned *)(MAIL + 64) = running->context.x[19];\n    running->state = LEFT;\n",
                                 "memory"),
    "redirect without SPP": (C, "    status |= context->mode == MODE_S ? SPP : 0;\n", "", "redirect"),
    "redirect with another cause": (C, "    context->scause = cause;", "    context->scause = cause + 1;", "redirect"),
    "redirect without a value": (C, "    context->stval = value;", "    context->stval = 0;", "redirect"),
    "redirect after the instruction": (C, "    context->sepc = context->x[0];", "    context->sepc = context->x[0] + 4;", "redirect"),
    "redirect keeps SIE": (C, "context->sstatus & MXR;", "context->sstatus & (MXR | SIE);", "redirect"),
    "redirect stays in U": (C, "    context->mode = MODE_S;\n    context->x[0] = context->stvec & ~3u;", "    context->x[0] = context->stvec & ~3u;", "redirect"),
    "trap of the load skips two": (S, "        addi    t2, t2, 4\n        csrw    mepc, t2\n        li      a0, 0", "        addi    t2, t2, 8\n"
                                   "        csrw    mepc, t2\n        li      a0, 0", "trap in M"),
    "trap of the load is not expected": (S, "        csrrw   t1, mtvec, t0\n", "        csrr    t1, mtvec\n", "trap in M"),
    "vector of the load stays": (S, "        csrw    mtvec, t1\n", "", "context"),
    "host's number of a cell is not checked": (C, "return number < CELLS ? &cells[number] : 0;", "return &cells[number];", "trap in M"),
    "mscratch not set again": (S, "        csrrw   t0, mscratch, sp\n", "        csrr    t0, mscratch\n", ""),
}
NOT_FOUND = [name for name, (*_, check) in BUGS.items() if not check]


@pytest.fixture(autouse=True)
def program(bench, monkeypatch):
    """Runs the built program in this process."""
    monkeypatch.setenv("RVBENCH", bench)


def built(folder, edits=()):
    """Builds the monitor with changed texts and its host; returns the ELF file."""
    skip_without_compiler()
    shutil.copytree(VAULT, folder / "vault")
    for name, old, new in edits:
        path = folder / "vault" / "monitor" / name
        text = path.read_text(encoding="ascii")
        assert text.count(old) == 1, old
        path.write_text(text.replace(old, new), encoding="ascii")
    build(folder, "--with-monitor", folder / "vault" / "monitor", folder / "vault", folder / "vault.elf")
    return folder / "vault.elf"


def check_of(elf):
    """Returns the check of the first violation, in one run without and four with timer interrupts and in all pairs; an empty text without one."""
    from rvlook.image.files import image_of
    from rvlook.monitors.guard import GuardPlan, do_runs
    from rvlook.monitors.ranges_file import ownership_of
    from rvlook.monitors.sides import MonitorSetup, return_addresses
    from rvlook.output.progress import Progress
    from rvlook.protocol.symbols import Symbols
    image = image_of(str(elf))
    setup = MonitorSetup(image, 0x30000, ("setreg 10 80010000", "setreg 11 30000"), return_addresses(image))
    found = do_runs(GuardPlan(setup, ownership_of(str(RANGES), Symbols()), Symbols(), 4000, 1, 4, 1), Progress(), lambda number, guard: None)
    return found.violation.check if found.violation else ""


def pytest_generate_tests(metafunc):
    """Selects the bugs: every fourth one, or all with --all-mutants."""
    if "bug" in metafunc.fixturenames:
        metafunc.parametrize("bug", list(BUGS) if metafunc.config.getoption("--all-mutants") else [it for it in BUGS if BUGS[it][3]][::4])


def test_monitor_of_another_design_has_no_violation(rvlook, tmp_path):
    done = rvlook("guard", "--timers", "2", "--jobs", "2", built(tmp_path), RANGES)
    assert (done.returncode, done.stderr) == (0, "")
    assert "load_as_world" in done.stdout.split("trap in M: ")[1].splitlines()[0] and "  main " not in done.stdout


def test_planted_bug_is_found(bug, tmp_path):
    *edit, check = BUGS[bug]
    assert check_of(built(tmp_path, [edit])) == check


def test_nine_of_ten_bugs_are_found():
    assert len(BUGS) >= 60 and 10 * len(NOT_FOUND) <= len(BUGS)
