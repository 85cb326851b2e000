"""The cases of debugger commands over two benches: replies after a: and b:, errors, commands that are not blind, lines, images, and the ends of a
run."""
from generators.elf_files import elf, segment, text as image_text
from generators.monitor_case import ECALL, input_of
from models.monitor_model import CREATE, DESTROY, EXIT, EXITED, KEY, RESUME, RUN, STOP, STOPPED
from generators.twin_case import TwinCase, WholeTwins

BASE, PAGE, PAST = 0x80020000, 0x1000, 0x80100000
WINDOW, HOST = 0x80040000, 0x80010000
EVERY = ["step 1", "run 2", "reg 0", "reg 31", "regs", "setreg 0 1", "setreg 5 80020000", "csr 300", "csr b00", "csr f14", "pmp",
         "enclaves", "timer on", "timer off", "break 80020000", "break 80010010", "clear 80020000", "watch 80020000",
         "watch 80040000", "unwatch 80020000", "mem 80010000 8", "mem 80040000 64", "poke 80040000 a5", "dis 80010000",
         "access S r 80020000 4", "access S x 8001fffe 4", "access U w 80020fff 1", "access M r 80020000 4", "access S w 80040000 4"]


def stopped(case, slot=0, base=BASE, window=(WINDOW, PAGE)):
    """An enclave that has stopped, with words in its registers and its region."""
    case.create(base, window=window, wants=slot)
    case.enter(slot)
    for number in (5, 9, 28):
        case.set(number, 0x01010101 * number)
    case.place(case.machine.pc, "sw", 5, 0x100, 10)
    case.say("step 1")
    case.leave(STOP, 7, STOPPED)


# ---- replies

def every_command():
    case = TwinCase("commands", "every_command")
    stopped(case)
    case.place(case.machine.pc, "addi", 5, 5, 1)
    case.place(case.machine.pc + 4, "sw", 5, 0, 6)
    case.place(case.machine.pc + 8, "jal", 0, -8)
    case.set(6, WINDOW)
    case.apart()
    case.say(*EVERY)
    case = TwinCase("commands", "faults")
    case.create(BASE)
    case.say("fly", "reg 32", "mem 7fffffff 1")
    case.apart()
    case.comment("an error of the line: printed once, not counted")
    for line, fault in (("fly", "command"), ("STEP 1", "command"), ("-- 1", "command"), ("reg", "operand"), ("reg 32", "operand"),
                        ("step 0", "operand"), ("mem 80020000 0", "operand"), ("mem 80020000 65", "operand"), ("poke 80020000 100", "operand"),
                        ("dis", "operand"), ("dis 800200000", "operand"), ("\x01", "line"), ("#" * 121, "line"), ("reg 0\x7f", "line")):
        case.wants(line, "error " + fault)
    case.wants("--", "error command")
    assert case.twins.count == 0
    case.comment("an error of the command: printed by both, counted")
    for line, fault in (("mem 7fffffff 1", "outside"), ("mem 80100000 1", "outside"), ("mem ffffffc0 64", "outside"),
                        ("mem ffffffff 64", "outside"), ("poke 7fffffff 1", "outside"), ("dis 800ffffd", "outside"),
                        ("csr 7a0", "csr"), ("csr 7b0", "csr")):
        case.both(line, "error " + fault)
    for i in range(32):
        case.both("break %x" % (4 * i), "ok")
        case.both("watch %x" % (BASE + i), "ok")
    case.both("break 80", "error full")
    case.both("watch 80020020", "error full")
    case.both("break 0", "ok")
    assert case.twins.count == 8 + 64 + 3
    case = TwinCase("commands", "replies_of_no_lines")
    case.create(BASE)
    case.apart()
    case.call(DESTROY, 0)
    case.both("enclaves")
    count = case.twins.count
    case.wants("")
    case.wants("   \t")
    case.wants("# step 1")
    assert case.twins.count == count and case.are_equal()


def not_blind():
    """Commands that show or write bytes: at each boundary, of each length."""
    case = TwinCase("blind", "at_each_boundary")
    case.create(BASE, window=(WINDOW, PAGE))
    case.say("mem 80020000 4", "poke 80020010 5", "dis 80020000")
    case.apart()
    for boundary, inside in ((BASE, 0), (BASE + PAGE, -1)):
        for at in range(boundary - 4, boundary + 4):
            for command, length in (("mem %x 1", 1), ("mem %x 3", 3), ("dis %x", 4), ("poke %x 5a", 1)):
                is_blind = at + length <= BASE or at >= BASE + PAGE
                assert is_blind or case.given(command % at) == ["error blind"]
                case.say(command % at)
    for line in ("mem 8001ffc0 64", "mem 80021000 64", "mem 80040000 64", "mem 8001ffff 1"):
        assert case.say(line).startswith("b: ")
    for line in ("mem 8001ffc1 64", "mem 80020fff 64", "mem 80020800 1", "mem 8001ffff 2", "dis 80020800", "poke 80020800 0"):
        case.wants(line, "error blind")
    case = TwinCase("blind", "before_outside", slot=1)
    case.create(BASE)
    case.create(PAST - PAGE, wants=1)
    case.apart()
    for line in ("mem 800fffff 2", "mem 800fffc1 64", "dis 800ffffd", "dis 800fffff", "mem 800fefff 2", "poke 800fffff 1"):
        case.wants(line, "error blind")
    for line in ("mem 80100000 1", "dis 80100000", "poke 80100000 1", "mem ffffffff 64"):
        case.both(line, "error outside")
    case.comment("another enclave is equal in both")
    case.say("mem 80020000 4", "poke 80020000 77", "mem 80020000 4", "dis 80020ffc", "poke 80020fff 0")
    case = TwinCase("blind", "of_a_region_that_is_all_that_is_left")
    case.create(0x80080000, 0x80000)
    case.apart()
    for line in ("mem 8007ffff 2", "mem 80080000 1", "mem 800fffff 1", "mem 800c0000 64", "mem 800fffff 64"):
        case.wants(line, "error blind")
    case.say("mem 8007fff0 16", "mem 80010000 4")
    case = TwinCase("blind", "once_destroyed_and_created_elsewhere")
    stopped(case)
    case.apart()
    case.call(DESTROY, 0, wants=(0, 0))
    assert case.are_equal()
    case.say("mem 80020000 64", "mem 80020100 4", "poke 80020000 99", "dis 80020000")
    case.create(0x80030000)
    case.comment("the slot now has another region")
    case.say("mem 80020000 4", "poke 80020000 0")
    for line in ("mem 80030000 4", "poke 80030fff 0", "dis 8002fffd"):
        case.wants(line, "error blind")
    assert case.are_equal()


# ---- ends of a run

def called(case, function, *arguments, behind=()):
    """Sets the registers of a call, and its ecall at pc, after other instructions."""
    for number, word in ((17, KEY), (16, function), *enumerate(arguments, 10)):
        case.set(number, word)
    for i, instruction in enumerate([*behind, ECALL]):
        case.place(case.machine.pc + 4 * i, *instruction)


def ends():
    case = TwinCase("ends", "at_once")
    case.create(BASE)
    case.apart()
    case = TwinCase("ends", "by_run")
    case.create(BASE)
    case.apart()
    called(case, RUN, 0)
    case.enters("run 1")
    case.say("reg 10", "fly", "--")
    case = TwinCase("ends", "by_resume")
    stopped(case)
    case.apart()
    called(case, RUN, 0)
    case.say("step 1", "reg 10")
    called(case, RESUME, 0)
    case.enters("step 1")
    case = TwinCase("ends", "by_what_is_left_again_in_one_command")
    case.create(BASE)
    case.apart()
    case.say("timer on")
    called(case, RUN, 0)
    case.place(case.machine.pc + 4, "addi", 5, 5, 1)
    case.enters("step 9")
    case = TwinCase("ends", "by_the_last_of_many_steps", slot=2)
    for slot in range(3):
        case.create(BASE + slot * PAGE, wants=slot)
    case.apart()
    called(case, RUN, 2, behind=[("addi", 5, 5, 1)] * 8)
    case.say("step 8")
    case.enters("run 1")
    others_enter()
    for name, slot, before in (("free", 1, lambda case: case.create(BASE)), ("of_none", 0, lambda case: None),
                               ("12", 12, lambda case: case.create(BASE)), ("running", 0, lambda case: (case.create(BASE), case.enter(0))),
                               ("destroyed", 0, lambda case: (case.create(BASE), case.call(DESTROY, 0, wants=(0, 0))))):
        case = TwinCase("ends", "no_slot_" + name, slot=slot)
        before(case)
        case.apart(is_there=False)
        case.say("regs", "fly")
    case = TwinCase("ends", "slot_12_of_thirteen", slot=12)
    for slot in range(13):
        case.create(BASE + slot * PAGE, wants=slot)
    case.apart()
    case.say("enclaves", "pmp")
    case.wants("mem 8002cfff 1", "error blind")
    case.say("mem 8002bfff 1", "mem 8002d000 1")
    called(case, RUN, 12)
    case.enters("step 1")


def others_enter():
    """Other enclaves are entered and exited, in one command and in several."""
    case = TwinCase("ends", "not_by_others", slot=1)
    case.create(BASE)
    case.create(BASE + PAGE, window=(WINDOW, PAGE), wants=1)
    case.comment("enclave 0: it adds, and stops")
    for i, instruction in enumerate((("addi", 16, 0, STOP), ("lui", 17, KEY + 0x800 >> 12), ("addi", 17, 17, KEY - (KEY + 0x800 & ~0xFFF)),
                                     ("addi", 10, 0, 42), ECALL, ("addi", 10, 10, 1), ("jal", 0, -20))):
        case.place(BASE + 4 * i, *instruction)
    case.apart()
    called(case, RUN, 0)
    case.place(case.machine.pc + 4, "addi", 10, 0, 0)
    case.place(case.machine.pc + 8, "addi", 16, 0, RESUME)
    case.place(case.machine.pc + 12, "jal", 0, -12)
    assert "world=e0" in case.say("step 1") and "world=host" in case.say("step 5")
    case.say("step 100", "step 1000", "regs", "enclaves", "csr b00", "csr b02", "timer on", "step 20", "reg 10", "run 77", "pmp")
    case = TwinCase("ends", "while_another_runs")
    stopped(case)
    case.create(BASE + PAGE, window=(WINDOW, PAGE), wants=1)
    case.enter(1)
    case.apart()
    case.set(6, BASE + 0x100)
    case.place(case.machine.pc, "lw", 5, 0, 6)
    case.say("step 1", "reg 5", "regs", "enclaves")
    case.say("timer on", "step 1", "regs", "enclaves")
    called(case, RESUME, 0)
    case.enters("step 1")


# ---- lines and images

FIRST = ["setreg 17 a454e43", "setreg 16 1", "setreg 10 80020000", "setreg 11 1000", "setreg 14 80020000", "step 1"]


def lines():
    text = input_of("73000000" * 2, FIRST)
    given = "ok\n" * 5 + "ran 1 pc=80010004 mode=S world=host why=done trap=00000009:00000000\n"
    for name, second, ends in (
            ("no_second_script", "", "twin end 0\n"), ("an_empty_second_script", "--\n", "twin end 0\n"),
            ("a_last_line_without_an_end", "--\nreg 0", "a: x0=00000000\nb: x0=00000000\ntwin end 1\n"),
            ("a_second_line_without_an_end", "--", "twin end 0\n"),
            ("carriage_returns", "--\r\nreg 0\r\n\r\n# x\r\nfly\r\n", "error command\ntwin end 1\n"),
            ("a_carriage_return_within", "--\nreg\r 0\nreg 0\r", "error line\nerror line\ntwin end 0\n"),
            ("blanks_and_comments", " \t--\t \n\n  \n# reg 0\n \t# --\n\treg\t0 \n", "b: x0=00000000\ntwin end 1\n"),
            ("a_third_separator", "--\n--\nreg 0\n -- \n", "error command\na: x0=00000000\nb: x0=00000000\nerror command\ntwin end 1\n"),
            ("no_separators", "--\n-- x\n--x\n---\n#--\n", "error command\nerror command\nerror command\ntwin end 0\n"),
            ("a_separator_too_long", "--\n--" + " " * 119 + "\nreg 0\n", "error line\na: x0=00000000\nb: x0=00000000\ntwin end 1\n"),
            ("lines_of_120_and_121_bytes", "--\nreg 0" + " " * 115 + "\nreg 0" + " " * 116 + "\n", "b: x0=00000000\nerror line\ntwin end 1\n"),
            ("bytes_that_are_no_text", "--\nreg 0\x80\n\x00\nreg \x1b0\n", "error line\n" * 3 + "twin end 0\n")):
        WholeTwins("lines", name, text + second, starts=given, ends=ends)
    WholeTwins("lines", "a_first_script_with_faults", text + "fly\nreg 40\n\n# x\nmem 0 1\ncsr 7a0\n\x01\n" + "break 1\n" * 2 + "--\nfly\n",
               ends="error command\nerror operand\nerror outside\nerror csr\nerror line\nok\nok\nerror command\ntwin end 0\n")
    for name, stdin in (("nothing_at_all", ""), ("an_image_alone", "73000000\n"), ("an_image_without_an_end", "73000000"),
                        ("one_separator", "73000000\n--\n"), ("two_separators", "73000000\n--\n--\nregs\n")):
        WholeTwins("lines", name, stdin, ends="twin no slot\n")


def images():
    code = bytes.fromhex("7300000073000000")
    file = image_text(elf(segment(HOST + 0x100, data=code), entry=HOST + 0x100)).strip()
    rest = "\n".join(["", "--", *FIRST, "--", "reg 10", "mem 80010100 4", "setreg 16 2", "setreg 10 0", "step 1", "mem 80020000 4", ""])
    for name, image, options, ends in (
            ("raw", code.hex(), (), "twin end 6\n"), ("elf", file, (), "twin end 6\n"), ("elf_by_name", file, ("--kind", "elf"), "twin end 6\n"),
            ("elf_as_raw", file, ("--kind=raw",), "twin no slot\n"), ("in_two_megabytes", code.hex(), ("--ram", "2097152"), "twin end 6\n"),
            ("in_the_least_that_holds_the_region", code.hex(), ("--ram=196608",), "twin end 6\n"),
            ("in_less_than_the_region_needs", code.hex(), ("--ram", "131072"), "twin no slot\n")):
        WholeTwins("images", name, image + rest, options, ends=ends)
    for name, image, options, fault in (
            ("raw_taken_as_elf", code.hex(), ("--kind", "elf"), "image 1"), ("in_the_monitors_memory_alone", code.hex(), ("--ram", "65536"), "image 9"),
            ("of_nothing_in_the_monitors_memory_alone", "", ("--ram", "65536"), "image 11"),
            ("elf_at_the_monitors_range", image_text(elf(segment(0x80000000), entry=0x80000000)).strip(), (), "image 9"),
            ("ram_of_1000_bytes", code.hex(), ("--ram", "1000"), "ram 1"), ("ram_of_nothing", code.hex(), ("--ram", "0"), "ram 1"),
            ("ram_too_large", code.hex(), ("--ram", "16842752"), "ram 1")):
        WholeTwins("images", name, image + rest, options, starts="rvbench: " + fault + "\n", ends="rvbench: " + fault + "\n", status=1)
    for name, image in (("text_of_odd_digits", "abc"), ("text_with_a_space", "73 00"), ("text_with_a_comment", "73000000\n# x"),
                        ("text_of_no_digits", "7300000g"), ("text_of_122_digits", "0" * 122), ("text_of_an_unfinished_separator", "73000000\n--x")):
        WholeTwins("images", name, image + rest, starts="rvbench: hex\n", status=1, is_text=False)
    WholeTwins("images", "text_before_the_size", "abc" + rest, ("--ram", "1000"), starts="rvbench: hex\n", status=1, is_text=False)


# ---- worked examples with handwritten output

def worked_examples():
    first = "7300000073000000\n--\n" + "\n".join(["setreg 17 0a454e43", *FIRST[1:]]) + "\n--\n"
    given = "ok\n" * 5 + "ran 1 pc=80010004 mode=S world=host why=done trap=00000009:00000000\n"
    both = "a: ok\nb: ok\n"
    ran = "ran 1 pc=80010008 mode=S world=host why=done trap=00000009:00000000\n"
    for name, second, output in (
            ("destroy_clears", "mem 80020000 1\nsetreg 16 2\nsetreg 10 0\nstep 1\nmem 80020000 4\n",
             "error blind\n" + 2 * both + "a: " + ran + "b: " + ran + "a: 80020000: 00 00 00 00\nb: 80020000: 00 00 00 00\ntwin end 4\n"),
            ("ended_by_the_entry", "setreg 16 3\nsetreg 10 0\nstep 1\nreg 0\n", 2 * both + "twin entered 3\n"),
            ("ended_by_an_entry_that_is_left_again", "timer on\nsetreg 16 3\nsetreg 10 0\nstep 2\nreg 0\n", 3 * both + "twin entered 4\n")):
        WholeTwins("examples", name, first + second, starts=given + output, ends=output)
    WholeTwins("examples", "no_slot", "73000000\n--\n--\nregs\n", starts="twin no slot\n", ends="twin no slot\n")


def parts():
    for part in (every_command, not_blind, ends, lines, images, worked_examples):
        part()
