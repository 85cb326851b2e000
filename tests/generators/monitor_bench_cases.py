"""The cases of the debugger commands over the monitored machine, of images for it, and worked examples with handwritten output."""
import hashlib

from generators.elf_files import elf, segment
from generators.monitor_case import ECALL, Case, WholeCase, input_of, worked
from models.monitor_bench import output
from models.monitor_model import DESTROY, EXIT, EXITED, KEY, MEASURE, RESUME, RUN, STOP, STOPPED
from models.privileged_hart import ONES

BASE, PAGE, PAST = 0x80020000, 0x1000, 0x80100000
WINDOW = 0x80040000
HOST = 0x80010000


# ---- the debugger

def several_steps():
    case = Case("debugger", "steps_that_enter_and_leave")
    case.create(BASE)
    case.comment("the code of the enclave: two additions, and a stop")
    for i, instruction in enumerate((("addi", 16, 0, STOP), ("lui", 17, KEY + 0x800 >> 12),
                                     ("addi", 17, 17, KEY - (KEY + 0x800 & ~0xFFF)), ("addi", 10, 0, 42), ECALL,
                                     ("addi", 10, 10, 1), ("jal", 0, -20))):
        case.place(BASE + 4 * i, *instruction)
    case.set(17, KEY)
    case.set(16, RUN)
    case.set(10, 0)
    reply = case.do(ECALL, ("addi", 5, 10, 0), ("addi", 6, 11, 0))
    assert reply.startswith("ran 3") and "world=e0" in reply
    assert "world=host" in case.say("step 5")
    case.say("reg 5", "reg 6", "reg 10", "reg 11", "enclaves")
    case.is_now(x10=STOPPED, x11=42, x5=1, x6=42)
    case.comment("all of it in one command, with its last trap")
    for i, instruction in enumerate((("addi", 10, 0, 0), ("addi", 16, 0, RESUME), ECALL, ("addi", 5, 10, 0), ("jal", 0, -16))):
        case.place(case.machine.pc + 4 * i, *instruction)
    for count in (3, 1, 11, 12, 100, 1000):
        case.say("step %d" % count, "reg 10", "reg 11", "enclaves")
    case.say("csr b00", "csr b02", "timer on", "step 200", "timer on", "step 3", "regs")
    case = Case("debugger", "breaks")
    case.create(BASE)
    for i, instruction in enumerate((("addi", 5, 5, 1), ("addi", 5, 5, 1), ECALL, ("jal", 0, -12))):
        case.place(BASE + 4 * i, *instruction)
    case.place(case.machine.pc, "ecall")
    case.place(case.machine.pc + 4, "addi", 10, 0, 0)
    case.place(case.machine.pc + 8, "addi", 16, 0, RESUME)
    case.place(case.machine.pc + 12, "jal", 0, -12)
    host = case.machine.pc
    case.set(17, KEY)
    case.set(16, RUN)
    case.set(10, 0)
    case.comment("at the entry of the enclave, after the call of the host, and where the enclave continues")
    case.say("break 80020000", "run 9")
    case.is_now(world="e0", pc=BASE)
    case.say("break %x" % (host + 4), "run 2")
    case.set(17, KEY)
    case.set(16, STOP)
    case.say("run 9")
    case.is_now(world="host", pc=host + 4)
    case.say("break 8002000c", "run 9", "run 9", "clear 80020000", "run 4", "clear %x" % (host + 4))
    case.set(16, STOP)
    case.set(17, KEY)
    case.say("run 20", "enclaves", "regs")
    case.comment("step ignores breakpoints")
    case.say("break 8002000c", "break %x" % (host + 4), "step 9")


def watches():
    case = Case("debugger", "watches_do_not_see_the_monitor")
    case.create(BASE, window=(WINDOW, PAGE))
    case.say(*("watch %x" % address for address in (WINDOW, WINDOW + 31, BASE, BASE + PAGE - 1, BASE + 0x400)))

    def called(function, *arguments):
        for number, word in ((17, KEY), (16, function), *enumerate(arguments, 10)):
            case.set(number, word)
        case.place(case.machine.pc, "ecall")
        assert "why=done" in case.say("run 1")

    called(MEASURE, 0, WINDOW)
    case.say("mem 80040000 32")
    case.comment("but the accesses of the hart hit it in every world")
    case.set(6, WINDOW)
    case.place(case.machine.pc, "sw", 6, 28, 6)
    assert "why=watch:8004001f" in case.say("run 1")
    called(RUN, 0)
    case.place(case.machine.pc, "lb", 5, 0, 6)
    case.place(case.machine.pc + 4, "sb", 5, 0x400, 7)
    case.set(6, WINDOW)
    case.set(7, BASE)
    assert "why=watch:80040000" in case.say("run 9")
    assert "why=watch:80020400" in case.say("run 9")
    called(MEASURE, 0, BASE + 0x400)
    case.say("mem 80020400 32")
    case.comment("a refused access hits none")
    case.say("watch 80010000", "watch 80010003")
    case.set(6, HOST)
    case.write(stvec=BASE + 0x80)
    case.place(case.machine.pc, "lw", 5, 0, 6)
    assert "why=done" in case.say("run 1")
    case.trapped()
    called(STOP, 1)
    called(DESTROY, 0)
    case.say("mem 80020400 4", "mem 80020ffc 4")
    case.comment("neither does a poke, nor a create, which reads the bytes")
    case.say("poke 80020000 1")
    case.create(BASE)
    case.say("enclaves")
    case.comment("a run that enters an enclave and ends at its store")
    case.create(BASE + PAGE, window=(WINDOW, PAGE), wants=1)
    case.place(BASE + PAGE, "sh", 13, 30, 12)
    for number, word in ((17, KEY), (16, RUN), (10, 1)):
        case.set(number, word)
    case.place(case.machine.pc, "ecall")
    assert "ran 2 " in case.say("run 9")
    case.is_now(world="e1", pc=BASE + PAGE + 4)


def shown_anywhere():
    case = Case("debugger", "the_debugger_sees_everything")
    case.poke(BASE, b"\x93\x00\xf0\xff")
    case.create(BASE, window=(WINDOW, PAGE))
    case.say("mem 80020000 8", "dis 80020000", "mem 80000000 16", "dis 8000fffe", "poke 8000ffff 7", "mem 8000fffc 8",
             "poke 80020004 ff", "mem 80020000 8", "mem 800fffff 2", "poke 80100000 1", "dis 800ffffd", "mem 7fffffff 2")
    case.say(*("csr " + number for number in ("300", "304", "305", "341", "342", "343", "180", "f14", "7a0", "3a0", "3bf")))
    case.enter(0)
    case.say("csr 3a0", "csr 3a3", "csr 3bf", "csr 304", "csr 100", "regs", "pmp", "enclaves",
             "mem 80010000 16", "poke 80010100 13", "setreg 0 5", "reg 0", "setreg 2 80021000", "reg 2")
    case.say("access M r 80020000 4", "access M w 80010000 4", "access U x 80020000 4", "access S x 80040000 4",
             "access S w 80040ffc 4", "access S w 80040ffe 4", "access S r 800fffff 2", "access M x 8000fffe 4")
    case = Case("debugger", "faults_of_lines")
    case.create(BASE)
    case.enter(0)
    for line in ("enclaves 0", "enclave", "Enclaves", "step 0", "run", "access S r 80020000 3", "pmp 1", "timer", "timer On",
                 "csr 0x300", "--", "world", "x" * 121, "poke 80020000 100", "mem 7fffffff 1"):
        case.say(line)
    case.say("enclaves", "regs")


# ---- images

def case_of(name, image, script, **setup):
    text = input_of(image, script)
    WholeCase("monitor_images", name, setup, text, *output(text, **setup))


def images():
    code = bytes.fromhex("9300f0ff")
    script = ["regs", "step 1", "reg 1", "mem 80010000 8", "mem 80000000 8", "pmp", "csr 300", "csr 304", "enclaves"]
    case_of("raw_stands_behind_the_monitors_range", code.hex(), script)
    case_of("raw_of_no_bytes", "", ["step 1", "csr 341", "csr 142", "mem 80010000 4", "regs"])
    case_of("raw_in_the_smallest_memory", code.hex(), ["regs"], ram=65536)
    case_of("raw_of_one_byte_in_the_smallest_memory", "00", ["regs"], ram=65536)
    case_of("nothing_in_the_smallest_memory", "", ["regs"], ram=65536)
    case_of("nothing_in_the_next_memory", "", ["step 1", "mem 8001ffff 1", "mem 80020000 1"], ram=131072)
    full = code + bytes(65536 - 8) + b"\x01\x02\x03\x04"
    case_of("raw_that_fills_memory", full.hex(), ["step 1", "mem 8001fffc 4"], ram=131072)
    case_of("raw_one_byte_too_long", (full + b"\x00").hex(), ["step 1"], ram=131072)
    case_of("memory_of_no_lawful_size", code.hex(), ["step 1"], ram=65535)
    case_of("no_memory", "", ["step 1"], ram=0)
    for kind in ("raw", "elf", "auto"):
        case_of("few_bytes_as_" + kind, code.hex(), ["step 1"], kind=kind)
    files = {
        "at_its_least_address": elf(segment(HOST), entry=HOST),
        "at_the_monitors_range": elf(segment(0x80000000), entry=HOST),
        "in_the_monitors_last_byte": elf(segment(HOST - 1), entry=HOST),
        "in_the_monitors_range_of_zeros": elf(segment(0x80000000, b"", memsz=4), segment(HOST), entry=HOST),
        "over_the_monitors_range_and_more": elf(segment(0x80000000, b"", memsz=0x20000), entry=HOST),
        "in_the_monitors_range_of_no_memory": elf(segment(0x80000000, b"", memsz=0), segment(HOST), entry=HOST),
        "in_the_monitors_range_that_is_no_load": elf(segment(0x80000000, type=4), segment(HOST), entry=HOST),
        "with_entry_in_the_monitors_range": elf(segment(HOST), entry=0x80000000),
        "with_entry_in_its_last_word": elf(segment(HOST), entry=HOST - 4),
        "with_entry_behind_the_code": elf(segment(HOST), entry=HOST + 4),
        "with_entry_misaligned": elf(segment(HOST), entry=HOST + 2),
        "with_entry_misaligned_in_the_range": elf(segment(HOST), entry=HOST - 2),
        "with_entry_at_the_last_word": elf(segment(PAST - 4), entry=PAST - 4),
        "with_entry_outside": elf(segment(HOST), entry=PAST),
        "with_entry_below_memory": elf(segment(HOST), entry=0),
        "outside_and_in_the_range": elf(segment(PAST - 2), segment(0x80000000), entry=0x80000000),
        "over_itself_and_in_the_range": elf(segment(0x8000FFFE), segment(HOST), entry=HOST),
        "over_itself": elf(segment(HOST), segment(HOST + 3), entry=HOST),
        "over_itself_with_entry_in_the_range": elf(segment(HOST), segment(HOST + 3), entry=0x80000000),
        "of_a_host_and_an_enclave": elf(segment(HOST), segment(BASE, b"\x73\x00\x00\x00"), entry=HOST),
        "of_no_segments": elf(entry=HOST), "of_no_segments_with_entry_in_the_range": elf(entry=0x80008000)}
    for name, file in files.items():
        case_of("elf_" + name, file.hex(), ["regs", "step 1", "mem 80010000 8", "mem 80020000 4", "mem 8000fffc 4", "csr 341"])
    for name in ("at_the_monitors_range", "with_entry_in_the_monitors_range", "at_its_least_address"):
        case_of("elf_%s_as_raw" % name, files[name].hex(), ["step 1", "mem 80010000 8"], kind="raw")
    case_of("elf_in_the_smallest_memory", files["at_its_least_address"].hex(), ["step 1"], ram=65536)
    case_of("elf_of_no_segments_in_the_smallest_memory", files["of_no_segments"].hex(), ["step 1"], ram=65536)
    case_of("elf_cut", files["at_its_least_address"][:87].hex(), ["step 1"])


# ---- handwritten worked examples

def ran(pc, world, trap="00000009:00000000"):
    return "ran 1 pc=%08x mode=S world=%s why=done trap=%s\n" % (pc, world, trap)


def sets(**registers):
    return "".join("setreg %s %s\n" % (name[1:], value) for name, value in registers.items())


CREATE_9 = sets(x17="0a454e43", x16="1", x10="80020000", x11="1000", x14="80020000")
WITH_WINDOW = CREATE_9 + sets(x12="80030000", x13="1000")
OK5, OK7 = "ok\n" * 5, "ok\n" * 7


def regs(**registers):
    return "".join("reg %s\n" % name[1:] for name in registers), "".join("%s=%s\n" % it for it in registers.items())


def digest_of(base, size, window, entry, data):
    numbers = [base, size, *window, entry]
    return hashlib.sha256(b"".join(it.to_bytes(4, "little") for it in numbers) + data).hexdigest()


def worked_examples():
    worked("examples", "create_and_an_access_across_the_boundary", "7300000083220300",
           CREATE_9 + "step 1\naccess S r 8001fffe 4\nsetreg 6 8001fffe\nstep 1\ncsr 141\ncsr 142\ncsr 143\n",
           OK5 + ran(0x80010004, "host") + "denied partial 1\nok\n" + ran(0, "host", "00000005:8001fffe")
           + "csr 141=80010004\ncsr 142=00000005\ncsr 143=8001fffe\n")
    asks, tells = regs(x10="00000000", x11="00000000")
    after_asks, after_tells = regs(x10="80020000", x11="00001000", x12="80030000", x13="00001000")
    worked("examples", "the_entries_after_create_and_run", "7300000073000000",
           WITH_WINDOW + "step 1\n" + asks + "csr 3a0\ncsr 3b0\ncsr 3b1\ncsr 3a3\ncsr 3bf\n" + sets(x16="3", x10="0") + "step 1\n"
           + "csr 3a0\ncsr 3be\ncsr 3a3\ncsr 3bf\n" + after_asks,
           OK7 + ran(0x80010004, "host") + tells + "csr 3a0=00001818\ncsr 3b0=20001fff\ncsr 3b1=200081ff\ncsr 3a3=1f000000\n"
           + "csr 3bf=ffffffff\nok\nok\n" + ran(BASE, "e0") + "csr 3a0=00001f18\ncsr 3be=2000c1ff\ncsr 3a3=001b0000\n"
           + "csr 3bf=00000000\n" + after_tells)
    enclave = "enclave 0 Fresh 80020000 00001000 80030000 00001000 80020000 %s\n" % digest_of(
        BASE, PAGE, (0x80030000, PAGE), BASE, bytes(PAGE))
    worked("examples", "a_region_in_a_window_is_refused", "7300000073000000",
           WITH_WINDOW + "step 1\nenclaves\n" + sets(x16="1", x10="80030000", x11="1000", x12="0", x13="0", x14="80030000")
           + "step 1\nreg 10\nreg 11\ncsr 3a0\ncsr 3b1\ncsr 3b2\nenclaves\n",
           OK7 + ran(0x80010004, "host") + enclave + OK5 + "ok\n" + ran(0x80010008, "host")
           + "x10=fffffffc\nx11=00000000\ncsr 3a0=00001818\ncsr 3b1=200081ff\ncsr 3b2=00000000\n" + enclave)
    script, wanted = sets(x17="0a454e43", x16="1"), "ok\nok\n"
    for slot in range(14):
        base = "%x" % (0x80040000 + slot * PAGE)
        script += sets(x10=base, x11="1000", x14=base) + "step 1\nreg 10\nreg 11\n"
        wanted += "ok\nok\nok\n" + ran(0x80010004 + 4 * slot, "host")
        wanted += "x10=00000000\nx11=%08x\n" % slot if slot < 13 else "x10=fffffffa\nx11=00000000\n"
    worked("examples", "the_fourteenth_create", "73000000" * 14, script, wanted)
    worked("examples", "the_timer_stops_and_resume_goes_on", "73000000" * 3,
           CREATE_9 + "step 1\npoke 80020000 13\n" + sets(x16="3", x10="0") + "step 1\nstep 1\ntimer on\nstep 1\nreg 10\nreg 11\n"
           + "csr 344\n" + sets(x16="4", x10="0") + "step 1\nreg 10\n",
           OK5 + ran(0x80010004, "host") + "ok\nok\nok\n" + ran(BASE, "e0") + ran(BASE + 4, "e0", "-") + "ok\n"
           + ran(0x80010008, "host", "80000007:00000000") + "x10=00000002\nx11=00000000\ncsr 344=00000000\nok\nok\n"
           + ran(BASE + 4, "e0") + "x10=80020000\n")
    file = elf(segment(0x80000000, filesz=4, memsz=8), entry=0x80000000).hex()
    text = input_of(file, ["step 1", "mem 80000000 8"])
    assert output(text) == ("rvbench: image 9\n", 1)
    WholeCase("monitor_examples", "a_bare_program_meets_the_monitors_range", {}, text, "rvbench: image 9\n", 1)
    digest = digest_of(BASE, PAGE, (0, 0), BASE, bytes(PAGE))
    script, wanted = CREATE_9 + "step 1\nsetreg 16 5\n", OK5 + ran(0x80010004, "host") + "ok\n"
    for at, (address, status) in enumerate((("8001ffe1", "fffffff7"), ("8000fff0", "fffffff7"), ("800fffe1", "fffffff7"),
                                            ("8001ffe0", "00000000"))):
        script += sets(x10="0", x11=address) + "step 1\nreg 10\nreg 11\n"
        wanted += "ok\nok\n" + ran(0x80010008 + 4 * at, "host") + "x10=%s\nx11=00000000\n" % status
        if status != "00000000":
            script, wanted = script + "mem 8001ffe1 4\n", wanted + "8001ffe1: 00 00 00 00\n"
    worked("examples", "measure_asks_for_all_32_bytes", "73000000" * 5, script + "mem 8001ffe0 32\nenclaves\n",
           wanted + "8001ffe0:%s\nenclave 0 Fresh 80020000 00001000 00000000 00000000 80020000 %s\n" % (
               "".join(" " + digest[i:i + 2] for i in range(0, 64, 2)), digest))
    worked("examples", "stop_resume_and_exit", "73000000" * 4,
           CREATE_9 + "step 1\npoke 80020000 73\n" + sets(x16="3", x10="0") + "step 1\n"
           + sets(x17="0a454e43", x16="6", x10="5", x5="77") + "step 1\nreg 10\nreg 11\nreg 5\n"
           + sets(x16="4", x10="0") + "step 1\nreg 10\nreg 11\nreg 5\npoke 80020004 73\n"
           + sets(x16="7", x10="9") + "step 1\nreg 10\nreg 11\nsetreg 10 0\nstep 1\nreg 10\n",
           OK5 + ran(0x80010004, "host") + "ok\nok\nok\n" + ran(BASE, "e0") + "ok\nok\nok\nok\n" + ran(0x80010008, "host")
           + "x10=00000001\nx11=00000005\nx5=00000000\nok\nok\n" + ran(BASE + 4, "e0")
           + "x10=00000000\nx11=00000000\nx5=00000077\nok\nok\nok\n" + ran(0x8001000C, "host")
           + "x10=00000000\nx11=00000009\nok\n" + ran(0x80010010, "host") + "x10=fffffff8\n")
    worked("examples", "a_region_adjacent_to_its_window", "7300000073000000",
           CREATE_9 + sets(x12="80021000", x13="1000") + "step 1\n" + sets(x16="3", x10="0") + "step 1\naccess S r 80020ffe 4\n"
           "access S x 80021000 4\naccess S w 80021000 4\naccess S r 80010000 4\naccess S r 8000fffe 4\n",
           OK7 + ran(0x80010004, "host") + "ok\nok\n" + ran(BASE, "e0")
           + "denied partial 1\ndenied entry 14\nallowed entry 14\ndenied free\ndenied partial 0\n")
    hostile()


def hostile():
    """Each on a separate bench: one enclave, and a second create or another call."""
    usual = {"x16": "1", "x14": "80030000", "x12": "0", "x13": "0"}
    rows = {"a_region_at_the_end_of_addresses": (dict(x10="fffff000", x11="1000"), "fffffffe"),
            "a_region_of_size_0": (dict(x10="80030000", x11="0", x14="1"), "fffffffe"),
            "a_region_of_three_pages": (dict(x10="80030000", x11="3000"), "fffffffe"),
            "a_base_of_another_size": (dict(x10="8001f000", x11="2000"), "fffffffe"),
            "a_window_of_half_a_page": (dict(x10="80030000", x11="1000", x12="80040000", x13="800"), "fffffffd"),
            "a_region_of_all_memory": (dict(x10="80000000", x11="100000"), "fffffffc"),
            "a_region_over_a_live_one": (dict(x10="80020000", x11="2000"), "fffffffc"),
            "a_region_that_is_its_window": (dict(x10="80030000", x11="1000", x12="80030000", x13="1000"), "fffffffc"),
            "an_entry_behind_the_region": (dict(x10="80030000", x11="1000", x14="80031000"), "fffffffb"),
            "an_entry_that_is_misaligned": (dict(x10="80030000", x11="1000", x14="80030002"), "fffffffb"),
            "a_window_of_size_0": (dict(x10="80030000", x11="1000", x12="ffffffff", x13="0"), "00000000"),
            "function_0": (dict(x16="0"), "ffffffff"), "function_6": (dict(x16="6"), "ffffffff"),
            "another_a7": (dict(x17="0a454e42"), "ffffffff"),
            **{"%s_of_no_slot" % name: (dict(x16=str(number), x10="ffffffff"), "fffffff9")
               for name, number in (("destroy", 2), ("run", 3), ("resume", 4))},
            "resume_of_a_fresh_one": (dict(x16="4", x10="0"), "fffffff8")}
    for name, (given, status) in rows.items():
        registers = {**usual, **given}
        first = "enclave 0 Fresh 80020000 00001000 00000000 00000000 80020000 %s\n" % digest_of(
            BASE, PAGE, (0, 0), BASE, bytes(PAGE))
        second = "enclave 1 Fresh 80030000 00001000 00000000 00000000 80030000 %s\n" % digest_of(
            0x80030000, PAGE, (0, 0), 0x80030000, bytes(PAGE))
        taken = status == "00000000"
        worked("examples", "hostile_" + name, "7300000073000000",
               CREATE_9 + "step 1\n" + sets(**registers) + "step 1\nreg 10\nreg 11\nenclaves\n",
               OK5 + ran(0x80010004, "host") + "ok\n" * len(registers) + ran(0x80010008, "host")
               + "x10=%s\nx11=%08x\n" % (status, taken) + first + (second if taken else ""))


def parts():
    for part in (several_steps, watches, shown_anywhere, images, worked_examples):
        part()
