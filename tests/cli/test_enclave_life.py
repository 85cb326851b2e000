"""Pairs of runs of one enclave: under unlike hosts and in other slots, with loops of secret length, and interrupted by the timer.

The theorems of docs/CALLS.md, section "The life of an enclave", are about all such pairs. Each test draws pairs from a fixed seed and compares
the replies of the built program.
"""
import random
import subprocess

import pytest

from generators.monitor_case import input_of
from models.instruction_words import assemble
from models.monitor_model import CREATE, DESTROY, EXIT, EXITED, HOST_ENTRY, KEY, MEASURE, RESUME, RUN, STOP, STOPPED
from support.limits import HANG

PAGE = 0x1000
REGION, WINDOW, OTHER, FREE = (HOST_ENTRY + n * PAGE for n in (1, 2, 3, 4))
SPARE = HOST_ENTRY + 5 * PAGE
SECRET = REGION + PAGE - 4
STEPS = 40
HOST_ECALLS = 24


def word(name, *operands):
    """Returns the word of an instruction."""
    return assemble(name, *operands)[1]


def constant(register, number):
    """Returns two instructions that load a number into a register."""
    low = number & 0xFFF
    return [word("lui", register, (number + 0x800) >> 12 & 0xFFFFF), word("addi", register, register, low - (low >> 11 << 12))]


def leave(function):
    """Returns the instructions of a call with which an enclave leaves; a0 has its value."""
    return [*constant(17, KEY), word("addi", 16, 0, function), word("ecall")]


def image_of(enclave):
    """Returns the digits of an image: ecalls of the host, and the code of the enclave in its region."""
    host = [word("ecall")] * HOST_ECALLS
    words = host + [0] * (PAGE // 4 - len(host)) + enclave
    return b"".join(it.to_bytes(4, "little") for it in words).hex()


def call(function, *arguments):
    """Returns the lines with which the host calls the monitor."""
    values = {17: KEY, 16: function, **dict(zip(range(10, 15), arguments))}
    return ["setreg %d %x" % it for it in values.items()] + ["step 1"]


def replies(program, enclave, lines):
    """Returns the lines of the output of a script."""
    text = input_of(image_of(enclave), lines)
    ran = subprocess.run([program, "run", "--monitor", "--ram", "131072"], input=text.encode(), stdout=subprocess.PIPE, timeout=HANG, check=True)
    return ran.stdout.decode().splitlines()


def operation(chance):
    """Returns an instruction of an enclave whose a0 has its region and whose a2 its window: arithmetic, an access, a branch, a CSR or a trap."""
    rd, a, b = (chance.choice((5, 6, 7, 8, 9)) for _ in range(3))
    place = 4 * chance.randrange(0x100, 0x1FF)
    return chance.choice((
        word(chance.choice(("add", "sub", "xor", "sltu", "mulhu", "divu")), rd, a, b), word("addi", rd, a, chance.randrange(-2048, 2048)),
        word("lw", rd, place, 10), word("sw", a, place, 10), word("lw", rd, place, 12), word("sw", a, place, 12), word("beq", a, b, 8),
        word("csrrw", rd, 0x140, a), word("csrrs", rd, 0xC00, 0), word("ebreak"), word("lw", rd, 0, 0)))


def first_run(chance):
    """Returns the code of an enclave: it sets its trap handler, and then executes random instructions."""
    handler = [*constant(31, REGION + 12), word("csrrw", 0, 0x105, 31)]
    return handler + [operation(chance) for _ in range(2 * STEPS)]


def unlike_host(chance, shared, slot):
    """Returns the lines of a host up to its run of a slot: its registers, memory and enclaves are random; the bytes of the window are shared."""
    lines = ["setreg %d %x" % (it, chance.getrandbits(32)) for it in range(1, 32)]
    lines += ["poke %x %x" % (FREE + chance.randrange(PAGE), chance.randrange(256)) for _ in range(8)] + shared
    for other in range(slot):
        lines += call(CREATE, SPARE + other * PAGE, PAGE, 0, 0, SPARE + other * PAGE)
    lines += call(CREATE, REGION, PAGE, WINDOW, PAGE, REGION)
    if chance.random() < 0.5:
        lines += call(CREATE, OTHER, PAGE, 0, 0, OTHER)
    if slot and chance.random() < 0.5:
        lines += call(DESTROY, chance.randrange(slot))
    return lines + call(RUN, slot, *(chance.getrandbits(32) for _ in range(4)))


def shown(program, enclave, slot, parts):
    """Returns the replies to the second lines of each pair, which follow its first lines. They name the enclave of the slot as e."""
    groups = [[]]
    for it in replies(program, enclave, [line for hidden, lines in parts for line in [*hidden, "mark", *lines, "mark"]]):
        if it == "error command":
            groups.append([])
        else:
            groups[-1].append(it.replace("world=e%d " % slot, "world=e "))
    return groups[1::2]


@pytest.mark.parametrize("seed", range(4))
def test_enclave_takes_the_same_steps_under_unlike_hosts_in_any_slots(bench, seed):
    chance = random.Random(seed)
    for _ in range(250):
        enclave, slots = first_run(chance), [chance.randrange(12) for _ in range(2)]
        shared = ["poke %x %x" % (WINDOW + 0x400 + chance.randrange(0x3FC), chance.randrange(256)) for _ in range(8)]
        steps = ["regs", *["step 1", "regs"] * STEPS, "mem %x 64" % (WINDOW + 0x400), "mem %x 64" % (REGION + 0x400)]
        first, second = (shown(bench, enclave, it, [(unlike_host(chance, shared, it), steps)])[0] for it in slots)
        assert any("world=e " in it for it in first)
        assert first == second


def calling_run(chance, values):
    """Returns the code of an enclave that calls the monitor twice and stops with the first value. After a resume it stores what it received, calls
    again, and exits with the second value. One call measures into its region, one is a measure that is refused, and one is not offered."""
    calls = [
        [*constant(11, REGION + 0x600), *leave(MEASURE)],
        [*constant(11, chance.choice((0, OTHER, REGION - 4, WINDOW + PAGE - 4))), *leave(MEASURE)],
        [*constant(10, chance.getrandbits(32)), *leave(chance.choice((0, CREATE, DESTROY, RUN, RESUME, 8)))],
    ]
    chance.shuffle(calls)
    keep = [*constant(12, WINDOW), word("sw", 10, 0x400, 12), word("sw", 11, 0x404, 12), word("csrrs", 5, 0x143, 0), word("sw", 5, 0x408, 12)]
    return [*calls[0], *calls[1], *constant(10, values[0]), *leave(STOP), *keep, *calls[2], *constant(10, values[1]), *leave(EXIT)]


@pytest.mark.parametrize("seed", range(4))
def test_monitor_answers_and_saves_an_enclave_alike_in_any_slots(bench, seed):
    chance = random.Random(seed)
    after = ["run 200", "reg 10", "reg 11", "mem %x 64" % (WINDOW + 0x400), "mem %x 64" % (REGION + 0x600)]
    for _ in range(50):
        values, runs = [chance.getrandbits(32) for _ in range(2)], []
        enclave = calling_run(chance, values)
        for slot in chance.sample(range(12), 2):
            host = unlike_host(chance, [], slot)
            back = HOST_ENTRY + 4 * host.count("step 1")
            stops = [*["step 1", "regs"] * 16, "break %x" % back, *after]
            exits = [*["step 1", "regs"] * 8, "break %x" % (back + 4), *after]
            runs.append(shown(bench, enclave, slot, [(host, stops), (["clear %x" % back, *call(RESUME, slot)], exits)]))
        # the two hosts continue at different addresses
        first, second = ([[it for it in part if not it.startswith("ran") or "world=e " in it] for part in run] for run in runs)
        assert first == second
        assert [part[-4:-2] for part in first] == [["x10=%08x" % reason, "x11=%08x" % value] for reason, value in zip((STOPPED, EXITED), values)]


def secret_loop(function):
    """Returns the code of an enclave that counts a secret byte down, and then leaves with 7 in a0 and in its window."""
    loop = [word("addi", 5, 5, -1), word("bne", 5, 0, -4)]
    return [*constant(6, SECRET), word("lbu", 5, 0, 6), word("addi", 5, 5, 1), *loop, word("addi", 7, 0, 7), word("sw", 7, 0, 12),
            word("addi", 10, 0, 7), *leave(function)]


@pytest.mark.parametrize("function, seed", [(STOP, 0), (STOP, 1), (EXIT, 2), (EXIT, 3)])
def test_host_cannot_tell_loops_of_secret_length_after_they_end(bench, function, seed):
    chance = random.Random(seed)
    enclave, back = secret_loop(function), HOST_ENTRY + 8
    before = [*call(CREATE, REGION, PAGE, WINDOW, PAGE, REGION)]
    after = ["regs", "enclaves", "pmp", "mem %x 64" % WINDOW, "csr 140", *call(DESTROY, 0), "regs", "enclaves"]
    counts = set()
    for _ in range(250):
        outputs = []
        for secret in chance.sample(range(256), 2):
            lines = [*before, "poke %x %x" % (SECRET, secret), "break %x" % back, *call(RUN, 0), "run 2000"]
            output = replies(bench, enclave, lines + after)
            counts.add(output[len(lines) - 1])
            outputs.append(output[len(lines):])
        assert outputs[0] == outputs[1]
    assert len(counts) > 100, counts


@pytest.mark.parametrize("seed", range(4))
def test_set_timer_line_gives_the_host_its_hart_and_lets_it_destroy_the_enclave(bench, seed):
    chance = random.Random(seed)
    for _ in range(50):
        lines = [*call(CREATE, REGION, PAGE, WINDOW, PAGE, REGION), *call(RUN, 0), "step %d" % chance.randrange(1, STEPS)]
        output = replies(bench, first_run(chance), [*lines, "timer on", "step 1", "reg 10", "reg 11", *call(DESTROY, 0), "reg 10", "enclaves"])
        stopped = output[len(lines):]
        assert "world=e0" in output[len(lines) - 1]
        assert "world=host" in stopped[1] and "trap=80000007" in stopped[1]
        assert stopped[2:4] == ["x10=00000002", "x11=00000000"]
        assert stopped[-1] == "x10=00000000"
