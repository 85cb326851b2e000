"""The host of one hart, concurrent with an enclave on the other hart that stores to its region, its stack and its window. The host loads and stores
at both boundaries and inside, and creates, measures and destroys around and over the region, in several schedules. Afterwards `mem` shows that
the region has exactly the bytes that the enclave stored."""
from generators.harts_case import HartsCase, divided
from models.instruction_words import assemble
from models.monitor_model import (BAD_ADDRESS, BAD_STATE, CREATE, DESTROY, HOST_ENTRY, INTERRUPTED, KEY, MEASURE, OVERLAP, RESUME, RUN)

BASE, PAGE, WINDOW, KEPT = 0x80020000, 0x1000, 0x80040000, 0x80060000
ABOVE, BELOW, ELSEWHERE = BASE + PAGE, BASE - PAGE, BASE + 4 * PAGE
PROGRAM, HANDLER = HOST_ENTRY + 0x800, HOST_ENTRY + 0x1800
ORDERS = (("01", 0), ("10", 0), ("0011", 1), ("0111", 0), ("0111", 1), ("0110100", 1))  # and the hart of the enclave

# The enclave counts: it stores each number to its region, its stack and its window.
ENCLAVE = (("add", 2, 10, 11), ("addi", 9, 0, 0), ("addi", 9, 9, 1), ("sw", 9, 0x100, 10), ("addi", 2, 2, -4), ("sw", 9, 0, 2),
           ("sw", 9, 0, 12), ("jal", 0, -20))
BEGIN, ROUND = 2, 6  # its steps before the first number, and those of each

# The handler counts the refusals in x21, and continues after the refused instruction.
REFUSED = (("addi", 21, 21, 1), ("csrrs", 30, 0x141, 0), ("addi", 30, 30, 4), ("csrrw", 0, 0x141, 30), ("sret",))

WIDTHS = {"lw": 4, "lh": 2, "lbu": 1, "sw": 4, "sh": 2, "sb": 1}
INSIDE = (BASE + 0x100, BASE + 0x103, BASE + PAGE - 8)  # the enclave's number, and its stack
# each call of the host, and its expected status
CALLS = (((CREATE, BASE, PAGE, 0, 0, BASE), OVERLAP), ((CREATE, BASE, 2 * PAGE, 0, 0, BASE), OVERLAP),
         ((CREATE, BASE, 16 * PAGE, 0, 0, BASE), OVERLAP), ((CREATE, ELSEWHERE, PAGE, BASE, PAGE, ELSEWHERE), OVERLAP),
         ((CREATE, ELSEWHERE, PAGE, BASE, 4 * PAGE, ELSEWHERE), OVERLAP), ((CREATE, WINDOW, PAGE, 0, 0, WINDOW), OVERLAP),
         ((MEASURE, 0, BASE - 31), BAD_ADDRESS), ((MEASURE, 0, BASE), BAD_ADDRESS), ((MEASURE, 0, ABOVE - 1), BAD_ADDRESS),
         ((MEASURE, 0, BASE - 32), 0), ((MEASURE, 0, ABOVE), 0),
         ((CREATE, ABOVE, PAGE, WINDOW, PAGE, ABOVE), 0), ((CREATE, BELOW, PAGE, 0, 0, BELOW), 0),
         ((DESTROY, 0), BAD_STATE), ((RUN, 0), BAD_STATE), ((RESUME, 0), BAD_STATE),
         ((DESTROY, 2), 0), ((DESTROY, 1), 0))


def accesses():
    """Returns the names and addresses of all accesses."""
    for boundary in (BASE, ABOVE):
        for name, width in WIDTHS.items():
            yield from ((name, boundary - before) for before in range(width, -1, -1))
    yield from ((name, address) for address in INSIDE for name in WIDTHS)


def is_refused(name, address):
    """Returns whether an access is refused: one of its bytes is in the region."""
    return BASE - WIDTHS[name] < address < ABOVE


def loaded(register, word):
    """Returns the instructions that load a word into a register."""
    low = (word & 0xFFF ^ 0x800) - 0x800
    high = (word - low) >> 12 & 0xFFFFF
    return [("lui", register, high), ("addi", register, register, low)] if high else [("addi", register, 0, low)]


def program():
    """Returns the code of the host: all accesses, with the values loaded from the region in x22; then all calls, with their statuses."""
    code = [("addi", 5, 0, -1)]
    for name, address in accesses():
        code += loaded(6, address) + [("addi", 7, 0, 0)]
        code.append((name, 5 if name.startswith("s") else 7, 0, 6))
        code += [("or", 22, 22, 7)] if is_refused(name, address) else []
    code += loaded(17, KEY) + loaded(8, KEPT)
    for (function, *arguments), _ in CALLS:
        for register, word in enumerate([*arguments], 10):
            code += loaded(register, word)
        code += loaded(16, function) + [("ecall",), ("sw", 10, 0, 8), ("addi", 8, 8, 4)]
    return code + [("jal", 0, 0)]


def region(count):
    """Returns the expected bytes of the region after the enclave has counted this far."""
    code = b"".join(assemble(*it)[1].to_bytes(4, "little") for it in ENCLAVE)
    stack = b"".join(number.to_bytes(4, "little") for number in range(count, 0, -1))
    number = count.to_bytes(4, "little")
    return code.ljust(0x100, b"\0") + number + bytes(PAGE - 0x104 - len(stack)) + stack


def line_of(address, data):
    return "%08x:" % address + "".join(" %02x" % byte for byte in data)


def placed(case, address, instructions):
    for i, instruction in enumerate(instructions):
        case.place(address + 4 * i, *instruction)


def prepared(case, runs):
    """Enters the enclave on its hart; the host of the other hart is at its program."""
    case.on(runs)
    placed(case, BASE, ENCLAVE)
    case.create(BASE, window=(WINDOW, PAGE))
    case.enter(0)
    case.on(1 - runs)
    case.write(stvec=HANDLER)
    placed(case, HANDLER, REFUSED)
    placed(case, PROGRAM, program())
    case.do(("jal", 0, PROGRAM - case.machine.pc))


def played(case, runs, order):
    """Steps both harts in this order until the host is at the end; returns the number of steps of the enclave."""
    end, steps = PROGRAM + 4 * (len(program()) - 1), 0
    while case.machine.peers[1 - runs].pc != end:
        digits = (order * 64)[:64]
        case.say("sched " + digits)
        steps += digits.count(str(runs))
    return steps


def ended(case, steps):
    """Runs the enclave to the end of its present round; returns its counter, by its number of steps."""
    more = (BEGIN - steps) % ROUND
    if more:
        case.say("step %d" % more)
    count = (steps + more - BEGIN) // ROUND
    case.wants("reg 9", "x9=%08x" % count)
    return count


def concurrent(order, runs):
    case = divided(HartsCase("concurrent", "order_%s_enclave_on_hart_%d" % (order, runs)))
    prepared(case, runs)
    steps = played(case, runs, order)
    case.comment("the refused accesses and their loaded values; the statuses of the calls")
    case.wants("reg 21", "x21=%08x" % sum(is_refused(*it) for it in accesses()))
    case.wants("reg 22", "x22=00000000")
    for i, (_, status) in enumerate(CALLS):
        case.wants("mem %x 4" % (KEPT + 4 * i), line_of(KEPT + 4 * i, status.to_bytes(4, "little")))
    case.say("enclaves", "pmp")
    case.comment("all bytes of the region, and the bytes on both sides, where two regions were zeroed")
    case.on(runs)
    count = ended(case, steps)
    data = region(count)
    for at in range(0, PAGE, 64):
        case.wants("mem %x 64" % (BASE + at), line_of(BASE + at, data[at:at + 64]))
    case.wants("mem %x 64" % (BASE - 64), line_of(BASE - 64, bytes(64)))
    case.wants("mem %x 64" % ABOVE, line_of(ABOVE, bytes(64)))
    case.wants("mem %x 4" % WINDOW, line_of(WINDOW, count.to_bytes(4, "little")))
    case.comment("it continues, and stops as before")
    case.say("step %d" % ROUND, "timer on", "step 1")
    case.wants("reg 10", "x10=%08x" % INTERRUPTED)
    case.wants("mem %x 4" % (BASE + 0x100), line_of(BASE + 0x100, (count + 1).to_bytes(4, "little")))


def parts():
    for order, runs in ORDERS:
        concurrent(order, runs)
