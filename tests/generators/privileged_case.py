"""A command-line case that follows the hart of privileged_hart.py: the input, and the replies of the hart."""
from generators import case_files
from models.instruction_words import assemble
from models.privileged_hart import KEPT, LETTER, MEPC, MSTATUS, MTVEC, NUMBER, ONES, Hart


class Case:
    """A case: an image, and its script with the replies of the hart so far."""
    all, words = [], {}

    def __init__(self, topic, name):
        self.topic, self.name, self.hart, self.script, self.replies, self.last_comment = topic, name, Hart(), [], [], None
        Case.all.append(self)

    def files(self):
        image = {}
        for address, instruction in self.hart.memory.items():
            if instruction != (".word", 0):  # present without an image
                image.update(enumerate(assemble(*instruction)[1].to_bytes(4, "little"), address))
        return {"stdin": case_files.stdin(image, self.script), "stdout": "\n".join(self.replies) + "\n"}

    def say(self, line, reply):
        self.script.append(line)
        self.replies.append(reply)

    def set(self, number, word):
        if self.hart.regs[number] != word & ONES:
            self.hart.set(number, word)
            self.say("setreg %d %x" % (number, word & ONES), "ok")

    def timer(self, raised):
        self.hart.timer = raised
        self.say("timer " + ("on" if raised else "off"), "ok")

    def reg(self, number):
        self.say("reg %d" % number, "x%d=%08x" % (number, self.hart.regs[number]))

    def show(self, *numbers):
        """Shows the values of registers in mode M."""
        for number in numbers:
            self.say("csr %03x" % number,
                     "csr %03x=%08x" % (number, self.hart.reading(number)) if number in KEPT else "error csr")

    def mem(self, address, count):
        shown = "".join(" %02x" % self.hart.byte(address + i) for i in range(count))
        self.say("mem %08x %d" % (address, count), "%08x:%s" % (address, shown))

    def pmp(self):
        entries = self.hart.entries
        self.say("pmp", "\n".join("pmp %d cfg=%02x addr=%08x" % (i, entries.cfgs[i], entries.addrs[i]) for i in range(16)))

    def access(self, mode, kind, address, width):
        self.say("access %s %s %08x %d" % (LETTER[mode], kind, address, width), self.hart.verdict(mode, kind, address, width))

    def place(self, address, *instruction):
        text, word = assemble(*instruction)
        Case.words[text] = word
        assert address not in self.hart.data, "data is no instruction"
        assert self.hart.memory.get(address, instruction) == instruction, "two instructions at one place"
        self.hart.memory[address] = instruction

    def comment(self, text):
        """Adds a comment unless it repeats the last one."""
        if text != self.last_comment:
            self.script.append("# " + text)
        self.last_comment = text

    def run(self, *instructions):
        """Steps over instructions in one command, each written at the pc of its step; None steps over the present instruction. Returns the last
        trap."""
        last = None
        for instruction in instructions:
            if instruction:
                self.place(self.hart.pc, *instruction)
                self.comment(assemble(*instruction)[0])
            last = self.hart.step() or last
        trap = "%08x:%08x" % (last.cause, last.tval) if last else "-"
        self.say("step %d" % len(instructions), "ran %d pc=%08x mode=%s world=bare why=done trap=%s" % (
            len(instructions), self.hart.pc, LETTER[self.hart.mode], trap))
        return last

    def write(self, *then, **registers):
        """Writes the named registers in mode M by csrrw, from x20 and so on; then steps over other instructions."""
        for i, word in enumerate(registers.values()):
            self.set(20 + i, word)
        return self.run(*(("csrrw", 0, NUMBER[name], 20 + i) for i, name in enumerate(registers)), *then)

    def open(self):
        """Sets the entry of lowest priority in mode M to permit all memory to every mode."""
        self.write(pmpaddr15=ONES, pmpcfg3=0x1F000000)

    def enter(self, mode, mtvec, mstatus=0):
        """Goes from mode M to another mode in four steps; the code continues after them."""
        self.write(("mret",), mtvec=mtvec, mstatus=mstatus | mode << 11, mepc=self.hart.pc + 16)
        assert self.hart.mode == mode

    def after_enter(self, words):
        """Returns the address this many words after the code to which `enter` goes."""
        return self.hart.pc + 16 + 4 * words


class Opened(Case):
    """A case whose code may run in every mode."""

    def __init__(self, topic, name):
        super().__init__(topic, name)
        self.open()


class Returning(Case):
    """A case with a handler that returns from a trap to its mode, at the address in x30."""

    def __init__(self, topic, name):
        super().__init__(topic, name)
        handler = self.hart.pc + 8
        self.set(31, handler)
        self.place(handler, "csrrw", 0, MEPC, 30)
        self.place(handler + 4, "mret")
        self.run(("csrrw", 0, MTVEC, 31), ("jal", 0, 12))

    def attempt(self, *instruction):
        """Steps over one instruction; continues after it if it traps."""
        self.set(30, self.hart.pc + 4)
        trap = self.run(instruction)
        if trap:
            self.run(None, None)
        return trap

    def to(self, mode, mstatus=0):
        """Goes from mode M to another mode."""
        self.set(29, mstatus | mode << 11)
        self.set(30, self.hart.pc + 12)
        self.run(("csrrw", 0, MSTATUS, 29), ("csrrw", 0, MEPC, 30), ("mret",))
