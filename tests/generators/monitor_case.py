"""A case of the monitored profile: its input, and the replies of the model in monitor_bench.py. The code of the host is in the image; all other code
is poked.
"""
from models.instruction_words import assemble
from models.monitor_bench import Bench, output
from models.monitor_model import CREATE, HOST_ENTRY, KEY, RUN
from models.privileged_hart import LETTER, NUMBER, ONES

ECALL = ("ecall",)
CODE = range(HOST_ENTRY, HOST_ENTRY + 0x2000)  # the host's code: in the image, and in no region and no window
MEMORY = 0x100000  # the default size of RAM, in bytes


def input_of(image, script):
    """Returns the input of an image, as digits, and the lines of a script."""
    return "\n".join([image[i:i + 120] for i in range(0, len(image), 120)] + ["--"] + script) + "\n"


class Case:
    """`topic` and `name` are those of the files; the options follow run --monitor."""
    all, words = [], {}

    def __init__(self, topic, name, ram=MEMORY, harts=1):
        self.topic, self.name, self.setup, self.image = "monitor_" + topic, name, {"ram": ram, "harts": harts}, {}
        self.bench, self.script, self.replies = Bench(b"", **self.setup), [], []
        Case.all.append(self)

    @property
    def machine(self):
        return self.bench.machine

    def digits(self):
        """Returns the image, which has all code of the host."""
        return bytes(self.image.get(a, 0) for a in range(HOST_ENTRY, max(self.image, default=HOST_ENTRY - 1) + 1)).hex()

    def options(self):
        """Returns the arguments of the configuration."""
        usual = {"ram": MEMORY, "harts": 1}
        return [word for key, it in self.setup.items() if it != usual[key] for word in ("--" + key, str(it))]

    def files(self):
        stdin = input_of(self.digits(), self.script)
        words = ["run", "--monitor", *self.options()]
        stdout = "".join(it + "\n" for it in self.replies)
        assert output(stdin, **self.setup) == (stdout, 0), self.name  # with all of the code there from the start
        return {"args": "".join(it + "\n" for it in words), "stdin": stdin, "stdout": stdout}

    # ---- lines

    def given(self, line):
        """Returns the replies of the model to a line."""
        return self.bench.replies(line)

    def say(self, *lines):
        """Adds lines with the replies of the model; returns the last reply."""
        for line in lines:
            self.script.append(line)
            self.replies += self.given(line)
        return self.replies[-1] if self.replies else None

    def wants(self, line, *replies):
        """Adds a line with handwritten replies."""
        self.script.append(line)
        given = self.given(line)
        assert given == list(replies), (self.name, line, given, replies)
        self.replies += given

    def comment(self, text):
        self.script.append("# " + text)

    def on(self, hart):
        """Selects the hart for the following lines."""
        if self.machine is not self.machine.peers[hart]:
            self.say("hart %d" % hart)

    def set(self, number, word):
        if self.machine.regs[number] != word & ONES:
            self.say("setreg %d %x" % (number, word & ONES))

    def csrs(self, *names):
        """Checks the values of control and status registers."""
        self.say(*("csr %03x" % NUMBER[name] for name in names))

    def trapped(self):
        """Shows the trap registers."""
        self.csrs("mepc", "mcause", "mtval", "mstatus")

    def supervisor(self):
        """Shows the registers of mode S that a world switch exchanges."""
        self.csrs("stvec", "sscratch", "sepc", "scause", "stval", "sstatus")

    def poke(self, address, data):
        """Pokes the bytes that differ."""
        for i, byte in enumerate(data):
            if self.machine.part(address + i, 1) != bytes([byte]):
                self.say("poke %x %x" % (address + i, byte))

    # ---- code

    def place(self, address, *instruction):
        text, word = assemble(*instruction)
        Case.words[text] = word
        data = word.to_bytes(4, "little")
        if address in CODE:
            there = bytes(self.image.get(address + i, byte) for i, byte in enumerate(data))
            assert there == data, "two words at one place"
            self.image.update(enumerate(data, address))
            self.machine.put(address, data)
        else:
            self.poke(address, data)

    def do(self, *instructions):
        """Steps over instructions from pc, in one command; returns its reply."""
        for i, instruction in enumerate(instructions):
            self.place(self.machine.pc + 4 * i, *instruction)
        return self.say("step %d" % len(instructions))

    def write(self, **registers):
        """Writes words to control and status registers through x31."""
        for name, word in registers.items():
            self.set(31, word)
            self.do(("csrrw", 0, NUMBER[name], 31))

    def to_user(self):
        """Goes from mode S to U, after an sret."""
        self.write(sepc=self.machine.pc + 12, sstatus=self.machine.reading(NUMBER["sstatus"]) & ~0x100)
        self.do(("sret",))
        self.is_now(mode="U")

    # ---- calls

    def ready(self, function, *arguments, key=KEY):
        """Sets the registers of a call."""
        self.set(17, key)
        self.set(16, function)
        for i, word in enumerate(arguments):
            self.set(10 + i, word)

    def call(self, function, *arguments, key=KEY, wants=None):
        """Makes a call with these registers from a0. If a status and a result are expected, no world switch occurs and they are shown."""
        self.ready(function, *arguments, key=key)
        world = self.machine.world
        reply = self.do(ECALL)
        if wants is not None:
            self.say("reg 10", "reg 11")
            given = tuple(self.machine.regs[10:12])
            assert (given, self.machine.world) == (wants, world), (self.name, [hex(it) for it in given], wants)
        return reply

    def create(self, base, size=0x1000, window=(0, 0), entry=None, wants=0):
        """Makes a create that is accepted with the expected slot, or refused with a status, a value above 12."""
        entry = base if entry is None else entry
        self.call(CREATE, base, size, *window, entry, wants=(0, wants) if wants <= 12 else (wants, 0))

    def enter(self, slot, function=RUN):
        """Makes a run or resume that is accepted."""
        self.call(function, slot)
        assert self.machine.world == slot, self.name
        self.is_now()

    def leave(self, function, value=0, error=None):
        """Makes a stop or an exit."""
        self.call(function, value)
        assert self.machine.world is None, self.name
        self.say("reg 10", "reg 11")
        assert error is None or self.machine.regs[10:12] == [error, value], self.name

    def is_now(self, **wanted):
        """Compares the present state of the model with expected values: pc, mode, registers by number."""
        machine = self.machine
        for name, value in wanted.items():
            given = {"pc": machine.pc, "mode": LETTER[machine.mode], "world": self.bench.world()}.get(name)
            given = machine.regs[int(name[1:])] if given is None else given
            assert given == value, (self.name, name, given, value)


def worked(topic, name, image, script, wanted, **setup):
    """Adds a case with a handwritten image, script and output, which the model must produce too."""
    text = image + "\n--\n" + script
    assert output(text, **setup) == (wanted, 0), (name, output(text, **setup)[0], wanted)
    return WholeCase("monitor_" + topic, name, setup, text, wanted, 0)


class WholeCase:
    """A case of an input and an output."""

    def __init__(self, topic, name, setup, stdin, stdout, status):
        self.topic, self.name, self.stdin, self.stdout, self.status = topic, name, stdin, stdout, status
        self.arguments = ["run", "--monitor"]
        for option in ("kind", "ram", "harts"):
            if option in setup:
                self.arguments += ["--" + option, str(setup[option])]
        Case.all.append(self)

    def files(self):
        return {"args": "".join(it + "\n" for it in self.arguments), "stdin": self.stdin, "stdout": self.stdout,
                "status": "%d\n" % self.status}
