#!/usr/bin/env python3
"""Fuzzes the monitored machine: long random scripts of calls, steps, pokes, registers and timer lines, whose replies must equal those of the model in
monitor_bench.py. Regions and windows come from a small pool, so that several enclaves run, stop, exit and are destroyed in one script. The code
of all worlds consists of ecalls, accesses, returns, jumps and illegal words. With --harts 2 both harts run, and race. With --twin the second part
of the script goes to two benches that differ in one enclave, whose replies must be equal. With --other-hart the script is split while an enclave runs
on one of two harts. Each of several secrets is then written to its region and its registers. The second part is for the other hart, and its
replies must be the same for all secrets.

    python3 -m fuzz.monitor_play PROGRAM [--twin | --other-hart] [--harts H] [--seed S] [--count N] [--lines L]
                                                                                                  N scripts of L lines, from this seed
    python3 -m fuzz.monitor_play --alone ..                                                         runs the model only

If a reply differs, the script is minimized and printed with both replies. The last line counts the scripts.
"""
import argparse
import collections
import functools
import os
import random
import subprocess
import sys

from models.instruction_words import assemble
from models.monitor_bench import Bench, Twins, parsed, wanted
from generators.monitor_case import input_of
from models.monitor_model import CREATE, DESTROY, EXIT, HOST_ENTRY, KEY, MEASURE, RESUME, RUN, STOP
from models.privileged_hart import NUMBER, ONES, S, START
from support.limits import HANG

MEMORY = 0x40000
PAST = START + MEMORY
HANDLER = HOST_ENTRY + 0x1000  # of the host, where nothing else is
REGIONS = [(0x80020000, 0x1000), (0x80021000, 0x1000), (0x80020000, 0x2000), (0x80022000, 0x2000), (0x80022000, 0x1000),
           (0x80024000, 0x4000), (0x80024000, 0x1000), (0x80025000, 0x1000), (0x80028000, 0x1000), (0x80029000, 0x1000),
           (0x8002A000, 0x2000), (0x80030000, 0x1000), (0x80031000, 0x1000), (0x80030000, 0x4000), (0x80038000, 0x1000),
           (0x80039000, 0x1000), (0x8003A000, 0x1000), (0x8003F000, 0x1000)]
WINDOWS = [(0, 0), (0, 0), (0x8002C000, 0x1000), (0x8002C000, 0x4000), (0x8002D000, 0x1000), (0x80034000, 0x1000),
           (0x80026000, 0x2000), (0x8003B000, 0x1000), (0x8003E000, 0x1000)]
BORDERS = [START, HOST_ENTRY, PAST, *{at for base, size in REGIONS + WINDOWS for at in (base, base + size)}]
SIZES = [0, 1, 0x800, 0x1000, 0x1001, 0x2000, 0x3000, 0x4000, 0x8000, 0x10000, 0x40000, 0x80000000, ONES]
SECRETS = 4
CSRS = ["stvec", "sstatus", "sscratch", "sepc", "scause", "stval"]
SHOWN = [*CSRS, "mstatus", "mie", "mip", "mepc", "mcause", "mtval", "mtvec", "mcycle", "minstret", "pmpcfg0", "pmpcfg3",
         "pmpaddr1"]


class Play:
    """A script that is made while the model replies. `taken` counts the events, `words` has the arguments of the program."""

    def __init__(self, seed, count, harts=1):
        self.rng, self.options = random.Random(seed), ["--ram", str(MEMORY)] + ["--harts", str(harts)] * (harts > 1)
        self.words = ["run", "--monitor", *self.options]
        code = [assemble("csrrw", 0, NUMBER["stvec"], 31)[1]] + [self.rng.choice((0x73, 0x73, self.code())) for _ in range(200)]
        self.image = b"".join(word.to_bytes(4, "little") for word in code)
        self.bench, self.lines, self.replies, self.taken = Bench(self.image, ram=MEMORY, harts=harts), [], [], collections.Counter()
        for hart in reversed(range(harts)):
            self.on(hart)
            self.say("setreg 31 %x" % HANDLER, "step 1")
        self.play(count)
        for hart in range(harts):
            self.on(hart)
            self.say("regs", "enclaves", "pmp", *("csr %x" % NUMBER[name] for name in SHOWN))

    def play(self, count):
        """Adds actions until there are this many lines."""
        while len(self.lines) < count and not self.is_stuck():
            self.turn()

    @property
    def machine(self):
        return self.bench.machine

    @property
    def harts(self):
        return self.bench.harts

    def on(self, hart):
        """Selects the hart of the following lines."""
        if self.machine is not self.harts[hart]:
            self.say("hart %d" % hart)

    def say(self, *lines):
        """Adds lines, and counts their effects on the enclaves."""
        self.lines += lines
        for line in lines:
            states = {slot: it.state for slot, it in self.machine.table.items()}
            self.replies += self.given(line)
            now = {slot: it.state for slot, it in self.machine.table.items()}
            self.taken.update("%s to %s" % (states.get(slot, "free"), now.get(slot, "free"))
                              for slot in {*states, *now} if states.get(slot) != now.get(slot))
            self.taken["both in enclaves"] += len(self.harts) > 1 and all(hart.world is not None for hart in self.harts)

    def given(self, line):
        """Returns the replies of the model."""
        return self.bench.replies(line)

    def all_replies(self):
        return self.replies

    def is_stuck(self):
        """Returns whether every hart can only trap."""
        return all(map(self.is_nowhere, self.harts))

    @staticmethod
    def is_nowhere(hart):
        """Returns whether the host on the hart and its handler are outside code."""
        places = hart.pc, hart.reading(NUMBER["stvec"]) & ~3
        return hart.world is None and not any(hart.is_done(S, "x", place, 4) for place in places)

    # ---- random choices

    def address(self):
        rng = self.rng
        if rng.random() < 0.3 and self.machine.table:
            enclave = rng.choice([*self.machine.table.values()])
            base, size = enclave.region if rng.random() < 0.6 or not enclave.window[1] else enclave.window
            return base + rng.choice([0, 4, 64, size - 32, size - 31, size - 4, size - 2, size, size // 2])
        return rng.choice(BORDERS) + rng.choice([-64, -32, -31, -16, -4, -2, -1, 0, 0, 1, 2, 4, 8, 32, 64]) & ONES

    def word(self):
        rng = self.rng
        return rng.choice([self.address(), self.address(), rng.randrange(16), rng.choice(SIZES), rng.getrandbits(32)])

    def code(self):
        """Returns a word of code for any world."""
        rng, reg = self.rng, self.rng.randrange(32)
        kind = rng.choices(range(9), (2, 6, 6, 2, 3, 3, 2, 1, 1))[0]
        csr = NUMBER[rng.choice(CSRS if rng.random() < 0.2 else CSRS[1:])]  # stvec seldom
        at = rng.choice((5, 6, 7, 8, 9, 10, 10, 12, 12))  # a0 and a2 are the region and the window of an enclave at its start
        texts = [("ecall",), (rng.choice(("lb", "lh", "lw", "lbu", "lhu")), reg, rng.choice((0, -1, 1, 2, -4, 4)), at),
                 (rng.choice(("sb", "sh", "sw")), reg, rng.choice((0, -1, 1, 2, -4, 4)), at), ("sret",),
                 ("jal", rng.choice((0, 1)), 4 * rng.randrange(-8, 12)), ("addi", rng.randrange(32), at, rng.randrange(-8, 9)),
                 (rng.choice(("csrrw", "csrrs", "csrrc")), rng.choice((0, reg)), csr, at),
                 ("jalr", 1, rng.choice((0, 0, 4, 2)), at),
                 rng.choice(((".word", 0), (".word", ONES), ("mret",), ("ebreak",), ("wfi",), ("csrrw", 5, 0x3A0, 6)))]
        return assemble(*texts[kind])[1]

    # ---- lines

    def set(self, number, word):
        if self.machine.regs[number] != word:
            self.say("setreg %d %x" % (number, word))

    def put(self, address, word):
        for i, byte in enumerate(word.to_bytes(4, "little")):
            if self.machine.is_inside(address + i, 1) and self.machine.part(address + i, 1) != bytes([byte]):
                self.say("poke %x %x" % (address + i, byte))

    def drawn_slot(self, *states):
        """Returns a slot, mostly in one of these states."""
        fitting = [slot for slot, it in self.machine.table.items() if it.state in states]
        return self.rng.choice(fitting) if fitting and self.rng.random() < 0.85 else self.rng.choice([*range(15), ONES])

    def call(self):
        """Makes a call, and steps it."""
        self.ready()
        self.say("%s %d" % (self.rng.choice(("step", "run")), self.rng.choice((1, 1, 1, 1, 2, 3))))

    def ready(self):
        """Sets the registers of a call, and mostly an ecall at pc in S."""
        rng, host = self.rng, self.machine.world is None
        function = rng.choices(*((CREATE, DESTROY, RUN, RESUME, MEASURE, STOP, 0), (5, 2, 4, 4, 2, 1, 1)) if host
                               else ((MEASURE, STOP, EXIT, RUN, 8), (3, 4, 2, 1, 1)))[0]
        if function == CREATE:
            region, window = rng.choice(REGIONS), rng.choice(WINDOWS)
            entry = region[0] + rng.choice((0, 0, 0, 4, 0x100, region[1] - 4))
            arguments = [*region, *window, entry]
            if rng.random() < 0.2:
                arguments[rng.randrange(5)] = self.word()
        else:
            states = {DESTROY: ("Fresh", "Stopped", "Exited"), RUN: ("Fresh",), RESUME: ("Stopped",)}
            arguments = [self.drawn_slot(*states.get(function, ("Fresh", "Stopped", "Exited", "Running"))), self.address()]
            if rng.random() < 0.2:
                arguments[0] = next((hart.world for hart in self.harts if hart.world is not None), arguments[0])
            self.taken["called where it runs elsewhere"] += host and any(arguments[0] == hart.world for hart in self.harts)
        for number, word in ((17, KEY if rng.random() < 0.97 else self.word()), (16, function), *enumerate(arguments, 10)):
            self.set(number, word)
        if rng.random() < 0.95:
            self.put(self.machine.pc, 0x73)
        if function == CREATE and self.machine.is_inside(arguments[4], 64) and rng.random() < 0.7:
            # its traps return to its entry
            handled = [assemble("auipc", 13, 0)[1], assemble("csrrw", 0, NUMBER["stvec"], 13)[1]]
            for i, word in enumerate([*handled, *(self.code() for _ in range(rng.randrange(4)))]):
                self.put(arguments[4] + 4 * i, word)

    def sched(self):
        """Makes steps of either hart."""
        digits = "".join(self.rng.choices("01", k=self.rng.choice((1, 2, 2, 2, 3, 4, 4, 5, 8, 20, 64))))
        self.say("sched " + (digits if len(self.harts) > 1 else digits.replace("1", "0")))

    def race(self):
        """Makes a call of each hart, in one sched."""
        for hart in self.rng.sample(range(len(self.harts)), len(self.harts)):
            self.on(hart)
            self.ready()
        self.sched()

    def steps(self):
        if len(self.harts) > 1 and self.rng.random() < 0.4:
            return self.sched()
        return self.say("%s %d" % (self.rng.choice(("step", "run")), self.rng.choice((1, 1, 1, 2, 2, 3, 5, 20))))

    def recode(self):
        """Writes new code where the world continues, or would after a trap, or anywhere."""
        places = [*[self.machine.pc] * 4, self.machine.reading(NUMBER["stvec"]) & ~3, self.machine.reading(NUMBER["sepc"]),
                  HANDLER, self.address() & ~3]
        place = self.rng.choice(places)
        for i in range(self.rng.randrange(1, 5)):
            self.put(place + 4 * i & ONES, self.code())
        self.steps()

    def change(self):
        for _ in range(self.rng.randrange(1, 4)):
            self.set(self.rng.choice([1, *range(5, 12), *range(5, 10), self.rng.randrange(1, 32)]), self.word())

    def lines_of_the_timer(self):
        self.say("timer " + self.rng.choice(("on", "on", "off")))
        self.steps()

    def stops(self):
        self.say("%s %x" % (self.rng.choice(("break", "watch", "clear", "unwatch")),
                            self.rng.choice((self.machine.pc, self.address(), self.machine.regs[self.rng.randrange(5, 10)]))))

    def show(self):
        rng = self.rng
        self.say(*rng.choice((
            ["regs"], ["enclaves"], ["pmp"], ["csr %x" % NUMBER[rng.choice(SHOWN)] for _ in range(3)],
            ["mem %x %d" % (self.address(), rng.choice((1, 4, 32, 64)))], ["dis %x" % self.address()],
            ["access %s %s %x %s" % (rng.choice("SU"), rng.choice("rwx"), self.address(), rng.choice("124")) for _ in range(4)])))

    def rescue(self):
        """Brings a world that is outside code, or in U, back by the timer or by new code if possible."""
        machine = self.machine
        if machine.world is not None:
            self.say("timer on", "step 1")
        elif machine.is_done(machine.mode, "x", machine.pc, 4):
            self.put(machine.pc, 0x73 if machine.mode < S else assemble("addi", 5, 5, 1)[1])
            self.say("step 1")
            self.taken["rescued"] += 1

    def choose(self):
        """Returns the hart of the next action, whose world is in code."""
        if len(self.harts) > 1 and (self.rng.random() < 0.25 or self.is_nowhere(self.machine)):
            self.on(self.rng.choice([i for i, hart in enumerate(self.harts) if not self.is_nowhere(hart)]))

    def turn(self):
        """Makes one of the actions, and often shows the state after a switch or a call."""
        self.choose()
        machine = self.machine
        world, mode, can_go_on = machine.world, machine.mode, machine.is_done(machine.mode, "x", machine.pc, 4)
        if not can_go_on and self.rng.random() < 0.5 or mode < S and self.rng.random() < 0.1:
            self.rescue()
        else:
            turns = (self.call, self.steps, self.recode, self.change, self.lines_of_the_timer, self.stops, self.show, self.race)
            self.rng.choices(turns, (12, 3, 6, 3, 1, 1, 3, 6 if len(self.harts) > 1 else 0))[0]()
        if machine.world != world and self.rng.random() < 0.8:
            self.say("regs", *("csr %x" % NUMBER[name] for name in self.rng.sample(SHOWN, 6)))
        elif self.rng.random() < 0.3:
            self.say("reg 10", "reg 11", "csr %x" % NUMBER[self.rng.choice(SHOWN)])


class TwinPlay(Play):
    """One bench replies to a quarter of the script, two benches to the rest."""
    twins, slot, is_over = None, None, False

    def play(self, count):
        super().play(count // 4)
        for _ in range(100):
            fitting = [slot for slot, it in self.machine.table.items() if it.state != "Running"]
            if fitting or self.is_stuck():
                break
            self.turn()
        self.slot = self.rng.choice(fitting) if fitting and self.rng.random() < 0.95 else self.rng.randrange(13)
        self.words = ["twin", "--slot", str(self.slot), *self.options]
        self.lines.append("--")
        self.twins = Twins(self.bench, self.slot)
        self.is_over = not self.twins.is_apart
        self.replies += ["twin no slot"] if self.is_over else []
        self.taken["twin no slot" if self.is_over else "twin"] += 1
        super().play(count)

    def is_stuck(self):
        return self.is_over or super().is_stuck()

    def given(self, line):
        if not self.twins or self.is_over:
            return [] if self.is_over else super().given(line)
        words, live = parsed(line), self.slot in self.machine.table
        replies, self.is_over = self.twins.replies(line)
        one, other = ([it[3:] for it in replies if it.startswith(mark)] for mark in ("a: ", "b: "))
        assert one == other, "the replies of the model to %s differ: %s" % (line, replies)
        if live:
            event = "entered" if self.is_over else replies[0] if replies[0].startswith("error blind") else words[0]
            self.taken["twin " + event] += 1
        return replies

    def drawn_slot(self, *states):
        """Returns a slot, seldom the one in which the benches differ if it would be entered."""
        drawn = [super(TwinPlay, self).drawn_slot(*states) for _ in range(4)]
        return next((it for it in drawn if it != self.slot or len(states) != 1), drawn[0])

    def all_replies(self):
        return self.replies + ([] if self.is_over else ["twin end %d" % self.twins.count])


class OtherHartPlay(Play):
    """After a quarter of the script an enclave runs on one hart; the rest accesses no byte of its region, and neither steps nor shows that
    hart."""
    own, region, secret_at = None, None, None

    def __init__(self, seed, count, harts=2):
        super().__init__(seed, count, 2)

    def play(self, count):
        super().play(count // 4)
        for _ in range(200):
            fitting = [i for i, hart in enumerate(self.harts) if hart.world is not None and not self.is_nowhere(self.harts[1 - i])]
            if fitting or self.is_stuck():
                break
            self.turn()
        self.taken["other hart" if fitting else "no other hart"] += 1
        if fitting:
            own = self.rng.choice(fitting)
            self.on(own)
            self.region, self.secret_at = self.machine.table[self.machine.world].region, len(self.lines)
            self.on(1 - own)
            self.own = own
            super().play(count)

    def say(self, *lines):
        passing = lines if self.own is None else [*filter(self.passes_by, lines)]
        super().say(*passing)
        if self.own is not None:
            self.taken.update("other hart " + line.split()[0] for line in passing)

    def passes_by(self, line):
        word, *arguments = line.split()
        if word in ("mem", "dis", "poke"):
            at, (base, size) = int(arguments[0], 16), self.region
            count = int(arguments[1]) if word == "mem" else 4 if word == "dis" else 1
            return at + count <= base or base + size <= at
        return word != "sched" and line != "hart %d" % self.own

    def with_secret(self, number):
        """Returns the script with a secret: the number of lines is the same for each secret."""
        rng, (base, size) = random.Random(number), self.region
        secret = ["poke %x %x" % (base + rng.randrange(size), rng.randrange(256)) for _ in range(24)]
        secret += ["setreg %d %x" % (reg, rng.getrandbits(32)) for reg in range(1, 32)]
        return self.lines[:self.secret_at] + secret + self.lines[self.secret_at:]


# ---- the program against the model

def answered(program, play, lines):
    """Returns the output of the program."""
    ran = subprocess.run([program, *play.words], input=input_of(play.image.hex(), lines).encode(), stdout=subprocess.PIPE, timeout=HANG)
    return ran.stdout.decode("latin-1")


def right(play, lines):
    """Returns the expected output."""
    return wanted(input_of(play.image.hex(), lines), play.words)[0]


def differs(program, play, lines):
    return answered(program, play, lines) != right(play, lines)


def made_small(program, play, lines):
    """Minimizes the lines of a difference: removes halves first, then smaller and smaller parts."""
    size = len(lines)
    while size:
        at = 0
        while at < len(lines):
            rest = lines[:at] + lines[at + size:]
            if differs(program, play, rest):
                lines = rest
            else:
                at += size
        size //= 2
    return lines


def cut_short(program, play):
    """Returns the shortest prefix of the lines with a different reply."""
    low, high = 0, len(play.lines)
    while low < high:
        middle = (low + high) // 2
        low, high = (low, middle) if differs(program, play, play.lines[:middle]) else (middle + 1, high)
    return play.lines[:high]


def report(program, play, seed):
    """Returns the difference with a minimized script."""
    lines = made_small(program, play, cut_short(program, play))
    print("seed %d: the program differs from the model; rvbench %s\n%s" % (
        seed, " ".join(play.words), input_of(play.image.hex(), lines)))
    print("it writes\n%s\nand must write\n%s" % (answered(program, play, lines), right(play, lines)))


def main(words):
    parser = argparse.ArgumentParser()
    parser.add_argument("program", nargs="?")
    for option in ("--twin", "--other-hart", "--alone"):
        parser.add_argument(option, action="store_true")
    for option, default in (("--seed", 1), ("--count", 4), ("--lines", 1500), ("--harts", 1)):
        parser.add_argument(option, type=int, default=default)
    arguments = parser.parse_args(words)
    taken, failed, program = collections.Counter(), 0, None if arguments.alone else os.path.realpath(arguments.program)
    for seed in range(arguments.seed, arguments.seed + arguments.count):
        play = (TwinPlay if arguments.twin else OtherHartPlay if arguments.other_hart else Play)(seed, arguments.lines, arguments.harts)
        taken.update(play.taken)
        answer = right if arguments.alone else functools.partial(answered, program)
        given = answer(play, play.lines)
        if given != "".join(reply + "\n" for reply in play.all_replies()):
            failed += 1
            print("seed %d: the model differs from itself" % seed) if arguments.alone else report(program, play, seed)
        elif arguments.other_hart and play.secret_at and len({answer(play, play.with_secret(number)) for number in range(SECRETS)}) > 1:
            failed += 1
            print("seed %d: a secret of the enclave on hart %d changes the output" % (seed, play.own))
    print("; ".join("%s %d" % it for it in sorted(taken.items())))
    print("%d passed, %d failed" % (arguments.count - failed, failed))
    return 1 if failed else 0


if __name__ == "__main__":
    sys.exit(main(sys.argv[1:]))
