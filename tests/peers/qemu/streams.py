"""Random streams of instructions. Each instruction is chosen by the state before its step. A stream therefore reaches every mode, and both sides of
the boundaries of PMP entries and of RAM.
"""
from __future__ import annotations

import random
from collections import deque
from typing import Callable, Deque, Dict, List, Optional

from models.instruction_words import named

from .actions import Action, instruction
from .registers import COUNTERS, M, NAMES, NUMBERS, ONES, RAM, RAM_END, S, State

CODE, CODE_END = RAM, RAM + 0x3000
DATA, DATA_END = RAM + 0x8000, RAM + 0xA000
CORNERS = (0, 1, 2, 3, 4, 7, 31, 32, 0x7F, 0x80, 0xFF, 0x7FF, 0x800, 0xFFF, 0x7FFF, 0x8000, 0xFFFF, 0x7FFFFFFE, 0x7FFFFFFF, 0x80000000,
           0x80000001, 0xAAAAAAAA, 0x55555555, 0xFFFFF800, 0xFFFFFFFE, ONES)
EXISTING = (*NUMBERS.values(), 0xB03, 0xB1F, 0xB83, 0xB9F)
# Numbers of registers that do not exist here, that only other modes or extensions have, or that no manual names.
ABSENT = (0x000, 0x001, 0x003, 0x101, 0x102, 0x14B, 0x200, 0x240, 0x280, 0x312, 0x345, 0x34A, 0x3A4, 0x3C0, 0x600, 0x680, 0x800, 0xB01,
          0xC00, 0xC01, 0xC02, 0xC80, 0xC82, 0xDA0, 0xE12, 0xF10, 0xF16, 0xFFF)
FAVOURITES = ("mstatus", "sstatus", "mie", "mip", "mtvec", "mepc", "sepc", "stvec", "mcause", "pmpcfg0", "pmpaddr0", "pmpcfg3", "mcycle", "minstret",
              "mcountinhibit", "satp")
KINDS = {"whole": 30, "memory": 30, "jump": 10, "csr": 30, "back": 8, "system": 6, "word": 3}
SYSTEM = ("ecall", "ebreak", "wfi", "mret", "sret", "fence iorw, iorw", "fence r, w", "fence.tso", "sfence.vma")
MPRV, MPP = 1 << 17, 3 << 11


class Stream:
    """A stream of actions. A seed determines it, given the states of the bench. It accesses the counters if they count instructions on both
    sides (`counts`), and otherwise changes the timer line."""

    def __init__(self, seed: str, counts: bool = True):
        self.random, self.counts = random.Random(seed), counts
        self.queue: Deque[Action] = deque()
        self.edges = [DATA + 0x1000, RAM, RAM_END, *(DATA + 4 * self.random.randrange(0x800) for _ in range(5))]
        self._begin()
        kinds = dict(KINDS)
        favourite = self.random.choice([*KINDS, "memory", "csr"])
        kinds[favourite] += 60
        self.kinds, self.weights = list(kinds), list(kinds.values())

    def _begin(self) -> None:
        """Queues a trap vector, mostly PMP entries around the data, and mostly a return to a lower mode."""
        self._write("mtvec", self._code() | self.random.choice((0, 1)))
        for entry in range(15):
            self._write("pmpaddr%d" % entry, self._pmp_address() or 4)
        self._write("pmpaddr15", ONES if self.random.random() < 0.7 else self._pmp_address() or 4)
        if self.random.random() < 0.8:
            for register in range(4):
                self._write("pmpcfg%d" % register, self._cfg_word(0.02))
        if self.random.random() < 0.7:
            self._write("pmpcfg3", 0x1F000000 | self._cfg_word(0.02) & 0xFFFFFF)
        if self.random.random() < 0.7:
            self._back()

    def next(self, state: State) -> Action:
        """Returns the next action for a state."""
        timer = self.random.random() < 0.5 if not self.counts and self.random.random() < 0.04 else None
        if not self.queue:
            kind = self.random.choices(self.kinds, self.weights)[0]
            chosen: Dict[str, Callable[[State], None]] = {
                "whole": self._whole, "memory": self._memory, "jump": self._jump, "csr": self._csr, "back": self._back, "system": self._system,
                "word": self._word}
            chosen[kind](state)
        action = self.queue.popleft()
        return Action(action.word, action.registers, timer, action.text)

    # ---- values

    def _register(self) -> int:
        return self.random.choice((0, *range(32), *range(1, 8)))

    def _value(self) -> int:
        return self.random.choice(CORNERS) if self.random.random() < 0.6 else self.random.getrandbits(32)

    def _code(self) -> int:
        return self.random.randrange(CODE, CODE_END, 4)

    def _data(self) -> int:
        """Returns an address: mostly around a boundary, seldom far outside RAM."""
        roll = self.random.random()
        if roll < 0.55:
            return self.random.choice(self.edges) + self.random.randrange(-6, 7) & ONES
        if roll < 0.95:
            return self.random.randrange(DATA, DATA_END)
        return self.random.choice((0x90000000, 0x7FFFFFFE, 0xFFFFFFFC, 0xFFFFFFFE, 0xFFFFFFFF, 0xC0000001, RAM_END - 2, RAM - 2))

    def _pmp_address(self) -> int:
        """Returns a value of pmpaddr: a boundary, or a naturally aligned range that begins or ends there."""
        word = self.random.choice(self.edges) >> 2
        roll = self.random.random()
        if roll < 0.45:
            return word
        if roll < 0.9:
            ones = self.random.randrange(12)
            return word & ~((2 << ones) - 1) | (1 << ones) - 1
        return self._value() >> 2 | 1

    def _cfg_word(self, locked: float) -> int:
        """Returns four cfg bytes, each locked with this probability."""
        word = 0
        for shift in range(0, 32, 8):
            byte = self.random.choice((0, 0x08, 0x10, 0x18, 0x18)) | self.random.choice((0, 1, 3, 4, 5, 7, 7, 7))
            word |= (byte | (0x80 if self.random.random() < locked else 0)) << shift
        return word

    # ---- instructions

    def _add(self, name: str, *operands: int, **registers: int) -> None:
        self.queue.append(instruction(name, *operands, registers={int(key[1:]): value for key, value in registers.items()}))

    def _write(self, name: str, value: int) -> None:
        """Queues the write of a control and status register."""
        self._add("csrrw", 0, NUMBERS[name], 31, x31=value)

    def _whole(self, _: State) -> None:
        """Queues an instruction over integers."""
        kind = self.random.choice(("immediate", "shift", "register", "register", "lui", "auipc"))
        name = self.random.choice(named(kind))
        rd, rs1, rs2 = self._register(), self._register(), self._register()
        given = {number: self._value() for number in (rs1, rs2) if number and self.random.random() < 0.7}
        operands = {"immediate": (rd, rs1, self.random.choice((-2048, -1, 0, 1, 2047, self.random.randrange(-2048, 2048)))),
                    "shift": (rd, rs1, self.random.randrange(32)), "register": (rd, rs1, rs2)}
        chosen = operands.get(kind, (rd, self.random.getrandbits(20)))
        self.queue.append(instruction(name, *chosen, registers=given))

    def _memory(self, _: State) -> None:
        """Queues a load or a store."""
        name = self.random.choice((*named("load"), *named("store"), *named("store")))
        base, offset = self.random.randrange(1, 32), self.random.choice((0, 0, 4, -4, 2047, -2048, self.random.randrange(-2048, 2048)))
        data = self._register()
        given = {number: self._value() for number in (data,) if number}
        given[base] = self._data() - offset & ONES
        self.queue.append(instruction(name, data, offset, base, registers=given))

    def _jump(self, state: State) -> None:
        """Queues a jump or a branch: mostly within the code, sometimes to a misaligned or missing target."""
        kind, pc = self.random.choice(("jal", "jalr", "branch", "branch")), state["pc"]
        target = self._code() + (2 if self.random.random() < 0.08 else 0)
        distance = max(-4096, min(4094, target - pc)) if CODE <= pc < CODE_END else 8
        rd, rs1, rs2 = self._register(), self._register(), self._register()
        if kind == "jal":
            self._add("jal", rd, distance)
        elif kind == "branch":
            values = self.random.choice(((0, 0), (1, 2), (ONES, 1), (1, ONES), (self._value(), self._value())))
            given = {number: value for number, value in zip((rs1, rs2), values) if number}
            self.queue.append(instruction(self.random.choice(named("branch")), rs1, rs2, distance, registers=given))
        else:
            base, offset = self.random.randrange(1, 32), self.random.randrange(-2048, 2048)
            far = self.random.random() < 0.05
            address = (self._data() if far else target | self.random.choice((0, 0, 1))) - offset & ONES
            self.queue.append(instruction("jalr", rd, offset, base, registers={base: address}))

    def _csr(self, state: State) -> None:
        """Queues an access to a control and status register."""
        absent = self.random.random() < 0.08
        number = self.random.choice(ABSENT if absent else EXISTING)
        if self.random.random() < 0.5:
            number = NUMBERS[self.random.choice(FAVOURITES)]
        if not self.counts and NAMES.get(number) in COUNTERS:
            number = NUMBERS["mscratch"]
        name = self.random.choice(("csrrw", "csrrs", "csrrc", "csrrw", "csrrwi", "csrrsi", "csrrci"))
        source = self._register()
        if NAMES.get(number, "").startswith("pmpaddr"):  # a TOR entry up to 0 ends the stream
            name, source = self.random.choice(("csrrw", "csrrs")), source or 1
        given = {source: self._csr_value(NAMES.get(number, ""))} if source and name[-1] != "i" else {}
        if number & ~0x80 in (0xC00, 0xC01, 0xC02) and state["mode"] == M:  # Zicntr ends the stream
            number = 0xC03
        if not self.random.randrange(8) and state["mode"] != M:
            number = number & ~0x300 | self.random.choice((0, 0x100))
        self.queue.append(instruction(name, self._register(), number, source, registers=given))

    def _csr_value(self, name: str) -> int:
        if name.startswith("pmpaddr"):
            return self._pmp_address()
        if name.startswith("pmpcfg"):
            return self._cfg_word(0.01) if self.random.random() < 0.8 else self._value()
        if name in ("mtvec", "mepc", "sepc", "stvec") and self.random.random() < 0.95:
            return self._code() | self.random.choice((0, 1, 2, 3))
        return self._value() if self.random.random() < 0.5 else 1 << self.random.randrange(32)

    def _back(self, _: Optional[State] = None) -> None:
        """Queues a return: its address, its mode, and the bits of mstatus."""
        name = self.random.choice(("mret", "mret", "sret"))
        self._write("mepc" if name == "mret" else "sepc", self._code())
        self._write("mstatus", self._value() & ~MPP | self.random.choice((0, 0, S, S, M)) << 11)
        if self.random.random() < 0.7:
            self.queue.append(instruction("csrrc", 0, NUMBERS["mstatus"], 31, registers={31: MPRV}))
        self._add(name)

    def _system(self, _: State) -> None:
        """Queues an instruction that traps, returns or fences."""
        name = self.random.choice(SYSTEM)
        self._add(name, *((self._register(), self._register()) if name == "sfence.vma" else ()))

    def _word(self, _: State) -> None:
        """Queues a random word, or an instruction with a bit changed."""
        if self.random.random() < 0.5:
            self._add(".word", self.random.getrandbits(32))
            return
        kind = self.random.choice((self._whole, self._memory, self._csr, self._system))
        kind({"pc": CODE, "mode": M})
        action = self.queue.pop()
        self.queue.append(Action((action.word or 0) ^ 1 << self.random.randrange(32), action.registers, None, "%s with a changed bit" % action.text))


def blocks(seed: str, length: int) -> List[Action]:
    """Returns a straight program for runs of several steps: instructions over integers and memory, without traps."""
    stream = Stream(seed)
    stream.queue.clear()
    while len(stream.queue) < length:
        stream._whole({})
    return list(stream.queue)
