"""The stops of a debugger: breakpoints with conditions, watchpoints by kind of access, and catchpoints. rvbench reports its breakpoints and
watchpoints; this module decides whether they are halts."""
from __future__ import annotations

from dataclasses import dataclass
from typing import Any, Callable, Mapping, NamedTuple

from rvlook.gdb.conditions import holds
from rvlook.protocol import names
from rvlook.protocol.instructions import instruction_of
from rvlook.protocol.replies import Ran, RanTrap, value_of
from rvlook.protocol.timeline import Timeline

STEPPED, INTERRUPTED, STOPPED = 5, 2, 0  # signals, as the protocol numbers them
SIGNALS = {"00000000": 10, "00000001": 11, "00000002": 4, "00000003": 5, "00000005": 11, "00000007": 11}  # the signal of each trap, by its cause
PC, NO_TRAP = 32, b"trap=-"  # the number of pc among the registers, and the end of a reply without a trap


@dataclass(frozen=True)
class Watch:
    """A watchpoint of the debugger."""
    name: str  # the name of its kind in the protocol: watch, rwatch or awatch
    kinds: str  # the kinds of accesses: r, w or both
    first: int  # address of the first byte
    count: int  # bytes

    @property
    def bytes(self) -> range:
        """Returns the addresses of the watched bytes."""
        return range(self.first, self.first + self.count)

    def meets(self, first: int, width: int) -> bool:
        """Returns whether an access to `width` bytes from address `first` on includes a watched byte."""
        return self.first < first + width and first < self.first + self.count


class Halt(NamedTuple):
    """A halt on a hart."""
    hart: int  # the number of the hart
    reason: str = ""  # the reason in words of the protocol; empty for a step, a breakpoint and a signal
    signal: int = STEPPED  # the number of the signal
    message: str = ""  # a line for the user; may be empty


def signal_of(trap: RanTrap | None) -> int:
    """Returns the signal number for a trap. An interrupt or a call only stops."""
    return SIGNALS.get(trap.cause, STOPPED) if trap else STOPPED


class Stops:
    """The breakpoints, watchpoints and catchpoints."""

    def __init__(self) -> None:
        self.breaks: dict[int, dict[str, list[bytes]]] = {}  # by address and kind of breakpoint: its conditions, as agent expressions
        self.without_room: set[int] = set()  # addresses of breakpoints for which the bench has no room
        self.watches: list[Watch] = []  # the watches in the order in which they were set
        self.caught: set[str] = set()  # events of `catch`
        self.questions: dict[str, None] = {}  # the commands whose replies decided conditions

    @property
    def is_single(self) -> bool:
        """Returns whether each step must be checked, and not only by the bench."""
        return bool(self.without_room or self.caught)

    @property
    def has_conditions(self) -> bool:
        """Returns whether a breakpoint has conditions."""
        return any(code for codes in self.breaks.values() for code in codes.values())

    def key(self, timeline: Timeline) -> tuple[Any, ...]:
        """Returns all that decides where the harts halt, as a value that can be compared."""
        return (frozenset(timeline.stops), frozenset(self.without_room), tuple(self.watches), frozenset(self.caught),
                repr(sorted((at, sorted(codes.items())) for at, codes in self.breaks.items())))

    # what is set

    def set_break(self, timeline: Timeline, kind: str, at: int, conditions: list[bytes]) -> None:
        """Sets a breakpoint of a kind, with its conditions."""
        self.breaks.setdefault(at, {})[kind] = conditions
        if timeline.do("break %x" % at)[0] != "ok":
            self.without_room.add(at)
        if conditions:
            self.holds(timeline, timeline.hart, at)  # records the queries that decide the condition, which `judged` then sends after each run

    def clear_break(self, timeline: Timeline, kind: str, at: int) -> None:
        """Removes a breakpoint of a kind."""
        self.breaks.get(at, {}).pop(kind, None)
        if not self.breaks.get(at):
            self.breaks.pop(at, None)
            self.without_room.discard(at)
            timeline.do("clear %x" % at)

    def set_watch(self, timeline: Timeline, watch: Watch) -> bool:
        """Sets a watchpoint on each of its bytes; returns False, and sets nothing, if the bench has no room for all of them."""
        self.watches.append(watch)
        if any("ok" not in replies for replies in timeline.do_all(["watch %x" % at for at in watch.bytes])):
            self.clear_watch(timeline, watch)
            return False
        return True

    def clear_watch(self, timeline: Timeline, watch: Watch) -> None:
        """Removes a watchpoint, if it is set."""
        if watch not in self.watches:
            return
        self.watches = [remaining_watch for remaining_watch in self.watches if remaining_watch != watch]
        still_watched = {at for remaining_watch in self.watches for at in remaining_watch.bytes}
        timeline.do_all(["unwatch %x" % at for at in watch.bytes if at not in still_watched])

    # what is met

    def is_break(self, timeline: Timeline, pc: str) -> bool:
        """Returns whether there is a breakpoint at pc."""
        return timeline.is_break(pc) or int(pc, 16) in self.without_room

    def is_quiet(self, timeline: Timeline) -> Callable[[bytes, int], bool]:
        """Returns a function that checks the replies to runs, as bytes: whether there is certainly no halt after any of them."""
        patterns = [b"pc=%s " % stop.split()[1].rjust(8, "0").encode() for stop in timeline.stops if stop.startswith("break")]
        patterns += [b"pc=%08x " % at for at in self.without_room]

        def is_quiet(block: bytes, runs: int) -> bool:
            return block.count(b"why=done") == runs and not (self.caught and block.count(NO_TRAP) < runs) \
                and not any(pattern in block for pattern in patterns)

        return is_quiet

    def may_meet(self, timeline: Timeline, ran: Ran, before: str) -> bool:
        """Returns whether there may be a halt after a run, by its reply alone. `before` is the world before it."""
        return ran.why != "done" or self.is_break(timeline, ran.pc) or bool(self.caught and self.catch(0, ran, before))

    def needs_query(self, ran: Ran) -> bool:
        """Returns whether registers or memory decide if there is a halt."""
        return ran.why.startswith("watch") or any(code for codes in self.breaks.get(int(ran.pc, 16), {}).values() for code in codes)

    def halt_after(self, timeline: Timeline, hart: int, ran: Ran, before: str) -> Halt | None:
        """Returns the halt at the present step, after a run of a hart whose reply is `ran`, or None. `before` is the world before the run."""
        if ran.why.startswith("watch"):
            reason = self.watched(timeline, hart, ran)
            if reason is not None:
                return Halt(hart, reason)
        if self.is_break(timeline, ran.pc) and self.holds(timeline, hart, int(ran.pc, 16)):
            return Halt(hart)
        return self.catch(hart, ran, before)

    def holds(self, timeline: Timeline, hart: int, pc: int) -> bool:
        """Returns whether a breakpoint at pc has no condition, or one that holds."""
        timeline.choose(hart)

        def reply_to(line: str) -> str:
            self.questions[line] = None
            return timeline.ask(line)[0][0]

        return self.condition_holds(pc, reply_to)

    def condition_holds(self, pc: int, reply_to: Callable[[str], str]) -> bool:
        """Returns whether a breakpoint at pc has no condition, or one that holds. `reply_to` returns the reply to a command of the bench."""
        kinds = self.breaks.get(pc, {"": []}).values()
        if not all(kinds):
            return True

        def register(number: int) -> int:
            return pc if number == PC else value_of(reply_to("reg %d" % number))

        def memory(at: int, count: int) -> bytes:
            reply = reply_to("mem %x %d" % (at, count))
            return b"" if reply.startswith("error ") else bytes.fromhex(reply.split(":")[1])

        return any(holds(code, register, memory) for conditions in kinds for code in conditions)

    def verdict(self, timeline: Timeline, ran: Ran, replies: Mapping[str, str]) -> bool | None:
        """Returns whether there is a halt after a run of one hart, by the replies to `questions`; None if they do not decide."""
        if ran.why.startswith("watch"):
            return None
        try:
            return self.is_break(timeline, ran.pc) and self.condition_holds(int(ran.pc, 16), replies.__getitem__)
        except KeyError:
            return None

    def watched(self, timeline: Timeline, hart: int, ran: Ran) -> str | None:
        """Returns the stop reason after an access, or None if no watchpoint is for its kind. A watch that a command of the bench has set is for
        any access."""
        lowest = int(ran.why[len("watch:"):], 16)
        if not any(lowest in watch.bytes for watch in self.watches):
            return ""
        kind, first, width = access_before(timeline, hart, ran)
        met = [watch for watch in self.watches if kind in watch.kinds and watch.meets(first, width)]
        return "%s:%x;" % (met[0].name, max(first, met[0].first)) if met else None

    def catch(self, hart: int, ran: Ran, before: str) -> Halt | None:
        """Returns the halt of a catchpoint after a single step, or None."""
        if "switch" in self.caught and ran.world != before:
            return Halt(hart, signal=STOPPED, message="[hart %d: switch from %s to %s by %s]" % (
                hart, before, ran.world, "the timer" if ran.trap and ran.trap.cause == names.TIMER else "a monitor call"))
        if "call" in self.caught and ran.trap and ran.trap.cause == names.ECALL_FROM_S and before != "bare":
            return Halt(hart, signal=STOPPED, message="[hart %d: monitor call by %s]" % (hart, before))
        if "trap" in self.caught and ran.trap:
            return Halt(hart, signal=signal_of(ran.trap), message="[hart %d: %s, %s]" % (hart, names.cause_name(ran.trap.cause), ran.trap.value))
        return None


def access_before(timeline: Timeline, hart: int, ran: Ran) -> tuple[str, int, int]:
    """Returns kind, address and width of the access by the last step. Its instruction is the one before pc, since loads and stores do not jump. Reads
    the registers before the step if a load overwrote its base."""
    timeline.choose(hart)
    (line,), registers = timeline.ask("dis %x" % ((int(ran.pc, 16) - 4) & 0xFFFFFFFF), "regs")
    instruction = instruction_of(line.encode())
    memory = instruction and instruction.memory
    if not memory:  # the store has overwritten its own instruction
        return "w", int(ran.why[len("watch:"):], 16), 1
    if memory.kind == "r" and memory.register == memory.base:
        with timeline.again(timeline.position - 1) as earlier:
            earlier.choose(hart)
            registers = earlier.ask("regs")[0]
    first = (value_of(registers[memory.base]) + memory.offset) & 0xFFFFFFFF
    return memory.kind, first, memory.width
