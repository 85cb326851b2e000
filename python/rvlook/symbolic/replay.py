"""Replays a path on rvbench: the host is driven by the debugger, so that it resumes whenever the path does."""
from __future__ import annotations

import time
from dataclasses import dataclass, field
from math import inf
from typing import Any, Dict, List, Mapping, Protocol, Sequence, Set, TYPE_CHECKING, Tuple

from rvlook.protocol.replies import register_values, step_of
from rvlook.symbolic.calls import MONITOR_KEY, STOP
from rvlook.symbolic.decode import decode
from rvlook.symbolic.evaluation import evaluate
from rvlook.symbolic.nodes import M32

if TYPE_CHECKING:
    from rvlook.protocol.bench import Bench
    from rvlook.symbolic.fields import Answer, Load, Store
    from rvlook.symbolic.world import World

RESUME = 4  # the function of the monitor that resumes an enclave
ECALL = 0x73  # the instruction word of an ecall: the first byte, followed by three bytes 0
A0 = 10  # numbers of registers
A1 = 11
A6 = 16
A7 = 17
STEPS_AT_ONCE = 20000  # steps of a path between two checks of the time
FURTHER_STEPS = 20000  # steps of an endless loop that are executed after its finding
FURTHER_STEPS_AT_ONCE = 2000  # steps of an endless loop between two checks of the time
WATCHED_STEPS = 40000  # the most steps after FURTHER_STEPS; they are executed one by one until the registers repeat


class Path(Protocol):
    """The loads, the stores and the answers of a path: a History or a Counterexample."""
    loads: List[Load]
    stores: List[Store]
    answers: List[Answer]


@dataclass
class Replayed:
    """The results of a replay of a path on rvbench."""
    pcs: List[int] = field(default_factory=list)  # the pcs of the steps that were executed
    regs: List[int] = field(default_factory=list)  # x0 to x31 before the last step of a finding; empty if the path is replayed as a whole
    after: int = 0  # the pc after the last step
    world: str = ""  # the world after the last step
    trap: str = "-"  # the cause and the value of the trap in the last step
    wrong: str = ""  # the first difference from the prediction; empty if there is none
    expected: Dict[int, int] = field(default_factory=dict)  # the bytes of the window that the path has loaded or stored, by address
    log: List[str] = field(default_factory=list)  # the commands that change the state, and the steps
    is_late: bool = False  # whether the time was over before the end of the replay
    is_again: bool = False  # whether the registers at the last pc of the path had the same values again in further steps

    def note(self, line: str) -> None:
        """Notes the reply to a step."""
        ran = step_of(line)
        self.after = int(ran.pc, 16)
        self.world = ran.world
        self.trap = "%s:%s" % (ran.trap.cause, ran.trap.value) if ran.trap else "-"


class Plan:
    """The inputs that the host gives on a path, and the outputs that are expected of it, for one model."""

    def __init__(self, path: Path, model: Mapping[str, int], window: Tuple[int, int]) -> None:
        self.window = window  # the first address, and the end
        memo: Dict[Any, Any] = {}
        self.pokes: Dict[int, List[Tuple[int, int]]] = {}  # the bytes that the host gives before a step, by its number: addresses and values
        self.stored: Dict[int, List[Tuple[int, int]]] = {}  # the bytes that a step stores, by its number: addresses and values
        for step, at, names in path.loads:
            first = evaluate(at, model, memo)
            self.pokes.setdefault(step, []).extend((first + n, model[name]) for n, name in names)
        for store in path.stores:
            first = evaluate(store.at, model, memo)
            value = evaluate(store.value, model, memo)
            self.stored.setdefault(store.step, []).extend((first + n, value >> 8 * n & 255) for n in range(store.width))
        # The call and the answer of each step that leaves the enclave, by the number of the step.
        self.leaves = {answer.step: (answer.call, evaluate(answer.value, model, memo)) for answer in path.answers}


class Replayer:
    """Replays paths of an enclave on rvbench, and compares each with its prediction."""

    def __init__(self, world: World, deadline: float = inf) -> None:
        self.world = world
        self.deadline = deadline  # the end of the time, by time.perf_counter()

    def secrets(self, model: Mapping[str, int]) -> List[str]:
        """Returns the commands that set the bytes of the secret, and the bytes that the host must know, to their values in a model."""
        commands = ["poke %x %02x" % (at, model["k_%08x" % at]) for at in self.world.secret]
        return commands + ["poke %x %02x" % (at, model["c_%08x" % at]) for at in self.world.check]

    def go(self, pcs: Sequence[int], path: Path, model: Mapping[str, int], is_whole: bool, is_endless: bool = False) -> Replayed:
        """Replays the steps of a path with the inputs and the secrets of a model. `pcs` has the predicted pcs. For a path that has ended
        (`is_whole`), compares the window at the end. For a finding, executes the last step alone, and keeps the registers before it. For an endless
        loop, executes further steps after the path. Returns the results."""
        replayed = Replayed()
        plan = Plan(path, model, self.world.window)
        first = 0  # the number of the next step
        last = len(pcs) - 1  # the number of the last step
        with self.world.run.replay() as replay:
            bench = replay.bench
            replayed.after = self.world.pc
            self.begin(bench, replayed, replay.lines_to(self.world.own_activations[0].position), model)
            while first <= last and not replayed.wrong:
                replayed.is_late = time.perf_counter() > self.deadline
                if replayed.is_late:
                    return replayed
                end_of_batch = min(first + STEPS_AT_ONCE - 1, last)
                end = next((n for n in range(first, end_of_batch + 1) if n in plan.leaves), end_of_batch)  # a batch ends where the enclave leaves
                if end == last and not is_whole:
                    execute_steps(bench, plan, replayed, range(first, end))
                    execute_last_step(bench, plan, replayed, last)
                else:
                    execute_steps(bench, plan, replayed, range(first, end + 1))
                    if end in plan.leaves:
                        self.leave(bench, replayed, plan.leaves[end], is_last=end == last)
                first = end + 1
            if is_whole and not replayed.wrong:
                check_window(bench, replayed)
            if is_endless and not replayed.wrong:
                execute_further(bench, replayed, pcs[-1], self.deadline)
        if not replayed.wrong and replayed.pcs[:len(pcs)] != list(pcs[:len(replayed.pcs)]):
            n = next(n for n, (pc, predicted) in enumerate(zip(replayed.pcs, pcs)) if pc != predicted)
            replayed.wrong = "step %d is at %08x, predicted %08x" % (n, replayed.pcs[n], pcs[n])
        return replayed

    def begin(self, bench: Bench, replayed: Replayed, lines: List[str], model: Mapping[str, int]) -> None:
        """Executes the commands `lines`, which lead to the first entry of the enclave, and sets the secrets of a model."""
        replayed.log = lines
        if self.world.run.setup.harts > 1:
            replayed.log.append("hart %d" % self.world.hart)
        replayed.log += self.secrets(model)
        bench.ask(*replayed.log)

    def leave(self, bench: Bench, replayed: Replayed, prediction: Tuple[int, int], is_last: bool) -> None:
        """Compares the answer and the window after the enclave has left, and resumes the enclave unless this was the last step. `prediction` is the
        predicted call (STOP or EXIT) with its answer. The host gets 1 in a0 after a stop and 0 after an exit, and the answer in a1."""
        call, answer = prediction
        a0 = bench.register(A0)
        a1 = bench.register(A1)
        expected_a0 = 1 if call == STOP else 0
        if replayed.world != "host" or a0 != expected_a0 or a1 != answer:
            replayed.wrong = "answer %d %08x, predicted %08x" % (a0, a1, answer)
        check_window(bench, replayed)
        if replayed.wrong or is_last:
            return
        commands = ["poke %x %02x" % (replayed.after + n, ECALL if n == 0 else 0) for n in range(4)]  # an ecall as the next instruction of the host
        commands += ["setreg %d %x" % (A7, MONITOR_KEY), "setreg %d %x" % (A6, RESUME), "setreg %d %x" % (A0, self.world.slot)]
        bench.ask(*commands)
        replayed.log += commands + ["step 1"]
        replayed.note(bench.one("step 1"))


def replies_to_steps(bench: Bench, commands: Sequence[str]) -> List[str]:
    """Executes commands. Returns the replies to the commands that execute steps, without those to other commands."""
    if not commands:
        return []
    text = "".join(command + "\n" for command in commands)
    return [line.decode() for line in bench.block(text.encode(), len(commands)).split(b"\n") if line.startswith(b"ran ")]


def execute_steps(bench: Bench, plan: Plan, replayed: Replayed, numbers: Sequence[int]) -> None:
    """Executes the steps with some numbers, each after its inputs."""
    low, high = plan.window
    commands: List[str] = []
    for number in numbers:
        pokes = plan.pokes.get(number, ())
        commands += ["poke %x %02x" % poke for poke in pokes]
        commands.append("step 1")
        replayed.expected.update((at, value) for at, value in pokes if low <= at < high)
        replayed.expected.update(plan.stored.get(number, ()))
    replayed.log += commands
    lines = replies_to_steps(bench, commands)
    for n, line in enumerate(lines):
        replayed.pcs.append(replayed.after)
        replayed.note(line)
        if replayed.world == "host" and n < len(lines) - 1:
            replayed.wrong = "step %d leaves" % (len(replayed.pcs) - 1)
            return


def execute_last_step(bench: Bench, plan: Plan, replayed: Replayed, number: int) -> None:
    """Executes the last step of a path that is not whole, after its inputs. Keeps the registers before it."""
    pokes = ["poke %x %02x" % poke for poke in plan.pokes.get(number, ())]
    bench.ask(*pokes)
    replayed.log += pokes
    replayed.pcs.append(replayed.after)
    replayed.regs = register_values(bench.ask("regs")[0][:32])
    replayed.note(bench.one("step 1"))


def execute_further(bench: Bench, replayed: Replayed, pc: int, deadline: float) -> None:
    """Executes FURTHER_STEPS steps in which the host gives nothing, and then up to WATCHED_STEPS more, until the registers at a pc repeat."""
    world = replayed.world  # the enclave
    for _ in range(FURTHER_STEPS // FURTHER_STEPS_AT_ONCE):
        replayed.is_late = replayed.is_late or time.perf_counter() > deadline
        if replayed.is_late:
            return
        lines = replies_to_steps(bench, ["step 1"] * FURTHER_STEPS_AT_ONCE)
        for line in (lines[0], lines[-1]):
            replayed.note(line)
            if replayed.world != world:
                replayed.wrong = "the enclave leaves in further steps"
    if not replayed.wrong:
        watch(bench, replayed, pc, deadline)


def watch(bench: Bench, replayed: Replayed, pc: int, deadline: float) -> None:
    """Executes up to WATCHED_STEPS steps, until the registers at a pc repeat."""
    seen: Set[Tuple[int, ...]] = set()
    for _ in range(WATCHED_STEPS):
        replayed.is_late = time.perf_counter() > deadline
        if replayed.after == pc:
            regs = tuple(register_values(bench.ask("regs")[0][:32]))
            replayed.is_again = regs in seen
            seen.add(regs)
        if replayed.is_late or replayed.is_again:
            return
        replayed.note(bench.one("step 1"))


def check_window(bench: Bench, replayed: Replayed) -> None:
    """Compares the bytes of the window with those that a path has loaded or stored."""
    places = sorted(replayed.expected)
    replies = bench.ask(*["mem %x 1" % at for at in places]) if places else []
    for at, line in zip(places, replies):
        value = int(line[0].split()[1], 16)
        if value != replayed.expected[at] and not replayed.wrong:
            replayed.wrong = "%08x has %02x, predicted %02x" % (at, value, replayed.expected[at])


def observed(word: int, regs: Sequence[int]) -> Tuple[int, ...]:
    """Returns what the host may observe of an instruction word: the accessed address, the stored value, or the operands. `regs` has the registers
    before the instruction."""
    instruction = decode(word)
    operand = regs[instruction.rs1]
    if instruction.kind == "load":
        return ((operand + instruction.imm) & M32,)
    if instruction.kind == "store":
        stored = regs[instruction.rs2] & (1 << 8 * instruction.width) - 1
        return (operand + instruction.imm) & M32, stored
    if instruction.kind == "ecall":
        return regs[A0], regs[A1], regs[A6]
    return operand, regs[instruction.rs2] if instruction.kind in ("op", "branch") else 0
