"""Traces an enclave with changed inputs. A run is replayed at full speed up to the changed input. From there it is first expected to take the
steps of its parent: one list of commands reads the registers of loads and stores, and the pc after each branch. At the first reply that differs,
single steps show the new path: the first few with all registers, since most paths join that of the parent soon. After these a second process reads
the registers. If the new path joins that of the parent, the run follows it again. Steps that an earlier run took with the same registers are
copied from its trace."""
from __future__ import annotations

from array import array
from bisect import bisect_left
from collections import defaultdict, deque
from contextlib import ExitStack
from dataclasses import dataclass
from functools import lru_cache
from itertools import chain, compress
from typing import Iterator, Mapping, NamedTuple, Optional, Sequence, Set, Tuple

from rvlook.errors import Unfinished
from rvlook.finders.inputs.code import Code, Kind, code_of
from rvlook.finders.inputs.contexts import Contexts
from rvlook.finders.inputs.trace import READ_RESULT, Changes, ProbeComparison, Probes, Trace, TraceVisit, each_probe
from rvlook.protocol.reader import step_command, values_of
from rvlook.protocol.replies import Enclave, enclave_of, register_values
from rvlook.protocol.run import HALTED_AFTER, Run, equal_at_end
from rvlook.protocol.timeline import Timeline

FIRST_STEPS, FIRST_CHUNK, LAST_CHUNK = 32, 256, 8192  # single steps of the first exchange, of the second one, and of an exchange at most
EXTRA_STEPS = 8000  # steps of a run beyond twice those up to the last one of the enclave in the run itself
MAX_LOOP_STEPS, REGISTER_LINES = 256, 33  # the most steps of a loop that waits for the host; lines of `regs`
CHECKS, STEPS_PER_CHECK = 20, 50000  # checks whether an enclave returns, and the steps before each; else it is stuck
JOIN_LENGTH = 16  # equal steps after which a path has joined another
JOIN_DISTANCE, JOIN_OCCURRENCES = 4096, 4  # steps of the other path that are searched, and how often a pc is considered
CACHED_PARTS = 16  # parts of paths, of up to LAST_CHUNK steps, and tables of join points that are cached
MAX_FOLLOWS = 24  # times that a run follows its parent
ENDED_BY = {0: "exit", 1: "stop", 2: "timer"}  # why the enclave left, by a0 of the host after it
NO_TRAP = b"why=done trap=-"  # ends the reply to a step without a trap
CONTEXT_KINDS = (Kind.CALL, Kind.INDIRECT, Kind.RETURN, Kind.TRAP_RETURN)  # instructions that may change the context
WORD_MASK = 0xFFFFFFFF
READ_REGISTERS = b"regs\n"  # the command that reads all registers
A0, A1 = 10, 11  # numbers of registers
Joined = Tuple[int, int]  # where a run joins its parent: the index in the parent's trace, and the number of steps of the run before it
JoinPoints = Mapping[int, Mapping[bytes, Sequence[int]]]  # indices of a trace, by the pc and by the next JOIN_LENGTH pcs


class AddedSteps(NamedTuple):
    """The steps of a TracePart as they were added to a trace. They are the same in another trace with this context, these registers and frames."""
    context: int  # the context before the steps
    registers: bytes  # the replies with the registers that the steps need
    frames: Sequence[Tuple[int, Optional[int]]]  # the contexts of the steps, with the sp of each
    first: int  # number of the first step of the part
    trace: Trace  # has the steps of the part alone


@dataclass
class TracePart:
    """Successive single steps of a run. An own step is a step of the enclave; its index counts only the own steps of the part, from 0."""
    lines: Sequence[bytes]  # the reply to each step
    pcs: Sequence[int]  # the pc before each step
    is_own_after: Sequence[bool]  # whether the enclave runs after each step
    next_pc: int  # the pc after the last step
    own_steps: Sequence[int]  # the indices of own steps in `lines`
    own_pcs: array[int]  # the pc of each own step
    tails: Sequence[bytes]  # the end of the reply to each own step, from the world on
    starts: Set[int]  # indices of the own steps before which the enclave is entered
    # the own steps that need more than a pc: index, code, whether more than an access, whether relative to sp; None before decoding
    marked_steps: Optional[Sequence[Tuple[int, Code, bool, bool]]] = None
    text: bytes = b""  # the commands that read the registers of marked steps
    last_added: Optional[AddedSteps] = None  # the steps as they were last added to a trace; None if no trace has these steps


@lru_cache(maxsize=1 << 17)
def pc_and_tail(line: bytes) -> tuple[int, bytes]:
    """Decodes the reply to a single step, `ran 1 pc=80000000 mode=S world=..`: the pc, and the text after `world=`."""
    return int(line[9:17], 16), line[31:]


def part_of(block: bytes, prefix: bytes, pc: int, is_own: bool) -> TracePart:
    """Decodes the replies to single steps from pc on. `prefix` begins the world of the enclave; `is_own`: the enclave runs before the first step."""
    lines = block.split(b"\n")[:-1]
    next_pcs, tails = zip(*map(pc_and_tail, lines))
    is_own_by_tail = {tail: tail.startswith(prefix) for tail in set(tails)}
    is_own_after, pcs = [is_own_by_tail[tail] for tail in tails], [pc, *next_pcs[:-1]]
    own_steps = list(compress(range(len(lines)), [is_own, *is_own_after[:-1]]))
    starts = {0, *(at + 1 for at, n in enumerate(own_steps) if not is_own_after[n])}
    own_pcs, own_tails = array("I", [pcs[n] for n in own_steps]), [tails[n] for n in own_steps]
    return TracePart(lines, pcs, is_own_after, next_pcs[-1], own_steps, own_pcs, own_tails, starts)


@dataclass(frozen=True)
class Started:
    """A run to which the probes of its parent were sent."""
    run: Run  # the run with the changed inputs
    parent: Trace  # the trace whose inputs were changed
    joined: Joined  # index of the parent and position of the run, from where it is expected to follow the parent
    changes: Changes  # the changes of the inputs
    replay: Timeline  # the replay of the run
    first: Optional[int] = None  # number of the first probe; None if there are none
    before: int = 0  # lines of the replies before those to the probes
    count: int = 0  # lines of the replies to the probes


class Tracer:
    """Traces the enclave of a slot."""
    def __init__(self, run: Run, slot: int) -> None:
        self.run, self.slot, self.world = run, slot, b"e%d " % slot  # `world` begins the world in a reply
        self.code: dict[int, Code] = {}  # the code by pc
        self.part_of = lru_cache(maxsize=CACHED_PARTS)(part_of)  # runs that take the same path have parts in common
        self.questions: dict[int, bytes] = {}  # by pc: commands that read the registers of an instruction
        self.plain: set[int] = set()  # pcs of plain instructions
        self.context_pcs: set[int] = set()  # pcs of instructions that may change the context, or show where a frame is
        self.contexts = Contexts()  # the contexts of all traces
        self.enclave: Enclave | None = None  # None before the first trace
        self.limit = run.length + run.setup.limit  # steps of the run after which it is cut
        self.runs = self.cut = self.waiting = 0  # numbers of runs, of runs that were cut, and of runs that wait for the host

    def base(self) -> Trace:
        """Returns the trace of the run itself. Raises Unfinished if the enclave is never entered, or does not return."""
        trace = Trace()
        self.explore(self.run, trace, 0, None)
        if not trace.visits:
            raise Unfinished("no enclave in slot %d" % self.slot)
        if trace.visits[-1].last is None:
            raise Unfinished("the enclave in slot %d does not return in the run itself; inputs requires a run in which it does" % self.slot)
        self.limit = min(self.limit, 2 * trace.steps[-1] + EXTRA_STEPS)
        self.runs = 1
        return trace

    def with_changes(self, changes: Changes) -> Run:
        """Returns the run of the tracer with changed inputs."""
        run = self.run
        for change in changes:
            run = run.with_lines(change.step, change.lines())
        return run

    def start(self, parent: Trace, index: int, changes: Changes) -> Started:
        """Starts a run with other changes, which `finish` traces. Before the step at `index` they change nothing of the parent's trace."""
        self.runs += 1
        return self.started(self.with_changes(changes), parent, (index, parent.steps[index] - 1), changes)

    def finish(self, started: Started) -> Trace:
        """Returns the trace of a run that was started."""
        run, parent, trace = started.run, started.parent, started.parent.prefix(started.joined[0], started.changes)
        for number in range(MAX_FOLLOWS):
            diverged = self.follow(started, trace)
            if diverged is None:
                break
            joined = self.explore(run, trace, diverged[1], (parent, diverged[0]) if number + 1 < MAX_FOLLOWS else None)
            if joined is None:
                break
            started = self.started(run, parent, joined, started.changes)
        self.count_end(trace)
        return trace

    def count_end(self, trace: Trace) -> None:
        """Counts a run if its trace was cut, or if it waits for the host."""
        self.cut += trace.end == "limit"
        self.waiting += trace.end == "waits"

    def child(self, parent: Trace, index: int, changes: Changes) -> Trace:
        """Returns the trace of a run with other changes. Before the step at `index` they change nothing of the parent's trace."""
        return self.finish(self.start(parent, index, changes))

    def started(self, run: Run, parent: Trace, joined: Joined, changes: Changes) -> Started:
        """Sends the probes of the parent to a run, from the index and the position in `joined` on. `changes` are those of the run."""
        index, position = joined
        replay = run.replay()
        before = replay.lines_to(position) + replay.lines_up_to_next()
        if replay.future:  # more lines follow
            return Started(run, parent, joined, changes, replay)
        probes = self.probes(parent)
        first = bisect_left(probes.indices, index)
        text, count = probes.text_from(first, parent.steps[index] - 1)
        replay.bench.send("".join(command + "\n" for command in before).encode() + text)
        replay.bench.begin()
        return Started(run, parent, joined, changes, replay, first=first, before=len(before), count=count)

    def follow(self, started: Started, trace: Trace) -> Joined | None:
        """Adds the steps that the run has in common with its parent. Returns the index in the parent and the position in the run at which they end,
        so that `explore` goes on from there. Returns None if the trace is complete."""
        parent, (index, start) = started.parent, started.joined
        with started.replay as replay:
            if started.first is None:
                return index, start
            replies = replay.bench.block(b"", started.before + started.count).split(b"\n")[started.before:-1]
        comparison = self.probes(parent).compare(started.first, replies)
        end = len(parent) if comparison.end is None else max(comparison.end, index)
        trace.append(parent, index, end, start + 1 - parent.steps[index])
        is_changed = self.update(trace, parent, len(trace) - end, comparison)
        if comparison.end is not None:
            return end, trace.steps[-1] if end > index else start
        is_changed = is_changed or bool(trace.new_ranges)
        trace.end, trace.next_pc, trace.context = parent.end, parent.next_pc, parent.context
        trace.total = parent.total + trace.steps[-1] - parent.steps[-1]
        # with other results the host may enter the enclave again, where it halted in the parent
        return (end, trace.steps[-1]) if is_changed and parent.end == "halted" else None

    def update(self, trace: Trace, parent: Trace, shift: int, comparison: ProbeComparison) -> bool:
        """Changes the accesses and the answers of a trace that differ from its parent's; returns whether there are any. `shift` is the difference of
        a step's indices in the trace and in the parent."""
        is_changed, size = False, len(trace)
        for at, values in comparison.changed_accesses.items():
            if at + shift < size:
                trace.addresses[at + shift], value = access_of(self.code[parent.pcs[at]], values)
                trace.values[at + shift] = trace.values[at + shift] if value is None else value
                trace.changed_indices.append(at + shift)
                is_changed = True
        for number, visit in enumerate(trace.visits):
            answer = comparison.changed_answers.get(visit.last - shift) if visit.last is not None else None
            if answer is not None and answer != visit.answer:
                trace.visits[number] = TraceVisit(visit.first, visit.last, ENDED_BY.get(answer[0], "?"), answer)
                is_changed = True
        return is_changed

    def probes(self, parent: Trace) -> Probes:
        """Returns the probes of a trace, with the replies to them in its own run. They are made once."""
        if parent.probes is None:
            assert self.enclave is not None
            probes = Probes(list(each_probe(parent, self.code, self.enclave)))
            text, counts = [], []
            with self.with_changes(parent.changes).replay() as replay:
                for probe, lines in zip(probes.probes, advances(replay, [probe.position for probe in probes.probes])):
                    counts.append(lines.count(b"\n") or 1)
                    text += [lines or b"reg 0\n", probe.question]
                block = iter(replay.bench.block(b"".join(text), sum(counts) + len(probes.probe_of_reply) - len(counts)).split(b"\n"))
            for number, (probe, count) in enumerate(zip(probes.probes, counts)):
                reply = [next(block) for _ in range(count)][-1]  # of the last command before the probe, which shows the pc
                if count > 1 and number:  # another run needs one `step` for all steps between two probes, so expect the reply to it
                    reply = b"ran %d" % (probe.position - probes.probes[number - 1].position) + reply[reply.find(b" pc="):]
                probes.expected += [reply, *(next(block) for _ in range(probe.question.count(b"\n")))]
            parent.probes = probes
        return parent.probes

    def explore(self, run: Run, trace: Trace, position: int, other: tuple[Trace, int] | None) -> Joined | None:
        """Adds steps from a position of the run on, up to its end, to the limit, or to where they join another trace. `other` is that trace, and the
        index from which it is searched; None: none is. Returns where the steps join it, or None."""
        begin = search_start = len(trace)  # the index of the first new step; the index from which a join is searched
        with ExitStack() as benches:
            leader = reader = benches.enter_context(run.replay())  # `leader` does the steps first; `reader` repeats them, and reads registers
            pc, is_own = self.go(leader, position)
            chunk, trace.end = FIRST_STEPS, ""  # `chunk`: the most steps of the next exchange
            join_points: JoinPoints = join_points_of(*other) if other else {}
            while not trace.end:
                count, first = max(1, min(chunk, self.limit - leader.position)), leader.position + 1
                block, states = steps_with_registers(leader, count) if chunk == FIRST_STEPS else (single_steps(leader, count), [])
                part = self.part_of(block, self.world, pc, is_own)
                pc, is_own = part.next_pc, part.is_own_after[-1]
                if part.own_steps:
                    if reader is leader and (chunk > FIRST_STEPS or not self.code.keys() >= set(part.own_pcs)):
                        reader = benches.enter_context(run.replay())  # new code is decoded before the steps: they may end with a destroy
                    self.mark_steps(part, first, reader)
                    self.add_part(trace, part, first, self.registers_in(part, states) if states else self.registers(reader, part, first))
                trace.next_pc, chunk = pc, FIRST_CHUNK if chunk == FIRST_STEPS else min(2 * chunk, LAST_CHUNK)
                joined = self.joined(trace, search_start, other[0], join_points) if other else None
                if joined:
                    trace.new_ranges.append((begin, len(trace)))
                    return joined
                search_start = max(begin, len(trace) - JOIN_LENGTH)
                trace.end = self.end_of(leader, part.lines, is_own)
            trace.total = leader.position
        trace.new_ranges.append((begin, len(trace)))
        return None

    @staticmethod
    def joined(trace: Trace, begin: int, parent: Trace, join_points: JoinPoints) -> Joined | None:
        """Returns where steps of a trace from index `begin` on join the parent in the same activation, or None. Removes the steps after that."""
        end = len(trace) - JOIN_LENGTH
        for at in compress(range(begin, end), map(join_points.__contains__, trace.pcs[begin:end])):
            for other in join_points[trace.pcs[at]].get(trace.pcs[at:at + JOIN_LENGTH].tobytes(), ()):
                if trace.contexts[at] == parent.contexts[other] and trace.visit_at(at) == parent.visit_at(other):
                    position = trace.steps[at] - 1
                    trace.cut(at)
                    return other, position
        return None

    def go(self, replay: Timeline, position: int) -> tuple[int, bool]:
        """Goes to a position of the run; returns the pc there, and whether the enclave runs."""
        commands = replay.lines_to(position)
        replies = [reply[0] for reply in replay.bench.ask(*commands) if reply[0].startswith("ran ")] if commands else []
        if not replies:
            return int(self.run.pc, 16), False
        return int(replies[-1].partition("pc=")[2][:8], 16), (" world=%s" % self.world.decode()) in replies[-1]

    def end_of(self, leader: Timeline, lines: Sequence[bytes], is_own: bool) -> str:
        """Returns why a trace ends after the steps with the replies `lines`; empty if it goes on. `is_own`: the enclave runs after them."""
        if equal_at_end(lines) >= HALTED_AFTER:
            return "stuck" if is_own else "halted"
        if leader.position < self.limit:
            return ""
        if is_own:
            replies = leader.bench.block(b"step %d\n" % STEPS_PER_CHECK * CHECKS, CHECKS).splitlines()
            if all(b" world=" + self.world in reply for reply in replies):
                return "waits" if self.is_waiting(leader) else "stuck"
        return "limit"

    def is_waiting(self, leader: Timeline) -> bool:
        """Returns whether the enclave waits for the host: it repeats steps with the same registers, and loads from its window in each round."""
        assert self.enclave is not None
        lines = leader.bench.block(b"regs\nstep 1\n" * MAX_LOOP_STEPS, (REGISTER_LINES + 1) * MAX_LOOP_STEPS).splitlines()
        states = [lines[at:at + REGISTER_LINES] for at in range(0, len(lines), REGISTER_LINES + 1)]
        length = next((n for n in range(1, len(states)) if states[n] == states[0]), 0)  # steps of a round; 0 for no loop
        for state in states[:length]:
            values = register_values(state)  # x0 to x31, and pc
            code = self.code.get(values[-1])
            address = (values[code.probes[0]] + code.offset) & WORD_MASK if code and code.kind is Kind.LOAD else 0
            if self.enclave.shares(address):
                return True
        return False

    def mark_steps(self, part: TracePart, first: int, reader: Timeline) -> None:
        """Brings a reader before the first own step of a part, and marks steps that need more than a pc. `first` is the number of the first step."""
        reader.bench.replies_to(reader.lines_to(first + part.own_steps[0] - 1))
        if self.enclave is None:
            self.enclave = next(enclave for enclave in map(enclave_of, reader.bench.ask("enclaves")[0]) if enclave.slot == self.slot)
        if part.marked_steps is None:
            self.decode(reader, set(part.own_pcs) - self.code.keys())
            plain_tail, pcs, indices = self.world + NO_TRAP, part.own_pcs, range(len(part.own_pcs))
            special = part.starts.intersection(indices).union(compress(indices, map(self.context_pcs.__contains__, pcs)))
            special.update(at for at, tail in enumerate(part.tails) if tail != plain_tail)
            marked_indices = sorted(special.union(compress(indices, map(self.questions.__contains__, pcs))))
            codes = [self.code[pcs[at]] for at in marked_indices]
            part.marked_steps = [(at, code, at in special, code.is_sp_relative) for at, code in zip(marked_indices, codes)]

    def add_part(self, trace: Trace, part: TracePart, first: int, registers: bytes) -> None:
        """Adds the own steps of a marked part to a trace. Copies them from an earlier trace, if they are the same there. `first` is the number of the
        first step; `registers` are the replies with the registers that these steps need."""
        begin, context, version, frames, added = len(trace), trace.context, self.contexts.version, self.contexts.frames, part.last_added
        if added and (context, registers) == added[:2] and all(frames.get(frame) == sp for frame, sp in added.frames):
            trace.append(added.trace, 0, len(added.trace), first - added.first)
        else:
            self.add_one_by_one(trace, part, first, iter(values_of(registers)))
            if self.contexts.version != version:  # the part changed frames, which a copy of its steps would not
                return
            used_frames = [(context, frames.get(context)) for context in set(trace.contexts[begin:])]
            added = part.last_added = AddedSteps(context, registers, used_frames, first, trace.since(begin))
        trace.parts.append((begin, added.trace))

    def add_one_by_one(self, trace: Trace, part: TracePart, first: int, values: Iterator[int]) -> None:
        """Adds the own steps of a marked part to a trace, one by one. `values` are the registers that these steps need, in their order."""
        assert part.marked_steps is not None
        own_steps, starts, begin = part.own_steps, part.starts, len(trace)
        trace.steps.extend([first + n for n in own_steps])
        trace.pcs += part.own_pcs
        trace.addresses.frombytes(bytes(4 * len(own_steps)))
        trace.values.frombytes(bytes(4 * len(own_steps)))
        frames, addresses = self.contexts.frames, trace.addresses
        for at, code, is_more, is_sp in part.marked_steps:
            index, address = begin + at, 0
            if at in starts and (not trace.visits or trace.visits[-1].last is not None):
                trace.visits.append(TraceVisit(index))
            if code.kind is Kind.ECALL:
                trace.values[index], addresses[index] = next(values), next(values)
            elif code.probes:
                address = addresses[index] = next(values) + code.offset & WORD_MASK
                if code.kind is Kind.STORE:
                    trace.values[index] = next(values) & code.stored_bits
            if is_more or is_sp and frames.get(trace.context) != address - code.offset:
                context = trace.context
                self.add_step(trace, part, index, at, values)
                if trace.context != context:
                    trace.contexts.extend([context] * (index + 1 - len(trace.contexts)))
        trace.contexts.extend([trace.context] * (len(trace) - len(trace.contexts)))

    def decode(self, reader: Timeline, pcs: set[int]) -> None:
        """Decodes instructions that are not yet known."""
        sorted_pcs = sorted(pcs)
        replies = reader.bench.block(b"".join(b"dis %x\n" % pc for pc in sorted_pcs), len(sorted_pcs)).split(b"\n") if sorted_pcs else []
        for pc, code in zip(sorted_pcs, map(code_of, replies)):
            self.learn(pc, code)

    def learn(self, pc: int, code: Code) -> None:
        """Adds a decoded instruction to the code of the tracer."""
        self.code[pc] = code
        if code.probes:
            self.questions[pc] = b"".join([b"reg %d\n" % probe for probe in code.probes])
        if code.is_plain:
            self.plain.add(pc)
        if code.kind in CONTEXT_KINDS or code.moves_sp or code.is_saving:
            self.context_pcs.add(pc)

    def registers(self, reader: Timeline, part: TracePart, first: int) -> bytes:
        """Reads the registers of each marked step, and a0 and a1 after each step that leaves the enclave. Returns all replies, also to steps."""
        text = part.text
        if not text or reader.future:
            questions: list[tuple[int, bytes]] = []  # steps done before a question, and the commands of the question
            for n in part.own_steps:
                if part.pcs[n] in self.questions:
                    questions.append((first + n - 1, self.questions[part.pcs[n]]))
                if not part.is_own_after[n]:
                    questions.append((first + n, READ_RESULT))
            if reader.future:
                text = b"".join(chain.from_iterable(zip(advances(reader, [position for position, _ in questions]), [text for _, text in questions])))
                return reader.bench.block(text, text.count(b"\n"))
            positions = [reader.position, *(position for position, _ in questions), first + part.own_steps[-1]]
            pairs = zip(positions, positions[1:], [*questions, (0, b"")])
            text = part.text = b"".join([step_command(after - before) + question for before, after, (_, question) in pairs])
        reader.lines_to(first + part.own_steps[-1])
        return reader.bench.block(text, text.count(b"\n"))

    def registers_in(self, part: TracePart, states: Sequence[Sequence[bytes]]) -> bytes:
        """Returns the replies of `registers`, without those to steps. Takes them from `states`, the replies to `regs` before each step of the part
        and after the last."""
        lines: list[bytes] = []
        for n in part.own_steps:
            lines += [states[n][number] for number in self.code[part.pcs[n]].probes]
            if not part.is_own_after[n]:
                lines += states[n + 1][A0:A1 + 1]
        return b"\n".join(lines)

    def add_step(self, trace: Trace, part: TracePart, index: int, at: int, values: Iterator[int]) -> None:
        """Adds what a marked step is more than an access: a trap, the end of an activation, another context, or a frame. `index` is its index in the
        trace, and `at` in the part."""
        pc, address, n = part.own_pcs[at], trace.addresses[index], part.own_steps[at]
        code = self.code[pc]
        if part.tails[at] != self.world + NO_TRAP:
            cause, _, number = part.tails[at].rpartition(b"trap=")[2].partition(b":")
            if cause != b"-":
                trace.traps[index] = int(cause, 16), int(number, 16)
        if not part.is_own_after[n]:
            a0, a1 = next(values), next(values)
            trace.visits[-1] = TraceVisit(trace.visits[-1].first, index, ENDED_BY.get(a0, "?"), (a0, a1))
        context, following = trace.context, part.pcs[n + 1] if n + 1 < len(part.pcs) else part.next_pc
        trace.context = self.contexts.after(context, code, pc, following, trace.traps.get(index) if part.is_own_after[n] else None)
        if code.is_sp_relative or code.moves_sp:
            self.contexts.update_frame(context, code, address)


@lru_cache(maxsize=CACHED_PARTS)
def join_points_of(trace: Trace, start: int) -> JoinPoints:
    """Returns the first occurrences of each pc in the JOIN_DISTANCE steps of a trace from index `start` on, by the pc and by the next pcs."""
    join_points: dict[int, dict[bytes, list[int]]] = defaultdict(dict)
    counts: dict[int, int] = defaultdict(int)
    for at, pc in enumerate(trace.pcs[start:start + JOIN_DISTANCE], start):
        counts[pc] += 1
        if counts[pc] <= JOIN_OCCURRENCES:
            join_points[pc].setdefault(trace.pcs[at:at + JOIN_LENGTH].tobytes(), []).append(at)
    return join_points


def access_of(code: Code, values: Sequence[int]) -> tuple[int, int | None]:
    """Returns the address and the stored value of an access, from its registers; of an ecall a1 and a6. The value is None if it was not read."""
    if code.kind is Kind.ECALL:
        return values[1], values[0]
    address = (values[0] + code.offset) & WORD_MASK
    if code.kind is not Kind.STORE:
        return address, 0
    return address, values[1] & code.stored_bits if len(values) > 1 else None


def advances(replay: Timeline, positions: Sequence[int], has_next: bool = False) -> Iterator[bytes]:
    """Yields the commands that bring a replay to each of these positions, one after another; with `has_next` also those before the next step."""
    reached, remaining_steps = replay.position, 0  # the position that is reached; steps of a command that are not yet yielded
    lines = deque(replay.lines_to(positions[-1]) + (replay.lines_up_to_next() if has_next else []) if positions else ())
    for position in positions:
        text = []
        while reached < position or has_next and not remaining_steps and lines and not lines[0].startswith("step "):
            if remaining_steps:
                steps = min(remaining_steps, position - reached)
                text.append(step_command(steps))
                reached, remaining_steps = reached + steps, remaining_steps - steps
            elif lines[0].startswith("step "):
                remaining_steps = int(lines.popleft()[len("step "):])
            else:
                text.append(lines.popleft().encode() + b"\n")
        yield b"".join(text)


def steps_with_registers(replay: Timeline, count: int) -> tuple[bytes, list[list[bytes]]]:
    """Does `count` single steps; returns the replies to them, and the replies to `regs` before each of them and after the last."""
    lines = replay.lines_to(replay.position + count)
    step_text = b"step 1\n" + READ_REGISTERS
    text = READ_REGISTERS + b"".join([step_text * int(line[5:]) if line.startswith("step ") else line.encode() + b"\n" for line in lines])
    replies = replay.bench.block(text, text.count(b"\n") + (REGISTER_LINES - 1) * (1 + count)).split(b"\n")
    steps = [n for n, reply in enumerate(replies) if reply.startswith(b"ran ")]
    return b"".join([replies[n] + b"\n" for n in steps]), [replies[n:n + REGISTER_LINES] for n in (0, *(n + 1 for n in steps))]


def single_steps(replay: Timeline, count: int) -> bytes:
    """Does `count` single steps; returns the replies to them, without those to other commands of the script."""
    lines = replay.lines_to(replay.position + count)
    text = b"".join([b"step 1\n" * int(line[5:]) if line.startswith("step ") else line.encode() + b"\n" for line in lines])
    block = replay.bench.block(text, text.count(b"\n"))
    return b"".join([line for line in block.splitlines(keepends=True) if line.startswith(b"ran ")]) if len(lines) > 1 else block
