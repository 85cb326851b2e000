"""The parts of `inputs`: traces along a parent are those of single steps; decoding, call contexts, objects, fields, values and states."""
import shutil
import subprocess
import sys
import types
from dataclasses import replace

import pytest

from conftest import BUILD, EXAMPLES, ROOT
from support.race_programs import assembled

sys.path.insert(0, str(ROOT / "python"))
from rvlook.access.fields import WindowFields  # noqa: E402
from rvlook.cli.opening import opened  # noqa: E402
from rvlook.cli.parser import read  # noqa: E402
from rvlook.finders.inputs.code import Kind, code_of  # noqa: E402
from rvlook.finders.inputs.contexts import Contexts  # noqa: E402
from rvlook.finders.inputs.values import DetailReader  # noqa: E402
from rvlook.finders.inputs.judge import TraceJudge  # noqa: E402
from rvlook.finders.inputs.objects import NOTHING, OUTSIDE, UNUSED, WINDOW, Objects, ObjectPlace  # noqa: E402
from rvlook.finders.inputs.trace import TraceProbe, Probes  # noqa: E402
from rvlook.finders.inputs.values import HostRequest, reordered  # noqa: E402
from rvlook.finders.inputs.search import InputSearch  # noqa: E402
from rvlook.finders.inputs.secret_rules import stored_states, versions  # noqa: E402
from rvlook.finders.inputs.trace import NO_PC, Change, Trace, TraceVisit, runs_of  # noqa: E402
from rvlook.finders.inputs.values import with_change, word_inputs  # noqa: E402
from rvlook.image.variables import Local, Member, Variables, places_of, signed, variables_of  # noqa: E402
from rvlook.protocol.reader import values_of  # noqa: E402
from rvlook.protocol.replies import Enclave  # noqa: E402
from rvlook.protocol.symbols import Symbol, Symbols  # noqa: E402

FOLDER = EXAMPLES / "enclaves" / "host_inputs"
ENCLAVE = Enclave(0, "Stopped", 0x80020000, 0x1000, 0x80030000, 0x1000, entry=0x80020000, measurement="")


@pytest.fixture
def search(bench, monkeypatch, tmp_path):
    """Returns a prepared search over a function of the example."""
    def of(task):
        monkeypatch.setenv("RVBENCH", bench)
        script = tmp_path / "script"
        script.write_text("poke task %02x\n" % task)
        run, symbols, _ = opened(read(["inputs", "--monitor", str(FOLDER / "image"), "--symbols", str(FOLDER / "symbols"), "--script", str(script)]))
        found = InputSearch(run, symbols, variables_of(None, run.setup.image), 0, 0)
        found.start(None, False)
        return found
    return of


HOST = ("li x17, 0x0a454e43", "li x16, 1", "li x10, 0x80020000", "li x11, 0x1000", "li x12, 0x80030000", "li x13, 0x1000", "li x14, 0x80020000",
        "ecall", "li x16, 3", "li x10, 0", "ecall", "li x16, 2", "li x10, 0", "ecall", "halt: jal x0, halt")  # create, run and destroy
DIVIDED = ("li x17, 0x0a454e43", "li x16, 6", "lw x10, 0(x12)", "bne x10, x0, other", "ecall", "other: addi x10, x10, 1", "ecall")  # an enclave


def test_code_is_decoded_before_a_destroy_within_a_few_steps(bench, monkeypatch, tmp_path):
    monkeypatch.setenv("RVBENCH", bench)
    image, script = tmp_path / "image", tmp_path / "script"
    image.write_text("".join("%s\n" % word.hex() for word in words(assembled(bench, HOST))))
    script.write_text("".join("poke %x %02x\n" % it for it in enumerate(assembled(bench, DIVIDED), 0x80020000)))
    run, symbols, _ = opened(read(["inputs", "--monitor", str(image), "--script", str(script)]))
    found = InputSearch(run, symbols, Variables(), 0, 0)
    found.start(None, False)
    traces = [found.tracer.child(found.base, it.index, it.changes) for it in list(found.root.children)[:8]]
    assert any(len(trace) > len(found.base) for trace in traces)
    texts = {pc: code.text for pc, code in found.tracer.code.items()}
    assert texts[0x80020018] == "addi x10, x10, 1" and all(texts.values())


def words(data):
    return [data[at:at + 4] for at in range(0, len(data), 4)]


@pytest.mark.parametrize("task", [5, 14, 15])
def test_trace_along_its_parent_is_that_of_single_steps(search, task):
    it = search(task)
    parent = it.root
    for child in list(parent.children)[::9][:25]:
        found = it.tracer.child(parent.trace, child.index, child.changes)
        wanted = parent.trace.prefix(child.index, child.changes)
        it.tracer.explore(it.tracer.with_changes(child.changes), wanted, parent.trace.steps[child.index] - 1, None)
        for name in ("steps", "pcs", "addresses", "contexts", "traps", "visits", "end", "next_pc"):
            assert getattr(found, name) == getattr(wanted, name), (name, child.changes)
        assert stored(it, found) == stored(it, wanted)


COLUMNS = ("steps", "pcs", "addresses", "values", "contexts", "traps", "visits", "context")  # of a trace


def test_steps_of_an_earlier_trace_are_those_that_are_added_one_by_one(search, monkeypatch):
    it = search(5)
    tracer, taken = it.tracer, []
    monkeypatch.setattr(tracer, "add_part", lambda trace, *more: (taken.append((trace.context, *more)), type(tracer).add_part(tracer, trace, *more)))
    for child in list(it.root.children)[:40]:
        tracer.child(it.base, child.index, child.changes)
    assert sum(part.last_added is not None for _, part, _, _ in taken) > 10

    def check(context, part, first, registers):
        found, wanted = Trace(context=context), Trace(context=context)
        type(tracer).add_part(tracer, found, part, first, registers)
        frames = dict(tracer.contexts.frames)
        tracer.add_one_by_one(wanted, part, first, iter(values_of(registers)))
        assert [getattr(found, name) for name in COLUMNS] == [getattr(wanted, name) for name in COLUMNS] and frames == tracer.contexts.frames

    for context, part, first, registers in taken[-20:]:
        check(context, part, first, registers)
        check(context, part, first + 5, registers)  # now as before
        check(next(other for other in range(9) if other != context), part, first, registers)
        check(context, part, first, registers.replace(b"=8002", b"=8003"))
        check(context, part, first, registers)
        for used in set(part.last_added.trace.contexts) & tracer.contexts.frames.keys():
            tracer.contexts.frames[used] += 16
        check(context, part, first, registers)


@pytest.mark.parametrize("task", [3, 7, 15])
def test_parts_of_earlier_traces_have_the_same_unusual_steps(search, task):
    it = search(task)
    again = TraceJudge(it.tracer, it.objects, it.base)
    for number, child in enumerate(list(it.root.children)[:60]):
        trace = it.tracer.child(it.base, child.index, child.changes)
        whole = replace(trace, parts=[])
        it.tracer.contexts.version += number % 20 == 19  # the judges forget what is usual
        assert list(it.judge.unusual(trace)) == list(again.unusual(whole))
        assert it.judge.judge_trace(trace) == again.judge_trace(whole) and it.judge.seen == again.seen


def stored(search, trace):
    """The values that a trace stores to the window."""
    return [(at, value) for at, value, pc in zip(trace.addresses, trace.values, trace.pcs)
            if search.tracer.code[pc].kind is Kind.STORE and search.objects.enclave.shares(at)]


def code(text):
    return code_of(("80020000: 00000013 " + text).encode())


def test_instructions_have_their_kinds_and_registers():
    rows = {"lw x10, 4(x11)": (Kind.LOAD, (11,)), "sb x10, -1(x2)": (Kind.STORE, (2, 10)), "beq x1, x2, 8": (Kind.BRANCH, ()), "jal x1, 8": (Kind.CALL, ()),
            "jal x0, 8": (Kind.OTHER, ()), "jalr x0, 0(x1)": (Kind.RETURN, ()), "jalr x1, 0(x5)": (Kind.INDIRECT, ()), "ecall": (Kind.ECALL, (16, 11)),
            "sret": (Kind.TRAP_RETURN, ()), "addi x2, x2, -32": (Kind.OTHER, ())}
    assert {text: (code(text).kind, code(text).probes) for text in rows} == rows
    assert code("addi x2, x2, -32").moves_sp == -32 and code("sb x10, -1(x2)").is_sp_relative and code_of(b"error outside").kind is Kind.OTHER


def test_contexts_follow_calls_returns_and_traps():
    it = Contexts()
    inner = it.after(it.after(0, code("jal x1, 8"), 0x100, 0x200, None), code("jalr x1, 0(x5)"), 0x204, 0x300, None)
    assert list(map(it.calls.__getitem__, it.chain(inner))) == [0x204, 0x100]
    assert it.is_return_address(inner, 0x208) and not it.is_return_address(inner, 0x104)
    back = it.after(inner, code("jalr x0, 0(x1)"), 0x304, 0x208, None)
    assert back == it.parents[inner] and it.after(inner, code("jalr x0, 0(x1)"), 0x304, 0x104, None) == 0
    trapped = it.after(inner, code("ecall"), 0x308, 0x400, (8, 0))
    assert it.after(trapped, code("sret"), 0x40c, 0x30c, None) == inner
    assert it.after(inner, code("ecall"), 0x308, 0x30c, (9, 0)) == inner


@pytest.fixture
def objects():
    """Returns the objects of an enclave with two variables, a function, a local variable and two frames."""
    contexts = Contexts()
    outer = contexts.called(0, 0x80020100, False)
    inner = contexts.called(outer, 0x80020104, False)
    contexts.update_frame(outer, code("sw x1, 28(x2)"), 0x80020f00 + 28)
    contexts.update_frame(inner, code("addi x2, x2, -32"), 0)
    contexts.update_frame(inner, code("sw x1, 28(x2)"), 0x80020ee0 + 28)
    symbols = Symbols([Symbol(0x80020100, 0x80, "outer", True), Symbol(0x80020200, 0x80, "inner", True), Symbol(0x80020800, 8, "key", False),
                       Symbol(0x80020900, 0, "application_stack_bottom", False)])
    variables = Variables([Member(0x80020800, 8, "user.name", 1), Member(0x80020808, 4, "user.is_admin")],
                          [Local(0x80020200, 0x80020280, True, Member(8, 8, "part", 1)), Local(0x80020200, 0x80020280, False, Member(-12, 4, "sum"))])
    return Objects(ENCLAVE, symbols, variables, contexts), inner


def test_objects_are_named(objects):
    it, inner = objects
    names = {0x80020ee8: "part in inner", 0x80020ef0: "the frame of inner", 0x80020ef4: "sum in inner", 0x80020efc: "the saved registers of inner",
             0x80020f04: "the frame of outer", 0x80020804: "user.name", 0x80020808: "user.is_admin", 0x80020110: "outer"}
    assert {at: it.object_at(at, inner, 0x80020210).name for at in names} == names
    assert it.object_at(0x80030010, inner, 0) is WINDOW and it.object_at(0x80010000, inner, 0) is OUTSIDE
    assert it.object_at(0x80020e00, inner, 0x80020210) is UNUSED
    assert it.object_at(0x80020010, inner, 0) is NOTHING


def test_place_knows_its_variable_and_whether_it_is_an_array(objects):
    it, inner = objects
    assert it.object_at(0x80020800, inner, 0)[1:] == ("user", True) and it.object_at(0x80020808, inner, 0)[1:] == ("user", False)


def test_probes_show_the_first_difference_of_the_path_and_each_of_an_access():
    it = Probes([TraceProbe(0, 10, b"reg 5\n"), TraceProbe(3, 14), TraceProbe(5, 16, b"reg 6\nreg 7\n"), TraceProbe(7, 19, b"reg 10\nreg 11\n", True)])
    it.expected = [b"x0=00000000", b"x5=00000001", b"ran 4 pc=80020010 mode=U", b"ran 2 pc=80020018 mode=U", b"x6=00000002", b"x7=00000003",
                   b"ran 3 pc=80010000 mode=S", b"x10=00000001", b"x11=00000002"]
    assert it.text_from(1, 12) == (b"step 2\nstep 2\nreg 6\nreg 7\nstep 3\nreg 10\nreg 11\n", 7)
    same = it.compare(1, [b"ran 2 pc=80020010 mode=U", *it.expected[3:]])
    assert (same.end, same.changed_accesses, same.changed_answers) == (None, {}, {})
    other = it.compare(0, [*it.expected[:4], b"x6=00000009", *it.expected[5:8], b"x11=00000007"])
    assert (other.end, other.changed_accesses, other.changed_answers) == (None, {5: [9, 3]}, {7: (1, 7)})
    left = it.compare(0, [*it.expected[:3], b"ran 2 pc=80020020 mode=U", *it.expected[4:]])
    assert (left.end, left.changed_accesses) == (3, {})
    it = Probes([TraceProbe(3, 14, b"reg 10\nreg 11\n", True), TraceProbe(4, 20)])
    it.expected = [b"x0=00000000", b"x10=00000001", b"x11=00000002", b"ran 6 pc=80020018 mode=U"]
    assert it.compare(0, [*it.expected[:3], b"ran 6 pc=8001001c mode=S"]).end == 4


def test_trace_knows_where_the_enclave_leaves():
    trace = Trace()
    trace.pcs.extend([4, 8, 12])
    trace.visits = [TraceVisit(0, 1, "stop", (1, 2)), TraceVisit(2)]
    trace.next_pc = 16
    assert [trace.following(n) for n in range(3)] == [8, NO_PC, 16] and [trace.visit_at(n) for n in range(3)] == [0, 0, 1]


def test_change_of_the_same_bytes_replaces_the_older_one():
    old = (Change(5, 0x80030000, b"\1"), Change(9, 0x80030004, b"\2"))
    assert with_change(old, Change(5, 0x80030000, b"\7")) == (Change(5, 0x80030000, b"\7"), old[1])
    assert with_change(old, Change(7, 0x80030008, b"\3")) == (old[0], Change(7, 0x80030008, b"\3"), old[1])


def test_bytes_that_are_loaded_one_by_one_make_words():
    content = {0x80030002 + n: n for n in range(12)}
    found = list(word_inputs(content, {at: at - 0x80030002 for at in content}, 0, 3))
    assert [(it.at, it.value, it.start) for it in found] == [(0x80030004, b"\2\3\4\5", 2), (0x80030008, b"\6\7\x08\x09", 6)]


def test_states_are_found_at_another_address_and_in_each_version():
    old, new = dict(enumerate(b"state 1x", 0x80030040)), dict(enumerate(b"state 2x", 0x80030040))
    (known, size), = stored_states(0x80030040, b"..state 2x", [new])
    assert (known.offset, known.at, size) == (2, 0x80030040, 8)
    loads = [dict(enumerate(b"..state 0x", 0x80030000))]
    assert list(versions([old, new], loads, known, 0x80030000, 8)) == [(b"state 1x", 0), (b"state 2x", 1), (b"state 0x", None)]


def test_ranges_have_no_gaps():
    assert list(runs_of({5: 1, 6: 2, 9: 3})) == [(5, b"\1\2"), (9, b"\3")] and list(runs_of({})) == []


def test_only_members_after_an_array_are_other_objects():
    name, header, body, other = ObjectPlace("u.name", "u", True), ObjectPlace("u.header", "u"), ObjectPlace("u.body", "u", True), ObjectPlace("v", "v")
    assert TraceJudge.is_inner(body, {header}) and not TraceJudge.is_inner(header, {name}) and not TraceJudge.is_inner(other, {header})


def test_value_that_is_compared_with_private_memory_is_not_tried():
    reader = object.__new__(DetailReader)
    reader.objects = types.SimpleNamespace(enclave=ENCLAVE, stack=0x80020900)
    reader.tracer = types.SimpleNamespace(code={4: code("lw x10, 0(x5)"), 8: code("xor x11, x10, x12"), 12: code("beq x11, x0, 8")})
    trace = Trace()
    trace.pcs.extend([4, 8, 12])
    for at, private in ((0x80020800, True), (0x80030000, False), (0x80020a00, False)):
        trace.addresses = [at, 0, 0]
        assert reader.is_private(trace, 2, 11) is private
    assert not reader.is_private(trace, 2, 0) and not reader.is_private(trace, 2, 13)


def test_signed_leb128():
    assert [signed(it) for it in (b"\x02", b"\x7e", b"\x80\x01", b"\x80\x7f")] == [2, -2, 128, -128]


def test_variable_in_a_frame_may_be_split():
    assert places_of(b"\x91\x10") == [(16, 0)] and places_of(b"\x91\x80\x7f") == [(-128, 0)]
    assert places_of(b"\x91\x0c\x93\x04\x91\x08\x93\x80\x01") == [(12, 4), (8, 128)]
    assert places_of(b"\x5a\x93\x04\x91\x08\x93\x04\x93\x02") == [(8, 4)]
    assert places_of(b"") == places_of(b"\x91\x10\x06") == places_of(b"\x03\x00\x00\x02\x80") == places_of(b"\x91\x80") == []


def test_fields_of_structures_come_before_single_values():
    it = WindowFields(Symbols([Symbol(0x80030000, 0, "window_base", False)]))
    assert it.name(0x80030004) == "window_base+4"
    it.add(0x80030000, (Member(0, 0, "words", 4),))
    assert it.name(0x80030008) == "words[2]"
    it.add(0x80030000, (Member(0, 4, "r->length"), Member(4, 8, "r->data", 1)))
    assert (it.name(0x80030002), it.name(0x80030006), it.name(0x8003000c)) == ("r->length+2", "r->data[2]", "words[3]")


@pytest.fixture(scope="module")
def elf(tmp_path_factory):
    """Returns the ELF file of the example; skips the test if no compiler is installed."""
    if not (shutil.which("clang") and shutil.which("ld.lld")):
        pytest.skip("clang or lld is not installed")
    folder = tmp_path_factory.mktemp("built")
    for name in ("host_inputs", "hmac"):
        shutil.copytree(EXAMPLES / "enclaves" / name, folder / name)
    subprocess.run([str(BUILD), "--clang", str(folder / "host_inputs"), str(folder / "program.elf")], check=True, capture_output=True)
    return folder / "program.elf"


def with_task(rvlook, elf, tmp_path, task, *words):
    script = tmp_path / "script"
    script.write_text("poke task %02x\n" % task)
    return rvlook("inputs", elf, "--script", script, *words).stdout


def test_local_variables_and_fields_are_named(rvlook, elf, tmp_path):
    text = with_task(rvlook, elf, tmp_path, 9, "--runs", "40")
    assert "finding 1: store moves over the end of part in sum_on_stack into the saved registers of application, at application.c:" in text
    assert "  input  request->length = " in text and " lines" in text.splitlines()[-1]


def test_double_fetch_is_an_input_of_its_own(rvlook, elf, tmp_path):
    text = with_task(rvlook, elf, tmp_path, 17, "--runs", "40")
    assert "\ninput again  request->length  application.c:" in text
    assert "store moves over the end of buffer" in text


def test_registers_at_the_entry_are_inputs_on_request(rvlook, elf, tmp_path):
    plain, entry = (with_task(rvlook, elf, tmp_path, 1, "--runs", "20", *more) for more in ((), ("--entry",)))
    assert "input  a0, a1, a2, a3  activation 1" in entry and "activation 1" not in plain


def test_a0_after_a_resume_is_an_input_on_request(rvlook):
    store = EXAMPLES / "enclaves" / "store"
    plain, entry = (rvlook("inputs", "--monitor", store / "image", "--symbols", store / "symbols", "--runs", "20", *more).stdout
                    for more in ((), ("--entry",)))
    assert "input  a0  activation 2" in entry and "activation 2" not in plain


def test_races_start_after_the_input_of_a_finding(rvlook, tmp_path):
    rvlook("inputs", "--monitor", EXAMPLES / "enclaves" / "bug" / "image", "--runs", "40", "--scripts", tmp_path)
    for words in (("--timer", "1"), ("--harts", "2")):
        done = rvlook("races", "--monitor", *words, "--limit", "40", tmp_path / "finding_1.input")
        assert done.returncode in (0, 1) and "Covered: all" in done.stdout, done.stdout + done.stderr


def known_parts(first, data, at, value):
    """The parts of loaded bytes that an earlier activation stored: offset, address and size."""
    return [(place.offset, place.at, size) for place, size in stored_states(first, data, [{at + n: it for n, it in enumerate(value)}])]


def test_small_number_is_a_state_only_where_it_was_stored():
    five = (5).to_bytes(4, "little")
    assert known_parts(0x80030000, five, 0x80030060, five) == []
    assert known_parts(0x80030060, five, 0x80030060, five) == [(0, 0x80030060, 4)]


def test_state_with_several_distinct_bytes_may_be_moved():
    state = bytes.fromhex("03000000" "9a4c7781")
    assert known_parts(0x80030000, state, 0x80030060, state) == [(0, 0x80030060, 8)]
    assert known_parts(0x80030000, b"....." + state[4:], 0x80030060, state) == [(5, 0x80030064, 4)]


def test_requests_are_exchanged_copied_and_joined_in_halves():
    one, other, third = (HostRequest(step, step, {0x80030000 + n: value for n, value in enumerate(data)})
                         for step, data in ((10, b"AAAAaaaa"), (20, b"BBBBbbbb"), (30, b"BBBBbbbb")))
    trace = Trace()
    found = [[(it.step, it.at, it.value) for it in child.changes] for child in reordered(trace, (one, other, third), lambda at: "%x" % at)]
    swapped = [(10, 0x80030000, b"BBBBbbbb"), (20, 0x80030000, b"AAAAaaaa")]
    assert found[0] == swapped and swapped[:1] in found and swapped[1:] in found
    assert [(10, 0x80030000, b"BBBB")] in found and [(10, 0x80030004, b"bbbb")] in found and [(20, 0x80030004, b"aaaa")] in found
    assert len(found) == 14 and all((30, 0x80030000, b"BBBBbbbb") not in it for it in found)
