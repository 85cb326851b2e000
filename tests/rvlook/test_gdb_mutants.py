"""Mutants of the gdb server: a test detects each."""
import pytest
from support.mutants import Mutant, check_noticed, id_of

MUTANTS = (
    Mutant("watch_of_writes_halts_at_reads", "gdb/stops.py", "met = [watch for watch in self.watches if kind in watch.kinds and watch.meets(first, width)]",
           "met = [watch for watch in self.watches if watch.meets(first, width)]", "test_gdb_stops.py::test_continue_halts_at_each_break_and_watch[table]"),
    Mutant("watch_halts_after_the_access", "gdb/moves.py", "if halt.reason and not self.stops_after_watch:", "if False:",
           "test_gdb_stops.py::test_continue_halts_at_each_break_and_watch[count]"),
    Mutant("reverse_continue_goes_to_the_first_stop", "gdb/reverse.py", "position, halt = halts[-1]", "position, halt = halts[0]",
           "test_gdb_stops.py::test_continue_halts_at_each_break_and_watch[count]"),
    Mutant("edits_are_not_replayed", "protocol/timeline.py", "if first < position <= end:", "if False:", "test_gdb_edits.py::test_edit_is_replayed_at_its_step"),
    Mutant("breakpoint_is_written_to_memory", "gdb/stops.py", "        if conditions:\n",
           "        timeline.do_all(['poke %x %s' % (at + n, it) for n, it in enumerate(('73', '00', '10', '00'))])\n        if conditions:\n",
           "test_gdb_server.py::test_breakpoints_write_no_byte"),
    Mutant("other_hart_does_not_go_on", "gdb/moves.py", "turns = self.turns_of([hart, *others])", "turns = str(hart)",
           "test_gdb_harts.py::test_harts_take_turns"),
    Mutant("registers_are_those_of_the_step_before", "gdb/view.py",
           "self.values[hart] = [line.partition(\"=\")[2] for line in seen[:REGISTERS]]", "self.values[hart] = before",
           "test_gdb_server.py::test_each_step_on_and_back_has_the_registers_of_the_bench"),
    Mutant("condition_of_a_breakpoint_is_ignored", "gdb/stops.py", "        if not all(kinds):\n", "        if kinds:\n",
           "test_gdb_stops.py::test_breakpoint_with_a_condition_halts_where_it_holds"),
)


@pytest.mark.parametrize("mutant", MUTANTS, ids=id_of)
def test_mutant_is_noticed(mutant, tmp_path, bench):
    check_noticed(mutant, tmp_path, bench)
