"""The report of `leak`, for a pair of secrets or for each of many: the channels in which the runs differ, and where."""
from __future__ import annotations

from typing import Mapping, Sequence

from rvlook.finders.leak import CHANNELS, Difference, Observation
from rvlook.finders.leak_search import ComparedPair, Leak, TriedPairs, compare_drawn, compare_given
from rvlook.finders.secrets import Secret
from rvlook.output.findings import ReportedCases
from rvlook.output.printer import Printer, Style, counted, hex8, run_object
from rvlook.protocol.symbols import Symbols

EQUAL = {"pc": "every step continues at the same pc", "address": "every load and store has the same address",
         "operand": "every division has the same operands"}
ONLY_VERDICTS = "no two secrets with the same answer were compared; use --tries 3 or more"
FOR_ALL = "for all secrets: with the inputs of this run, no pc, address, operand of a division, window byte or answer depends on the secret"
MAX_NUMBERS = 10  # numbers of pairs that are printed


def show_leak(leak: Leak, printer: Printer, findings: ReportedCases) -> None:
    """Compares runs with one pair of secrets, or with many, and prints the result. After Ctrl-C raises KeyboardInterrupt."""
    options = leak.options
    if options.tries is not None:
        show_tries(leak, printer, findings)
        return
    pair = compare_given(leak)
    if leak.cut:
        findings.cut_short(leak.cut)
    (pair_objects if printer.as_json else pair_text)(leak, printer, pair)
    for channel in leak.channels:
        findings.add(channel, text_of_channel(leak, pair, channel))


def text_of_channel(leak: Leak, pair: ComparedPair, channel: str) -> str:
    """Returns where the runs of a pair differ in a channel; empty if they do not."""
    return "\n".join(heading_of(leak, difference, pair.secrets[0]) for difference in pair.comparison.all() if difference.channel == channel)


def show_tries(leak: Leak, printer: Printer, findings: ReportedCases) -> None:
    """Compares the run with runs that have drawn secrets, and prints the result."""
    if printer.as_json:
        run_object(printer, leak.run, leak.symbols)

    def pair_object(pair: ComparedPair) -> None:
        """Writes a pair as an object."""
        first = pair.secrets[0]
        printer.object("pair", number=pair.number, slot=first.slot, at=first.text(), bytes=[secret.bytes.hex() for secret in pair.secrets],
                       channels=pair.channels)

    tried = compare_drawn(leak, pair_object if printer.as_json else lambda it: None)
    for text in (leak.cut, tried.cut):
        if text:
            findings.cut_short(text)
    finish(leak, printer, tried, findings)
    if tried.is_interrupted:
        raise KeyboardInterrupt


def finish(leak: Leak, printer: Printer, tried: TriedPairs, findings: ReportedCases) -> None:
    """Prints the result of all pairs, and the first pair that differs. Adds the findings, one case for each pair."""
    verdicts, differing = tried.verdicts, tried.differing
    for pair in tried.pairs:
        findings.add("pair %d" % pair.number, text_of_pair(pair) if pair.number in differing else "")
    channels = sorted({channel for comparison in differing.values() for channel in comparison.channels}, key=CHANNELS.index)
    is_equal = bool(tried.pairs) and not (differing or verdicts or tried.cut or tried.is_interrupted)
    for_all = is_equal and is_for_all(leak)
    if printer.as_json:
        printer.object("leak", channels=channels, pairs=len(tried.pairs), differing=sorted(differing), with_answer=sorted(verdicts),
                       compared=leak.channels, for_all=for_all)
    else:
        print_result(leak, printer, tried, differing, verdicts)
        print_for_all(leak, printer, for_all)
    if verdicts and len(verdicts) == len(tried.pairs):
        findings.cut_short(ONLY_VERDICTS)


def is_for_all(leak: Leak) -> bool:
    """Returns whether runs that were equal are known to be equal for all secrets. No observation may have been cut by --steps."""
    return not leak.cut and leak.is_hidden(leak)


def print_for_all(leak: Leak, printer: Printer, for_all: bool) -> None:
    """Prints that the runs are equal for all secrets, if this is known."""
    if for_all:
        printer.line(FOR_ALL + (", except what --public names" if leak.options.public else ""))


def text_of_pair(pair: ComparedPair) -> str:
    """Returns the secrets of a pair and the channels in which they differ."""
    return "%s and %s differ in %s" % (*(secret.bytes.hex() for secret in pair.secrets), ", ".join(pair.channels))


def print_result(leak: Leak, printer: Printer, tried: TriedPairs, differing: Mapping[int, ComparedPair], verdicts: set[int]) -> None:
    """Prints the result of all pairs in words."""
    line = printer.line
    verdict = "%s differ with the answer: the program answers its own secret in one way, and each other secret in another" % \
        counted(len(verdicts), "pair")
    if not differing:
        others = len(tried.pairs) - len(verdicts)
        lines = [verdict] if verdicts else []
        if others:
            which = ("the other " if verdicts else "") + counted(others, "pair")
            lines.append("no difference in %s: %s" % (which, ", ".join(leak.channels)))
        line("\n".join(lines))
        return
    same = [number for number, pair in differing.items() if "answer" not in pair.channels]  # pairs with the same answer, which show more
    number = min(same or differing)
    pair = differing[number]
    is_picked = bool(same) and (min(differing) != number or bool(verdicts))  # whether an earlier pair differs too, but in the answer
    line("pair %d of %d, the first that differs%s" % (number, len(tried.pairs), " with the same answer" if is_picked else ""))
    pair_text(leak, printer, tried.again(pair))
    numbers = ", ".join(map(str, sorted(differing)[:MAX_NUMBERS])) + (", ..." if len(differing) > MAX_NUMBERS else "")
    channels = sorted({channel for comparison in differing.values() for channel in comparison.channels}, key=CHANNELS.index)
    line("%d of %s differ, in %s: %s" % (len(differing), counted(len(tried.pairs), "pair"), ", ".join(channels), numbers))
    if same and len(same) < len(differing):
        line("%d of them differ in the answer too, and may show no more than that" % (len(differing) - len(same)))
    if verdicts:
        line(verdict)


def place_text(pc: int, symbols: Symbols) -> str:
    """Returns an instruction with its symbol and source line."""
    return "  ".join(part for part in ("%08x" % pc, symbols.name(pc), symbols.line(pc)) if part)


def values_of(leak: Leak, difference: Difference, observations: Sequence[Observation]) -> list[str]:
    """Returns the two values of a difference in words."""
    if difference.channel == "pc":
        return [observation.run.reply(step)[len("ran 1 "):] for observation, step in zip(observations, difference.steps)]
    if difference.channel == "address":
        return ["%s %08x  %s" % (kind, at, leak.symbols.name(at) or "") for kind, at in difference.values]
    if difference.channel == "window":
        return ["%08x is %s  %s" % (at, value.hex(), leak.symbols.name(at) or "") for at, value in difference.values]
    if difference.channel == "answer" and isinstance(difference.values[0], tuple):
        return [" ".join([end, *("a%d=%08x" % register for register in enumerate(registers))]) for end, *registers in difference.values]
    return list(difference.values)


def pair_text(leak: Leak, printer: Printer, pair: ComparedPair) -> None:
    """Prints the comparison of one pair, channel by channel."""
    observations, comparison, (first, second) = pair.observations, pair.comparison, pair.secrets
    last, activations = observations[0].last, observations[0].activations
    printer.line("%s, from step %d, with %s and with %s at %s  %s" % (
        activations[0].world, first.step, first.bytes.hex(), second.bytes.hex(), first.text(), leak.symbols.name(first.at) or ""))
    differences = comparison.all()
    equal = {**EQUAL, "steps": "%d" % (last - first.step), "answer": "the same at " + counted(len(activations), "exit"),
             "window": "the same at every exit"}
    for channel in leak.channels:
        entries = [entry for entry in differences if entry.channel == channel]
        if not entries:
            printer.line("  %-7s equal: %s" % (channel, equal[channel]))
        for entry in entries:
            printer.line("  %-7s %s" % (channel, printer.styled(difference_text(leak, entry, first, observations), Style.bad)))
    channels = comparison.channels()
    printer.line("the runs differ in " + ", ".join(channels) if channels else "no difference in 1 pair: " + ", ".join(leak.channels))
    print_for_all(leak, printer, not channels and is_for_all(leak))


def heading_of(leak: Leak, difference: Difference, secret: Secret) -> str:
    """Returns where two runs differ."""
    if difference.channel == "steps":
        return "differ: %d and %d" % tuple(step - secret.step for step in difference.steps)
    step = "step %d" % difference.steps[0] if difference.steps[0] == difference.steps[1] else "steps %d and %d" % difference.steps
    times = ", %d times" % difference.count if difference.count > 1 else ""
    where = ", " + place_text(difference.pc, leak.symbols) if difference.pc is not None else ""
    return "differs at %s%s%s" % (step, where, times)


def difference_text(leak: Leak, difference: Difference, secret: Secret, observations: Sequence[Observation]) -> str:
    """Returns where two runs differ, with both values."""
    values = () if difference.channel == "steps" else values_of(leak, difference, observations)
    return heading_of(leak, difference, secret) + "".join("\n          " + value.rstrip() for value in values)


def pair_objects(leak: Leak, printer: Printer, pair: ComparedPair) -> None:
    """Writes the comparison of one pair as objects."""
    secrets, observations, comparison, first, symbols = pair.secrets, pair.observations, pair.comparison, pair.secrets[0], leak.symbols
    run_object(printer, leak.run, symbols)
    printer.object("secret", slot=first.slot, at=first.text(), step=first.step, bytes=[secret.bytes.hex() for secret in secrets])
    for difference in comparison.all():
        values = list(difference.values) if difference.channel == "steps" else [value.rstrip() for value in values_of(leak, difference, observations)]
        pc = difference.pc
        printer.object("difference", channel=difference.channel, step=list(difference.steps), values=values, pc=hex8(pc), count=difference.count,
                       symbol=pc and symbols.name(pc), source=pc and symbols.source(pc))
    printer.object("leak", channels=comparison.channels(), steps=[observation.last - first.step for observation in observations],
                   exits=[len(observation.activations) for observation in observations], compared=leak.channels, pairs=1,
                   for_all=not comparison.channels() and is_for_all(leak))
