"""The report of `verify`: the findings with their inputs, the answer to each question, and what was covered."""
from __future__ import annotations

import time
from typing import List, Sequence, TYPE_CHECKING

from rvlook.output.printer import Style, hex8
from rvlook.symbolic import questions, scripts
from rvlook.symbolic.counterexample import HINT, commands, input_lines, input_objects

if TYPE_CHECKING:
    from rvlook.output.findings import ReportedCases
    from rvlook.output.printer import Printer
    from rvlook.symbolic.record import Counterexample
    from rvlook.symbolic.search import Search

STYLES = {questions.PROVED: Style.good, questions.FOUND: Style.bad}  # the styles of verdicts
VERDICT_WIDTH = 12  # columns of a verdict
HEADINGS = {  # the texts of findings that have no text of their own, by kind
    "pc": "the pc depends on the secret",
    "address": "the address depends on the secret",
    "operand": "the operand depends on the secret",
    "window": "the window depends on the secret",
    "answer": "the answer depends on the secret"}


def heading_of(search: Search, example: Counterexample) -> str:
    """Returns the first line of a finding: what was found, and the source line or symbol at which it was found."""
    text = example.text or HEADINGS.get(example.what, "")
    return "%s, at %s" % (text, search.world.place(example.pc))


def details_of(search: Search, example: Counterexample) -> List[str]:
    """Returns the lines of a finding after its heading: the step, the secrets if there are two, and the inputs."""
    times = ", %d times" % example.count if example.count > 1 else ""
    lines = ["  step %d  %08x  %s  [%s%s]" % (len(example.pcs), example.pc, search.world.symbols.name(example.pc) or "", example.answer, times)]
    if example.two:
        secrets = tuple("".join("%02x" % model["k_%08x" % at] for at in search.world.secret) for model in (example.one, example.two))
        lines.append("  secrets %s and %s" % secrets)
    return lines + input_lines(search, example)


def show(search: Search, printer: Printer, findings: ReportedCases) -> None:
    """Prints what a search has found and covered. Adds the findings, and the reasons why it is not complete, to those that decide the exit status
    (`findings`)."""
    answers = questions.answers(search)
    if search.options.scripts:
        found_findings = [finding for answer in answers for finding in answer.findings]
        scripts.write(search.options.scripts, search.world.run, found_findings, [heading_of(search, finding) for finding in found_findings])
    if printer.as_json:
        write_objects(search, answers, printer)
    else:
        print_text(search, answers, printer)
    for answer in answers:
        findings.add(answer.name, "\n".join(text_of(search, finding) for finding in answer.findings))
    unfinished = unfinished_text(search)
    if unfinished:
        findings.leave_open(unfinished, bool(questions.untrusted(search)))


def text_of(search: Search, example: Counterexample) -> str:
    """Returns a finding as one text of several lines, with its inputs."""
    return "\n".join([heading_of(search, example), *details_of(search, example)])


def unfinished_text(search: Search) -> str:
    """Returns why a search is not complete, or is not to be trusted; empty if it is complete."""
    wrong = questions.untrusted(search)
    if wrong:
        return "NOT TO BE TRUSTED: " + wrong[0]
    reasons = questions.open_texts(search)
    return "not complete: " + "; ".join(reasons) if reasons else ""


def print_text(search: Search, answers: Sequence[questions.Answer], printer: Printer) -> None:
    """Prints the findings, the answers, and what was covered."""
    number = 0  # the number of findings
    reasons = questions.open_texts(search)
    wrong = questions.untrusted(search)
    for example in (finding for answer in answers for finding in answer.findings):
        number += 1
        printer.line(printer.styled("finding %d: %s" % (number, heading_of(search, example)), Style.bad))
        for line in details_of(search, example):
            printer.line(line)
        for line in commands(search, number):
            printer.line(line)
    if number and not search.options.scripts:
        printer.line(HINT)
    for answer in answers:
        count = " %d" % len(answer.findings) if answer.findings else ""
        verdict = (answer.verdict + count).ljust(VERDICT_WIDTH)
        style = STYLES.get(answer.verdict)
        printer.line("%s %s: %s" % (printer.styled(verdict, style) if style else verdict, answer.name, answer.title))
    for answer in answers:
        for text in answer.places:
            printer.line("not decided  %s" % text)
    for text in wrong:
        printer.line(printer.styled("NOT TO BE TRUSTED: %s" % text, Style.bad))
    printer.line(covered_text(search))
    if not reasons:
        mark = "COMPLETE " if search.lengths_met else "COMPLETE: "
        printer.line(printer.styled(mark + questions.covered(search), Style.good if not number else Style.heading))
    else:
        printer.line("not complete: %s" % "; ".join(reasons))


def covered_text(search: Search) -> str:
    """Returns a line about how much was explored: paths, steps, instructions, queries and replays."""
    solver = search.solver
    return "Explored: %d paths, %d steps, %d instructions, %d merged states; %d queries to z3, %d answered by values; %d paths replayed; %.1f s" % (
        search.paths, search.steps, len(search.code), len(search.merger.merged) if search.merger else 0, solver.queries, solver.guesses,
        sum(search.replays.values()), time.perf_counter() - search.began)


def write_objects(search: Search, answers: Sequence[questions.Answer], printer: Printer) -> None:
    """Writes the findings, the answers to the questions, and what was covered as JSON objects."""
    number = 0
    for answer in answers:
        for example in answer.findings:
            number += 1
            printer.object("proof_finding", number=number, question=answer.name, what=example.what, text=heading_of(search, example),
                           step=len(example.pcs), pc=hex8(example.pc), symbol=search.world.symbols.name(example.pc),
                           source=search.world.symbols.source(example.pc), confirmed=example.answer, inputs=input_objects(search, example),
                           script="%s/finding_%d" % (search.options.scripts, number) if search.options.scripts else None)
    for answer in answers:
        printer.object("question", name=answer.name, title=answer.title, verdict=answer.verdict, findings=len(answer.findings),
                       undecided=answer.places)
    reasons = questions.open_texts(search)
    printer.object("verify", slot=search.options.slot, complete=not reasons, covered=questions.covered(search),
                   allowed=questions.allowed_texts(search), reasons=reasons, paths=search.paths, steps=search.steps,
                   instructions=len(search.code), replays=sum(search.replays.values()), queries=search.solver.queries)
