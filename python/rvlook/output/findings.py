"""The findings of a subcommand, as its exit status and as a JUnit report with a test case for each check."""
from __future__ import annotations

import os
import time
from typing import Any, NamedTuple

from rvlook.errors import FOUND, REFUSED, UNFINISHED, Unfinished, error as report_error, package_missing, warn
from rvlook.escapes import visible
from rvlook.output.files import replace_by


class Case(NamedTuple):
    """A check of a subcommand, with its finding if it has one."""
    name: str  # the name of the check
    finding: str = ""  # empty if there is none
    seconds: float = 0  # the seconds that the check took


class ReportedCases:
    """The cases of one subcommand, and what kept it from finishing."""

    def __init__(self) -> None:
        self.cases: list[Case] = []  # the cases in order
        self.refused: list[str] = []  # lines of the script that the bench refused
        self.cut = ""  # why the subcommand could not finish; empty if it did
        self.distrusted = False  # whether the result cannot be trusted
        self.program_status = 0  # the exit status of a program that was run
        self.since = time.monotonic()  # when the last case was added

    def add(self, name: str, finding: str = "") -> None:
        """Adds a case. Its time is that since the last one."""
        self.cases.append(Case(name, finding, self.seconds()))

    def seconds(self) -> float:
        """Returns the seconds since the last call of this method, or since this object was made."""
        before, self.since = self.since, time.monotonic()
        return self.since - before

    def refuse(self, line: str) -> None:
        """Notes a line of the script that the bench refused."""
        report_error(line)
        self.refused.append(line)

    def cut_short(self, line: str) -> None:
        """Notes that not everything was examined; the line says why."""
        warn(line)
        self.cut = line

    def leave_open(self, line: str, is_distrusted: bool = False) -> None:
        """Notes that a question has no answer, without a warning: the output says it already. If `is_distrusted`, the status ignores the findings."""
        self.cut, self.distrusted = line, is_distrusted

    def status(self, is_report: bool) -> int:
        """Returns the exit status. A report (--exit-zero) does not count what was found. The status of a program that was run counts more than what
        was found in its run."""
        if self.refused:
            return REFUSED
        if self.program_status:
            return self.program_status
        if self.distrusted:
            return UNFINISHED
        if any(case.finding for case in self.cases) and not is_report:
            return FOUND
        return UNFINISHED if self.cut else 0


def check_junit(path: str | None) -> None:
    """Checks that a JUnit report can be written, before the work is done."""
    if path is not None:
        try:
            import junitparser  # noqa: F401
        except ImportError:
            raise Unfinished(package_missing("junitparser", "python3-junitparser", "--junit cannot write its report")) from None


def write_junit(path: str, name: str, findings: ReportedCases, error: str = "") -> None:
    """Writes one test suite, with at least one case. A finding is a failure; a refused line, why the work was cut short, and `error` are errors."""
    from junitparser import Error, Failure, JUnitXml, TestCase, TestSuite
    suite = TestSuite("rvlook " + name)
    for case in findings.cases:
        suite.add_testcase(case_of(TestCase(visible(case.name), classname="rvlook." + name, time=case.seconds), Failure, case.finding))
    errors = dict.fromkeys(text for text in (*findings.refused, findings.cut, error) if text)
    for text in errors or ([] if findings.cases else [""]):
        suite.add_testcase(case_of(TestCase("the run", classname="rvlook." + name, time=findings.seconds()), Error, text))
    report = JUnitXml()
    report.add_testsuite(suite)
    report.update_statistics()
    try:
        if os.path.exists(path) and not os.path.isfile(path):  # a device or pipe
            report.write(path, pretty=True)
        else:
            replace_by(path, lambda it: report.write(it, pretty=True))
    except OSError as fault:
        raise Unfinished("cannot write '%s': %s" % (path, fault.strerror)) from None


def case_of(case: Any, kind: Any, text: str) -> Any:
    """Returns the test case with its result, if it has one: the first line is the message. XML holds no control characters."""
    if text:
        lines = [visible(line) for line in text.split("\n")]
        result = kind(lines[0])
        result.text = "\n".join(lines)
        case.result = [result]
    return case
