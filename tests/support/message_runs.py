"""Ways to run rvlook for the cases of messages. Each returns the status and the lines on standard error."""
import os
import pty
import shutil
import signal
import subprocess
import sys
import time
from pathlib import Path

from support.limits import HANG

FULL = 'exec "$0" "$@" > /dev/full'
PATCHED = """import sys
sys.path[0] = %r
import rvlook.finders.races.machine as machine, rvlook.finders.races.replay as replay, rvlook.trace.tracer as trace
%s
from rvlook.__main__ import main
sys.exit(main(sys.argv[1:]))
"""
# Patches that break an assumption which rvlook checks at run time. No input can break it.
OTHERWISE = """
class Forgetful(dict):
    def setdefault(self, key, value):
        return None
decode_step = machine.RaceMachine.decode_step
def forgetful(self, *more):
    self.results = Forgetful(self.results)
    return decode_step(self, *more)
machine.RaceMachine.decode_step = forgetful
"""
MORE = "operands = machine.operands; machine.operands = lambda word: operands(word)._replace(writes=0)"
NEVER_BACK = """
from rvlook.finders.races import search as races_search
loop_of = races_search.loop_of
races_search.loop_of = lambda *more: (loop_of(*more)[0], None)
"""
ORDER = """
import itertools
ram, numbers = replay.Replays.ram, itertools.count()
replay.Replays.ram = lambda self, bench: [*ram(self, bench)[:-1], str(next(numbers))]
"""
KILLED = "from rvlook.protocol import jobs; import os; jobs.ignore_interrupts = lambda: os.kill(os.getpid(), 9)"
ONE_SCRIPT = """
from rvlook.monitors import conform
tasks_of = conform.tasks_of
conform.tasks_of = lambda *more: tasks_of(*more)[:1]
"""
CUT_PAIR = """
import rvlook.monitors.twins as twins
twins.TwinRuns.compare = lambda self: self.result("", 7, why_cut="first then continues at 80014000 in one run, and at 80014004 in the other")
"""
MANY_VECTORS = "import rvlook.monitors.guarded as guarded; guarded.entries_of = lambda mtvec: range(0x80000000, 0x80000100, 4)"
ACCESS = "import rvlook.finders.inputs.report as scripts; scripts.access_of = lambda *more: (0, 0)"
# The alarm of the time limit comes during the first replay, which takes longer.
LATE_REPLAY = """
import signal, time
import rvlook.finders.inputs.report as inputs_report
with_old_values = inputs_report.with_old_values
inputs_report.with_old_values = lambda *more: (signal.setitimer(signal.ITIMER_REAL, 0.1), time.sleep(30), with_old_values(*more))[2]
"""
REGISTERS = """
traced = trace.traced
def changing(number, hart_number, hart, *more):
    done = traced(number, hart_number, hart, *more)
    hart.registers = [*hart.registers[:31], "changed"]
    return done
trace.traced = changing
"""


class Runs:
    """Runs the rvlook of a folder, with the built program."""

    def __init__(self, look, root, bench):
        self.look, self.root, self.bench = look, root, bench
        self.environment = {**os.environ, "RVBENCH": bench, "TERM": "dumb", "PYTHONDONTWRITEBYTECODE": "1"}
        self.unset = {name: value for name, value in self.environment.items() if name != "RVBENCH"}

    def ended(self, command, env=None, stdin=subprocess.DEVNULL, stdout=subprocess.DEVNULL, **more):
        done = subprocess.run([str(it) for it in command], stdin=stdin, stdout=stdout, stderr=subprocess.PIPE, text=True, errors="replace",
                              env=env or self.environment, check=False, **{"cwd": self.root, **more})
        return done.returncode, done.stderr.splitlines()

    def run(self, words, shell=None, **environment):
        """Runs a command line, or a shell line that contains it as `"$0" "$@"`."""
        before = [] if shell is None else ["bash", "-o", "pipefail", "-c", shell]
        return self.ended([*before, self.look, *words], env={**self.environment, **environment})

    def patched(self, code, words, **more):
        """Runs rvlook with a patch."""
        return self.ended([sys.executable, "-B", "-c", PATCHED % (str(Path(self.root, "python")), code), *words], **more)

    def typed(self, words):
        """Runs it with a terminal as standard input."""
        ours, theirs = pty.openpty()
        found = self.ended([self.look, *words], stdin=theirs)
        os.close(ours)
        os.close(theirs)
        return found

    def unread(self, words):
        """Runs it with an output pipe whose reading end is closed."""
        reading, writing = os.pipe()
        os.close(reading)
        found = self.ended([self.look, *words], stdout=writing)
        os.close(writing)
        return found

    def stopped(self, words, wanted=""):
        """Runs it, and sends SIGINT while it works. The signal comes too early if rvlook has not started, if Python drops it in a finalizer, or
        if the wanted text is not among the errors. It comes too late if the work has ended. Both are tried again."""
        pause = .4
        for _ in range(12):
            with subprocess.Popen([self.look, *map(str, words)], cwd=self.root, stdin=subprocess.PIPE, stdout=subprocess.DEVNULL,
                                  stderr=subprocess.PIPE, text=True, env=self.environment,
                                  preexec_fn=lambda: signal.signal(signal.SIGINT, signal.default_int_handler)) as process:
                time.sleep(pause)
                has_ended = process.poll() is not None
                process.send_signal(signal.SIGINT)
                _, errors = process.communicate(timeout=HANG)
            is_late = process.returncode != -signal.SIGINT and "Exception ignored" not in errors and wanted in errors
            if is_late and not has_ended:
                break
            pause *= .7 if has_ended else 2
        return process.returncode, errors.splitlines()

    def in_clone(self, folder, names, image):
        """Runs `map` in a clone with only these files, without RVBENCH."""
        for name in names:
            source = Path(self.root, name)
            (shutil.copytree if source.is_dir() else shutil.copy)(source, folder / name)
        return lambda: self.ended([folder / "rvlook", "map", image], env=self.unset, cwd=folder)

    def in_folder(self, folder, *words):
        """Runs it in a clone in this folder, which is made."""
        folder.mkdir()
        self.in_clone(folder, ("python", "rvlook", "examples"), None)
        return self.ended([folder / "rvlook", *words], cwd=folder)

    def unbuilt(self, folder, image):
        """Runs it in a clone in which tools/program fails."""
        run = self.in_clone(folder, ("python", "rvlook"), image)
        (folder / "tools").mkdir()
        (folder / "tools" / "program").symlink_to("/bin/false")
        return run()

    def installed(self, folder, *words):
        """Runs the package outside a clone, with no program on the PATH."""
        shutil.copytree(Path(self.root, "python"), folder / "a" / "b" / "python")
        code = "import sys; sys.path[0] = %r; from rvlook.__main__ import main; sys.exit(main(sys.argv[1:]))" % str(folder / "a" / "b" / "python")
        return self.ended([sys.executable, "-B", "-c", code, *words], env={**self.unset, "PATH": "/usr/bin:/bin"}, cwd=folder)

    def unproved(self, folder, image):
        """Runs it in a clone with an unproved program, which is a copy of the built one."""
        run = self.in_clone(folder, ("python", "tools", "rvlook"), image)
        (folder / "crates" / "rvbench" / "out").mkdir(parents=True)
        (folder / "crates.txt").touch()
        shutil.copy(self.bench, folder / "crates" / "rvbench" / "out" / "unproved")
        return run()
