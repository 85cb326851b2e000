"""Sessions with the installed debuggers. The sessions of docs/DEBUGGER.md are repeated: each command prints the lines below it, where `...` matches
any lines. One session with gdb's machine interface and one with the Debug Adapter Protocol act like an editor."""
import json
import os
import re
import shutil
import subprocess

import pytest
from support.limits import HANG

from conftest import EXAMPLES, ROOT

PAGE = (ROOT / "docs" / "DEBUGGER.md").read_text(encoding="utf-8")
GDB, LLDB, ADAPTER = "gdb-multiarch", "lldb-14", "lldb-vscode-14"
# The settings with which the debuggers wait for a reply of the server.
GDB_WAITS, LLDB_WAITS = "remotetimeout %d" % HANG, "settings set plugin.process.gdb-remote.packet-timeout %d" % HANG
PLAIN = [it for words in ("style enabled off", "width 0", "height 0", "confirm off", "filename-display basename")
         for it in ("-iex", "set " + words)]
BUILT = {"hmac.elf": "enclaves/hmac", "two_harts.elf": "enclaves/two_harts"}
HEAD = re.compile(r"^    (?!\().*\./rvlook gdb (?:--port \d+ )?((?:--\S+ (?:\d+ )?)*)(\S+\.elf).*\n", re.M)
STEP = re.compile(r"    \((gdb|lldb)\) (.*)\n((?:    (?!\((?:gdb|lldb)\) ).*\n|\n(?=    (?!\((?:gdb|lldb)\) )))*)")


def sessions_of(text):
    """The sessions of a page: the file, the options of the server, and the commands, each with its debugger and what it prints. A command
    line without a session below it is left out."""
    heads = list(HEAD.finditer(text))
    for head, end in zip(heads, [it.start() for it in heads[1:]] + [len(text)]):
        steps = STEP.findall(text[head.end():end])
        if steps:
            yield head[2], head[1].strip(), steps


SESSIONS = list(sessions_of(PAGE))


@pytest.fixture(scope="module")
def folder(tmp_path_factory):
    """A folder with the programs of the page, built by clang 14 as there."""
    version = subprocess.run(["clang", "--version"], capture_output=True, text=True, check=False).stdout if shutil.which("clang") else ""
    if "version 14." not in version or not shutil.which("ld.lld"):
        pytest.skip("clang 14 and lld are not installed")
    path = tmp_path_factory.mktemp("sessions")
    shutil.copytree(EXAMPLES, path / "examples")
    for name in ("rvlook", "python"):
        (path / name).symlink_to(ROOT / name)
    for file, example in BUILT.items():
        subprocess.run([path / "examples" / "build", example, path / file], check=True, capture_output=True)
    return path


@pytest.fixture
def environment(bench):
    return {**os.environ, "RVBENCH": bench}


@pytest.fixture
def server(folder, environment):
    """Starts a server at a port; gives the process and the port."""
    started = []

    def start(file, words):
        process = subprocess.Popen(["./rvlook", "gdb", "--port", "0", *words.split(), file], cwd=folder, env=environment, stderr=subprocess.PIPE,
                                   text=True)
        started.append(process)
        return process, process.stderr.readline().strip().split(":")[-1]
    yield start
    for it in started:
        if it.poll() is None:
            it.kill()
            it.wait()
        it.stderr.close()


def need(tool):
    if not shutil.which(tool):
        pytest.skip("%s is not installed" % tool)


def printed(words, folder, environment, lines):
    """Returns the output of a program for these lines of input."""
    return subprocess.run(words, cwd=folder, env=environment, text=True, input="".join(it + "\n" for it in lines), stdout=subprocess.PIPE,
                          stderr=subprocess.STDOUT, timeout=HANG, check=False).stdout


def printed_by_gdb(folder, environment, file, words, commands):
    """Returns the output of gdb for each command."""
    target = "target remote | ./rvlook gdb %s %s" % (words, file)
    command = [GDB, "-q", "-nx", *PLAIN, "-x", "python/rvlook/gdb/client.py", file, "-ex", "set %s" % GDB_WAITS, "-ex", target]
    return printed(command, folder, environment, commands).split("(gdb) ")[1:len(commands) + 1]


def printed_by_lldb(folder, server, file, words, commands):
    """Returns the output of lldb for each command; the server ends with it."""
    process, port = server(file, words)
    asked = [it for command in (LLDB_WAITS, "gdb-remote localhost:" + port, *commands) for it in ("-o", command)]
    done = subprocess.run([LLDB, "--no-lldbinit", "--no-use-colors", "--batch", *asked, file], cwd=folder, text=True, stdout=subprocess.PIPE,
                          stderr=subprocess.DEVNULL, timeout=HANG, check=False)
    assert process.wait(HANG) == 0
    return [it.partition("\n")[2] for it in done.stdout.split("(lldb) ")[4:]]


def lines_of(text):
    return [line.rstrip() for line in text.splitlines() if line.strip()]


def pattern_of(shown):
    """The lines of a session as a pattern."""
    return "".join("(?:.*\n)*?" if line.strip() == "..." else re.escape(line) + "\n" for line in lines_of(shown))


@pytest.mark.parametrize("place", range(len(SESSIONS)), ids=["%d-%s-%s" % (at, it[2][0][0], it[0]) for at, it in enumerate(SESSIONS)])
def test_session_of_the_page_prints_what_it_shows(folder, environment, server, place):
    file, words, steps = SESSIONS[place]
    commands = [command for _, command, _ in steps]
    if steps[0][0] == "gdb":
        need(GDB)
        found = printed_by_gdb(folder, environment, file, words, commands)
    else:
        need(LLDB)
        found = printed_by_lldb(folder, server, file, words, commands)
    assert len(found) == len(steps)
    for (_, command, shown), text in zip(steps, found):
        wanted = pattern_of("".join(line[4:] + "\n" for line in shown.splitlines()))
        assert re.fullmatch(wanted, "".join(line + "\n" for line in lines_of(text))), "%s prints %r" % (command, text)


def test_page_has_sessions():
    assert len(SESSIONS) > 2


def test_session_of_the_readme_is_in_the_page():
    parts = re.findall(r"(?:^    .*\n)+", (ROOT / "README.md").read_text(encoding="utf-8"), re.M)
    (shown,) = [it for it in parts if "    (gdb) " in it]
    assert re.search("(?:.*\n)*?".join(re.escape(line) + "\n" for line in lines_of(shown)), PAGE)


class Adapter:
    """A client of the Debug Adapter Protocol."""

    def __init__(self, folder):
        self.process = subprocess.Popen([ADAPTER], cwd=folder, stdin=subprocess.PIPE, stdout=subprocess.PIPE, stderr=subprocess.DEVNULL)
        self.number = 0

    def receive(self):
        size = 0
        for line in iter(lambda: self.process.stdout.readline().strip(), b""):
            size = int(line.split(b":")[1])
        return json.loads(self.process.stdout.read(size))

    def until(self, is_wanted):
        """Returns the next message that is wanted."""
        while True:
            message = self.receive()
            if is_wanted(message):
                return message

    def send(self, command, **arguments):
        self.number += 1
        data = json.dumps({"seq": self.number, "type": "request", "command": command, "arguments": arguments}).encode()
        self.process.stdin.write(b"Content-Length: %d\r\n\r\n" % len(data) + data)
        self.process.stdin.flush()

    def ask(self, command, **arguments):
        """Returns the body of the answer to a request."""
        self.send(command, **arguments)
        return self.until(lambda it: it["type"] == "response" and it["command"] == command).get("body")

    def go(self, command):
        """Lets the program run; returns the function, the file and the line where it halts."""
        self.send(command, threadId=1)
        self.until(lambda it: it.get("event") == "stopped")
        frame = self.ask("stackTrace", threadId=1)["stackFrames"][0]
        return frame["name"], os.path.basename(frame["source"]["path"]), frame["line"]


def test_editor_debugs_by_the_debug_adapter_protocol(folder, server):
    need(ADAPTER)
    process, port = server("hmac.elf", "--monitor")
    adapter = Adapter(folder)
    adapter.ask("initialize", adapterID="lldb", linesStartAt1=True, columnsStartAt1=True, pathFormat="path")
    adapter.send("attach", program="hmac.elf", attachCommands=[LLDB_WAITS, "gdb-remote localhost:" + port], stopOnEntry=True)
    adapter.until(lambda it: it.get("event") == "initialized")
    source = str(folder / "examples" / "enclaves" / "hmac" / "application.c")
    found = adapter.ask("setBreakpoints", source={"path": source}, breakpoints=[{"line": 24}])
    assert found["breakpoints"][0]["verified"]
    adapter.ask("configurationDone")
    adapter.until(lambda it: it.get("event") == "stopped")
    assert adapter.go("continue")[1:] == ("application.c", 24)
    frame = adapter.ask("stackTrace", threadId=1)["stackFrames"][0]["id"]
    assert adapter.ask("evaluate", expression="length", frameId=frame, context="watch")["result"] == "14"
    assert adapter.go("stepIn")[0].split("(")[0] == "begin_with_key"
    adapter.ask("disconnect")
    adapter.process.stdin.close()
    adapter.process.stdout.close()
    assert adapter.process.wait(HANG) is not None
    assert process.wait(HANG) == 0


def test_editor_debugs_by_the_machine_interface(folder, environment, server):
    need(GDB)
    process, port = server("hmac.elf", "--monitor")
    asked = ["-gdb-set %s" % GDB_WAITS, "-target-select remote localhost:" + port, "-break-insert authenticate", "-exec-continue",
             "-stack-list-frames", "-data-evaluate-expression length", "-exec-next", "-exec-step-instruction --reverse", "-gdb-exit"]
    done = printed([GDB, "-q", "-nx", "-i=mi", "-x", "python/rvlook/gdb/client.py", "hmac.elf"], folder, environment, asked)
    for text in ('reason="breakpoint-hit"', 'func="authenticate"', 'func="main"', 'value="14"', 'reason="end-stepping-range"', "^exit"):
        assert text in done
    assert process.wait(HANG) == 0
