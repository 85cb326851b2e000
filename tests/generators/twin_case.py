"""A case of two benches: its input, and the replies of the model in monitor_bench.py. Until the benches differ it is a case of the monitored
profile; after that each line goes to both.
"""
from models.monitor_bench import Twins, twin_output, wanted
from generators.monitor_case import CODE, MEMORY, Case, input_of


class TwinCase(Case):
    """The options follow twin. `is_over` is true after the run has ended by itself."""

    def __init__(self, topic, name, slot=0, ram=MEMORY, harts=1):
        self.twins, self.is_over, self.slot = None, False, slot
        super().__init__(topic, name, ram, harts)
        self.topic = "twin_" + topic

    @property
    def machine(self):
        return self.twins.one.machine if self.twins else self.bench.machine

    def files(self):
        if self.twins is None:
            self.apart()
        stdin = input_of(self.digits(), self.script)
        words = ["twin"] + (["--slot", str(self.slot)] if self.slot else []) + self.options()
        stdout = "".join(it + "\n" for it in self.replies + ([] if self.is_over else ["twin end %d" % self.twins.count]))
        assert twin_output(stdin, self.slot, **self.setup) == (stdout, 0), self.name  # with all of the code there from the start
        return {"args": "".join(it + "\n" for it in words), "stdin": stdin, "stdout": stdout}

    # ---- lines

    def apart(self, is_there=True):
        """Adds the line between the scripts; checks whether an enclave gets another secret."""
        self.script.append("--")
        self.twins = Twins(self.bench, self.slot)
        assert self.twins.is_apart == is_there, self.name
        if not is_there:
            self.replies.append("twin no slot")
            self.is_over = True

    def given(self, line):
        if self.is_over or not self.twins:
            return [] if self.is_over else self.bench.replies(line)
        replies, self.is_over = self.twins.replies(line)
        one, other = ([it[3:] for it in replies if it.startswith(mark)] for mark in ("a: ", "b: "))
        assert one == other, (self.name, line, replies)  # isolation
        return replies

    def both(self, line, *replies):
        """Adds a line with the same handwritten replies of both benches."""
        self.wants(line, *(mark + it for mark in ("a: ", "b: ") for it in replies))

    def enters(self, line):
        """Adds a line that ends the run, since it enters the enclave."""
        self.wants(line, "twin entered %d" % (self.twins.count + 1))
        assert self.is_over, self.name

    # ---- code, and equality

    def place(self, address, *instruction):
        super().place(address, *instruction)
        if self.twins and address in CODE:  # in the image of both from the start
            self.twins.other.machine.put(address, self.machine.part(address, 4))

    def are_equal(self):
        """Returns whether the benches are equal in every part."""
        return state_of(self.twins.one) == state_of(self.twins.other)


class WholeTwins:
    """A case of arguments and an input. Its output is that of the model, with the given start and end. The model accepts no malformed image; the
    output is then only `starts`."""

    def __init__(self, topic, name, stdin, options=(), starts="", ends="", status=0, is_text=True):
        self.topic, self.name, self.stdin, self.words = "twin_" + topic, name, stdin, ["twin", *options]
        assert not is_text or all(len(line) <= 120 for line in stdin.split("--")[0].split("\n")), name
        self.stdout, self.status = wanted(stdin, self.words) if is_text else (starts, status)
        assert self.stdout.startswith(starts) and self.stdout.endswith(ends) and self.status == status, (name, self.stdout)
        Case.all.append(self)

    def files(self):
        return {"args": "".join(it + "\n" for it in self.words), "stdin": self.stdin, "stdout": self.stdout,
                "status": "%d\n" % self.status}


def state_of(bench):
    """Returns the state of a bench as plain values, without cached verdicts."""
    def plain(value):
        if isinstance(value, dict):
            return {key: plain(it) for key, it in value.items() if key not in ("verdicts", "peers")}
        return plain(vars(value)) if hasattr(value, "__dict__") else [plain(it) for it in value] if isinstance(value, list) else value
    return plain([vars(bench), *map(vars, bench.harts)])
