"""The expected output for any input, by the models of monitor_bench.py and assembly_model.py, which the arguments select. Independent of
the code under test.
"""
from models import monitor_bench
from models.assembly_model import assembled, disassembled


def of_asm(text):
    found = assembled(text)
    if isinstance(found, tuple):
        return "rvbench: line %d fault %d\n" % found, 1
    return "".join(word.to_bytes(4, "little").hex() + "\n" for word in found), 0


def of_dis(text):
    try:
        image = monitor_bench.image_of(monitor_bench.cut_at(monitor_bench.lines_of(text))[0])
    except monitor_bench.Fault as fault:
        return fault.args[0] + "\n", 1
    if len(image) % 4:
        return "rvbench: hex\n", 1
    words = [int.from_bytes(image[at:at + 4], "little") for at in range(0, len(image), 4)]
    return "".join("%08x %s\n" % (word, disassembled(word)) for word in words), 0


def answer(words, data):
    """Returns the expected output as bytes, and the status."""
    jobs = {"asm": of_asm, "dis": of_dis}
    text = data.decode("latin-1")
    output, status = jobs[words[0]](text) if words[0] in jobs else monitor_bench.wanted(text, words)
    return output.encode("latin-1"), status
