"""A case of two harts: like those of one bench or of two benches, with --harts."""
from generators.monitor_case import Case
from models.monitor_model import HOST_ENTRY
from generators.twin_case import TwinCase

CODE_OF = (HOST_ENTRY + 4, HOST_ENTRY + 0x400)  # where the host of each hart continues after they separate


def divided(case):
    """Sends each hart from the common first instruction to code of its own."""
    case.place(HOST_ENTRY, "jalr", 0, 0, 31)
    for hart, start in enumerate(CODE_OF):
        case.on(hart)
        case.set(31, start)
    case.say("sched 01")
    case.on(0)
    return case


class HartsCase(Case):
    def __init__(self, topic, name, harts=2):
        super().__init__(topic, name, harts=harts)
        self.topic = "harts_" + topic


class HartsTwinCase(TwinCase):
    def __init__(self, name, slot=0, harts=2):
        super().__init__("", name, slot, harts=harts)
        self.topic = "harts_twin"
