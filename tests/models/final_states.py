"""Enumerates the states of two small endless programs in all schedules, and their final states by the definition of docs/ASK.md. Independent of
rvlook: the few instructions are executed and encoded here.

A program is a list of instructions, each a tuple with its name first: ("addi", rd, rs1, value), ("xori", rd, rs1, value), ("lw", rd, offset),
("sw", rs2, offset), ("beq", rs1, rs2, target), ("jal", target). A target is an index in the list. Loads and stores are words at DATA.
"""
DATA, ENTRY, BASE = 0x80011000, 0x80010000, 8  # BASE is the register with the address DATA
MASK = 0xFFFFFFFF
WORDS = 4  # at DATA


def immediate_b(offset):
    """Returns the bits of a branch offset."""
    return (offset >> 12 & 1) << 31 | (offset >> 5 & 63) << 25 | (offset >> 1 & 15) << 8 | (offset >> 11 & 1) << 7


def immediate_j(offset):
    """Returns the bits of a jump offset."""
    return (offset >> 20 & 1) << 31 | (offset >> 1 & 1023) << 21 | (offset >> 11 & 1) << 20 | (offset >> 12 & 255) << 12


def encoded(instruction, index):
    """Returns the word of an instruction at an index."""
    name, *rest = instruction
    if name == "lui":
        return rest[1] << 12 | rest[0] << 7 | 0x37
    if name in ("addi", "xori"):
        return (rest[2] & 0xFFF) << 20 | rest[1] << 15 | {"addi": 0, "xori": 4}[name] << 12 | rest[0] << 7 | 0x13
    if name == "lw":
        return rest[1] << 20 | BASE << 15 | 2 << 12 | rest[0] << 7 | 0x03
    if name == "sw":
        return (rest[1] >> 5) << 25 | rest[0] << 20 | BASE << 15 | 2 << 12 | (rest[1] & 31) << 7 | 0x23
    offset = 4 * (rest[-1] - index) & MASK
    if name == "jal":
        return immediate_j(offset) | 0x6F
    return immediate_b(offset) | rest[1] << 20 | rest[0] << 15 | {"beq": 0, "bne": 1}[name] << 12 | 0x63


def image_of(program):
    """Returns the bytes of a program."""
    return b"".join(encoded(it, index).to_bytes(4, "little") for index, it in enumerate(program))


def linked(first, second):
    """Returns one program of the bodies of both harts. Targets in a body are counted from its beginning."""
    head = [("lui", BASE, DATA >> 12), ("bne", 10, 0, 2 + len(first))]
    moved = lambda body, at: [(*it[:-1], it[-1] + at) if it[0] in ("beq", "jal") else it for it in body]
    return head + moved(first, 2) + moved(second, 2 + len(first))


def stepped(program, hart, memory):
    """Returns a hart and the memory after one step, and whether the step accessed memory. A hart is an index and its registers."""
    index, registers = hart
    name, *rest = program[index]
    following = index + 1
    if name == "sw":
        slot = rest[1] // 4
        return (following, registers), memory[:slot] + (registers[rest[0]],) + memory[slot + 1:], True
    if name in ("beq", "bne"):
        is_taken = (registers[rest[0]] == registers[rest[1]]) == (name == "beq")
        return (rest[2] if is_taken else following, registers), memory, False
    if name == "jal":
        return (rest[0], registers), memory, False
    value = {"lui": lambda: rest[1] << 12, "addi": lambda: registers[rest[1]] + rest[2] & MASK,
             "xori": lambda: registers[rest[1]] ^ rest[2] & MASK, "lw": lambda: memory[rest[1] // 4]}[name]()
    changed = registers if rest[0] == 0 else registers[:rest[0]] + (value,) + registers[rest[0] + 1:]
    return (following, changed), memory, name == "lw"


def explored(program):
    """Returns all states that a schedule of the harts leads to, each with its edges: hart, following state, whether memory was accessed."""
    registers = tuple([0] * 16)
    start = ((0, registers), (0, registers[:10] + (1,) + registers[11:]), (0,) * WORDS)
    edges, waiting = {}, [start]
    while waiting:
        state = waiting.pop()
        if state in edges:
            continue
        edges[state] = []
        for hart in (0, 1):
            changed, memory, accesses = stepped(program, state[hart], state[2])
            following = (changed, state[1], memory) if hart == 0 else (state[0], changed, memory)
            edges[state].append((hart, following, accesses))
            waiting.append(following)
    return edges


def components(edges):
    """Returns the strongly connected components (Kosaraju)."""
    order, seen = [], set()
    for root in edges:
        if root not in seen:
            seen.add(root)
            work = [(root, iter(edges[root]))]
            while work:
                state, rest = work[-1]
                following = next((it[1] for it in rest if it[1] not in seen), None)
                if following is None:
                    order.append(state)
                    work.pop()
                else:
                    seen.add(following)
                    work.append((following, iter(edges[following])))
    back, found, taken = {it: [] for it in edges}, [], set()
    for state, leading in edges.items():
        for _, following, _ in leading:
            back[following].append(state)
    for root in reversed(order):
        part, waiting = set(), [root]
        while waiting:
            state = waiting.pop()
            if state not in taken:
                taken.add(state)
                part.add(state)
                waiting += back[state]
        if part:
            found.append(part)
    return found


def final_states(program, registers=()):
    """Returns the final states. `registers` has pairs of a hart and a number.

    A final state has how each hart ends, the least pc of its loop if it has ended, the words at DATA, and the values of the registers."""
    edges, found = explored(program), set()
    for part in components(edges):
        inside = [(state, *edge) for state in part for edge in edges[state] if edge[1] in part]
        if {it[1] for it in inside} != {0, 1}:
            continue  # a running hart leaves these states
        is_still = all(state[2] == following[2] for state, _, following, _ in inside)
        harts = []
        for hart in (0, 1):
            if any(accesses for _, of, _, accesses in inside if of == hart):
                harts.append(("waits" if is_still else "runs on", None))
            else:
                harts.append(("ended", ENTRY + 4 * min(state[hart][0] for state in part)))
        found |= {(tuple(harts), state[2], tuple(state[hart][1][number] for hart, number in registers)) for state in part}
    return found
