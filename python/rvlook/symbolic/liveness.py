"""Finds registers that are not read any more. This only decides which paths are joined, and which words of merged loops have facts: no answer of
`verify` depends on it."""
from __future__ import annotations

from typing import List, Set, Tuple, TYPE_CHECKING

from rvlook.finders.inputs.code import LINKS
from rvlook.symbolic.decode import Decoded, decode
from rvlook.symbolic.nodes import M32

if TYPE_CHECKING:
    from rvlook.symbolic.flow import Flows

MAX_EXAMINED = 400  # if no read or write is found within so many instructions, a register counts as read
ARGUMENTS = range(10, 18)  # a0 to a7 of the calling convention; a0 and a1 have the results of a call
TEMPORARIES = (1, 5, 6, 7, 28, 29, 30, 31)  # ra and t0 to t6, which a call may change
TWO_REGISTERS = ("op", "store", "branch")  # kinds of instructions that read two registers
ONE_REGISTER = ("imm", "load", "jalr", "csr")  # kinds that read one register


def reads(instruction: Decoded, register: int, is_saved: bool) -> bool:
    """Returns whether an instruction reads a register. An `ecall` reads its arguments. If `is_saved`, it reads all registers, since the monitor saves
    them."""
    if instruction.kind == "ecall":
        return is_saved or register in ARGUMENTS
    if instruction.kind in TWO_REGISTERS:
        return register in (instruction.rs1, instruction.rs2)
    if instruction.kind in ONE_REGISTER:
        return register == instruction.rs1
    return instruction.kind in ("sret", "illegal")  # the code at the target may read each register


def is_read(flows: Flows, pc: int, register: int, is_saved: bool = True) -> bool:
    """Returns whether a register may be read from a pc on before it is written. Calls keep to the calling convention. `is_saved` says whether an
    `ecall` reads all registers."""
    stack: List[Tuple[int, int]] = [(pc, 0)]  # pcs, each with the number of calls around it
    seen: Set[Tuple[int, int]] = set()
    while stack:
        at, depth = stack.pop()
        if (at, depth) in seen:
            continue
        seen.add((at, depth))
        following_and_call = flows.next_of(at)
        if following_and_call is None or len(seen) > MAX_EXAMINED:
            return True
        following, is_call = following_and_call
        offset = at - flows.low
        instruction = decode(int.from_bytes(bytes(flows.memory[offset:offset + 4]), "little"))
        if reads(instruction, register, is_saved):
            return True
        if instruction.rd == register and instruction.kind not in ("ecall", "sret"):
            continue
        if instruction.kind == "jalr" and instruction.rd == 0 and not following:  # a return, or a jump
            is_return = instruction.rs1 in LINKS
            may_be_read_by_caller = register not in TEMPORARIES and register not in ARGUMENTS[2:]
            if not is_return or (depth == 0 and may_be_read_by_caller):
                return True
            continue
        if is_call and instruction.kind in ("jal", "jalr"):
            if register in ARGUMENTS:  # the function that is called may read it
                if instruction.kind == "jalr":
                    return True
                stack.append((at + instruction.imm & M32, depth + 1))
                continue
            if register in TEMPORARIES:
                continue
        stack += [(successor, depth) for successor in following]
    return False
