"""Loads and stores of the region and of the window: numbers, expressions, inputs of the host, and outputs."""
from __future__ import annotations

from typing import List, Optional, Tuple

from rvlook.errors import RvlookError
from rvlook.symbolic.accesses import AccessState
from rvlook.symbolic.conditions import choice8, element, eq, ult
from rvlook.symbolic.extents import Extent
from rvlook.symbolic.fields import PathEnded, Load, Store
from rvlook.symbolic.nodes import CHECK, INPUT, M32, SECRET, Byte, Node, Word, signed, variable
from rvlook.symbolic.origins import NO_ORIGIN, How, Origin, Tag, register_tag
from rvlook.symbolic.words import byte, extended, not_, parts_of, plain, word

MAX_TABLE_BYTES = 4096  # the size of the largest object from which a load at an index becomes one expression over all bytes of the object
MAX_CHOICE_BYTES = 1024  # the size of the largest object in which a store at an index makes each byte a choice between its old and new value
A0 = 10  # the number of the register with the first argument of `any_bytes`


def assemble(loaded_bytes: List[Byte], width: int, is_signed: bool) -> Word:
    """Returns the word that a load puts into its register. `loaded_bytes` has the `width` bytes in memory, the lowest first."""
    if width == 4:
        return word(*loaded_bytes)
    if is_signed:
        return extended(loaded_bytes[0], loaded_bytes[-1], width)
    return word(loaded_bytes[0], loaded_bytes[1] if width == 2 else 0, 0, 0)


class MemoryState(AccessState):
    """The state of a path, with loads and stores of the region and the window."""
    __slots__ = ()

    # ---- the region, at numbers

    def load(self, at: int, width: int, is_signed: bool) -> Word:
        """Loads `width` bytes of the region or the window at an address that is a number. Returns the word for the register."""
        low, high = self.search.world.region
        if not (low <= at and at + width <= high):
            return assemble(self.load_window(at, width, at), width, is_signed)
        symbolic_bytes, region_bytes = self.symbolic_bytes, self.region_bytes
        expressions = [symbolic_bytes.get(at + n) for n in range(width)] if symbolic_bytes else []  # None for a byte that is a number
        offset = at - low
        if not any(expressions):
            value = int.from_bytes(region_bytes[offset:offset + width], "little")
            return signed(value, 8 * width) & M32 if is_signed else value
        first = expressions[0]
        if width == 4 and type(first) is tuple and first[0].parts == tuple(expressions):
            return first[0]  # the word that was stored as a whole
        loaded_bytes = [region_bytes[offset + n] if content is None else plain(content) for n, content in enumerate(expressions)]
        return assemble(loaded_bytes, width, is_signed)

    def store(self, at: int, width: int, value: Word, tag: Tag = None) -> None:
        """Stores the lower `width` bytes of a word to the region or the window, at an address that is a number. `tag` is the origin of the word."""
        low, high = self.search.world.region
        if not (low <= at and at + width <= high):
            self.store_window(at, width, value, at)
            return
        self.search.note_written(self, at, width, is_word=width == 4)
        if type(value) is int:
            lower_bytes = value & (1 << 8 * width) - 1
            self.region_bytes[at - low:at - low + width] = lower_bytes.to_bytes(width, "little")
            if self.symbolic_bytes:
                for n in range(width):
                    self.symbolic_bytes.pop(at + n, None)
        elif width == 4 and value.op != "word":  # a word that is loaded again as a whole needs no nodes for its bytes (`words.parts_of`)
            self.symbolic_bytes[at], self.symbolic_bytes[at + 1], self.symbolic_bytes[at + 2], self.symbolic_bytes[at + 3] = parts_of(value)
        else:
            for n in range(width):
                self.put(at + n, byte(value, n))
        self.note_origin(at, width, value, tag)

    def put(self, at: int, value: Byte) -> None:
        """Sets the byte of the region at an address to a number or an expression."""
        if type(value) is int:
            self.region_bytes[at - self.search.world.region[0]] = value
            self.symbolic_bytes.pop(at, None)
        else:
            self.symbolic_bytes[at] = value

    # ---- origins of words in memory

    def note_origin(self, at: int, width: int, value: Word, tag: Tag) -> None:
        """Records the origin (`tag`) of the value that is stored at `at`. A word without an origin gets NO_ORIGIN if it may be a pointer: if it is an
        expression, or looks like a pointer. If only a part of a word is stored, the word gets NO_ORIGIN if it had an origin or looks like a
        pointer."""
        tags = self.mem_tags
        if width == 4 and not at & 3:
            if tag is not None:
                tags[at] = tag
            elif type(value) is int and not self.search.world.is_pointer(value):
                tags.pop(at, None)
            else:
                tags[at] = NO_ORIGIN
            return
        first_word, last_word = at & -4, at + width - 1 & -4
        for place in {first_word, last_word}:
            if place in tags or self.looks_like_pointer(place):
                tags[place] = NO_ORIGIN

    def looks_like_pointer(self, at: int) -> bool:
        """Returns whether the number at an address of the region is an address of the region or the window. A byte that is an expression counts with
        the last number that was stored there."""
        world = self.search.world
        low, high = world.region
        return at + 4 <= high and world.is_pointer(int.from_bytes(self.region_bytes[at - low:at - low + 4], "little"))

    def origin_at(self, at: int, value: Word) -> Tag:
        """Returns the origin of the word `value` that was loaded at the address `at`. A pointer in the data of the image is its own origin."""
        if at & 3:
            return None
        if at in self.mem_tags:
            return register_tag(self.mem_tags[at])
        world = self.search.world
        if type(value) is int and world.region[0] <= at < world.region[1] and world.is_pointer(value):
            return Origin(How.MEMORY, value)
        return None

    def has_pointers(self, low: int, high: int) -> bool:
        """Returns whether the object from `low` up to before `high` contains a pointer. A word that is loaded at an index may then be one of several
        pointers."""
        first_aligned = low + 3 & -4
        for at in range(first_aligned, high - 3, 4):
            tag = self.mem_tags.get(at)
            if tag is not NO_ORIGIN and (tag is not None or self.looks_like_pointer(at)):
                return True
        return False

    # ---- the window

    def load_window(self, number: int, width: int, address: Word) -> List[Byte]:
        """Loads `width` bytes of the window. Each byte is a new input, unless --given names it. With --calm, a byte that this activation has loaded
        or stored before keeps its value. `address` may be an expression, and `number` is its value in the model."""
        search = self.search
        base = search.world.window[0]
        is_number = type(address) is int
        is_calm = is_number and search.options.calm
        if is_calm and all(number + n in self.calm_window for n in range(width)):
            return [self.calm_window[number + n] for n in range(width)]
        if is_number and search.is_given(number, width):
            return self.load_given(number, width)
        window_bytes: List[Byte] = []
        names: List[Tuple[int, str]] = []  # the new inputs: offsets and variables
        for n in range(width):
            if is_calm and number + n in self.calm_window:
                window_bytes.append(self.calm_window[number + n])
                continue
            name = "i%d_%d" % (self.input_count, n)
            self.set_value(name, self.window_memory[number + n - base])
            input_byte = variable(name, INPUT)
            names.append((n, name))
            window_bytes.append(input_byte)
            if is_calm:
                self.calm_window[number + n] = input_byte
        self.loads.append(Load(self.steps, address, tuple(names)))
        self.input_count += 1
        search.note_fetch(self, address, width, names)
        if is_number and number in search.world.lengths:
            self.limit_length(number, assemble(window_bytes, width, is_signed=False))
        return window_bytes

    def set_value(self, name: str, value: int) -> None:
        """Sets the value of a variable in the model."""
        if self.model.get(name) != value:
            if name in self.model:
                self.memo = {}
            self.model = {**self.model, name: value}

    def limit_length(self, at: int, value: Word) -> None:
        """Leaves out inputs for which a load of the window at a place of --length gives a number greater than the limit. `value` is the loaded
        number. Raises RvlookError if the number of the run itself is greater."""
        search = self.search
        limit = search.world.lengths[at]
        if self.is_base and self.value(value) > limit:
            name = search.world.symbols.name(at) or "%08x" % at
            raise RvlookError("--length leaves out the run itself, which has %d at %s" % (self.value(value), name))
        search.lengths_met.add(at)
        self.move_to(not_(ult(limit, value)))

    def become_any(self, at: int, count: int) -> None:
        """Executes `any_bytes` of enclave_check.h: makes `count` bytes of the region from `at` on new inputs, with their present values in the model.
        Ends the path if the bytes are not all in the region."""
        low, high = self.search.world.region
        if not low <= at <= at + count <= high:
            raise PathEnded("any_bytes")
        self.access(at, count, self.tags[A0], 0, "store")
        names = [(n, "a%d_%d" % (self.input_count, n)) for n in range(count)]
        self.input_count += 1
        present_bytes = {name: plain(self.symbolic_bytes.get(at + n, self.region_bytes[at + n - low])) for n, name in names}
        values = {name: self.value(content) for name, content in present_bytes.items()}
        self.model = {**self.model, **values}
        self.memo = {}
        self.search.note_written(self, at, count, is_word=True)
        for n, name in names:
            self.put(at + n, variable(name, INPUT))
            self.note_origin(at + n, 1, 0, None)
        self.loads.append(Load(self.steps, at, tuple(names)))

    def load_given(self, at: int, width: int) -> List[Byte]:
        """Loads `width` bytes of the window that --given names: the host gives the same bytes as in the run itself. Returns them as numbers."""
        offset = at - self.search.world.window[0]
        values = list(self.window_memory[offset:offset + width])
        names = tuple((n, "g%02x" % value) for n, value in enumerate(values))  # a variable with this name always has this value
        self.model = {**self.model, **{name: value for (_, name), value in zip(names, values)}}
        self.loads.append(Load(self.steps, at, names))
        return values

    def store_window(self, number: int, width: int, value: Word, address: Word) -> None:
        """Stores `width` bytes of a word to the window, and asks whether they may depend on a secret. `address` may be an expression,
        and `number` is its value in the model."""
        search = self.search
        base = search.world.window[0]
        is_number = type(address) is int
        stored_bytes = [byte(value, n) for n in range(width)]
        public_address: Optional[int] = address if is_number else None  # compared with --public; for an expression, the beginning of a public range
        if not is_number and type(value) is Node and value.taint & (SECRET | CHECK):
            public_address = search.public_place(self, address, width)
        places: List[Optional[int]] = [None if public_address is None else public_address + n for n in range(width)]
        search.check_output(self, stored_bytes, places, "window")
        if type(value) is int or self.is_base:
            stored_number = self.value(value)
            for n in range(width):
                self.window_memory[number + n - base] = stored_number >> 8 * n & 255
        if search.options.calm and is_number:
            for n in range(width):
                self.calm_window[address + n] = stored_bytes[n]
        elif search.options.calm:  # the store may have changed any byte
            self.calm_window.clear()
        if search.world.given and (not is_number or search.is_given(number, width)):
            search.stores_to_given.add(self.pc)
        self.stores.append(Store(self.steps, address, width, value))

    # ---- expressions as addresses

    def read(self, address: Node, width: int, is_signed: bool, tag: Tag, offset: int) -> Tuple[Optional[Word], int]:
        """Loads at an address that is an expression. `tag` is the origin of the register with the address, and `offset` is the immediate of the
        instruction. Returns the word, or None if the load traps. Also returns the number that the address has on this path, or 0 if the address
        stays an expression."""
        extent = self.place_at(address, width, tag, offset, "load")
        world = self.search.world
        if extent is not None and extent.low == world.window[0]:
            return assemble(self.load_window(self.value(address), width, address), width, is_signed), 0
        if extent is not None and extent.high - extent.low <= MAX_TABLE_BYTES and not (width == 4 and self.has_pointers(extent.low, extent.high)):
            self.search.note_loaded(extent.low, extent.high)
            content = self.contents_of(extent)
            return assemble([element(address, extent.low - n, content) for n in range(width)], width, is_signed), 0
        at = self.concretize(address, "address")
        self.search.note_loaded(at, at + width)
        return (self.load(at, width, is_signed), at) if world.is_allowed(at, width) else (None, at)

    def contents_of(self, extent: Extent) -> Tuple[Byte, ...]:
        """Returns the bytes of an object of the region: numbers and expressions."""
        base = self.search.world.region[0]
        raw = self.region_bytes[extent.low - base:extent.high - base]
        if not self.symbolic_bytes:
            return tuple(raw)
        return tuple(plain(self.symbolic_bytes.get(at, raw[at - extent.low])) for at in range(extent.low, extent.high))

    def write(self, address: Node, width: int, value: Word, tags: Tuple[Tag, Tag], offset: int) -> Optional[int]:
        """Stores at an address that is an expression. `tags` are the origins of the register with the address and of the stored value. `offset` is
        the immediate of the instruction. Returns the address if the store traps, else None."""
        address_tag, tag = tags
        extent = self.place_at(address, width, address_tag, offset, "store")
        world = self.search.world
        if extent is not None and extent.low == world.window[0]:
            self.store_window(self.value(address), width, value, address)
            return None
        is_small = extent is not None and extent.high - extent.low <= MAX_CHOICE_BYTES
        if extent is not None and is_small and tag is None and not self.has_pointers(extent.low & -4, extent.high):
            self.write_anywhere(address, width, value, extent)
            return None
        at = self.concretize(address, "address")
        if not world.is_allowed(at, width):
            return at
        self.store(at, width, value, tag)
        return None

    def write_anywhere(self, address: Node, width: int, value: Word, extent: Extent) -> None:
        """Stores at an address that is an expression and may be anywhere in the object `extent`. Each byte of the object becomes a choice: the stored
        byte if the address is there, else the old byte."""
        self.search.note_written(self, extent.low, extent.high - extent.low, is_word=width == 4)
        step = width if is_aligned(address, width, extent.low) else 1
        low = self.search.world.region[0]
        for at in range(extent.low, extent.high - width + 1, step):
            is_stored_here = eq(address, at)
            if is_stored_here is False:
                continue
            for n in range(width):
                old_byte = plain(self.symbolic_bytes.get(at + n, self.region_bytes[at + n - low]))
                self.put(at + n, choice8(is_stored_here, byte(value, n), old_byte))
        for at in range(extent.low & -4, extent.high, 4):
            if at in self.mem_tags or type(value) is not int:
                self.mem_tags[at] = NO_ORIGIN


def is_aligned(address: Node, width: int, low: int) -> bool:
    """Returns whether the distance of an address from `low` is certainly a multiple of `width`, which is a power of two. The address must be the sum
    of an index and a constant."""
    if address.op != "add" or type(address.args[1]) is not int:
        return False
    index, constant = address.args
    bits_of_distance = index.may | constant - low  # the bits that may be set in a summand of the distance
    return not bits_of_distance & width - 1
