"""A plain model of two-stage address translation.

A guest-virtual address goes through the guest's table (Sv39) to a guest-physical
address, and that through the host's table (Sv39x4) to a word of the memory.
Each stage may be Bare: then its address stays as it is, and nothing is asked.

The model follows the rules, and is there to be compared with the proved program: nothing
of it is generated from that, and no expected value is taken from what that answers.
"""

from dataclasses import dataclass

PAGE = 4096

# The flags of a table entry. Bits 8 and 9 are ignored, bits 10 to 53 are the frame,
# bits 54 to 63 are reserved.
V, R, W, X, U, G, A, D = (1 << place for place in range(8))

LOAD, STORE, FETCH = "load", "store", "fetch"

# Where an access faults. The report has these numbers.
ALIGNMENT, GUEST, HOST, MEMORY = range(4)

CAUSES = {
    ALIGNMENT: {LOAD: 4, STORE: 6, FETCH: 0},
    GUEST: {LOAD: 13, STORE: 15, FETCH: 12},
    HOST: {LOAD: 21, STORE: 23, FETCH: 20},
    MEMORY: {LOAD: 5, STORE: 7, FETCH: 1},
}

# The level reported of a stage that reads no table, or that is passed.
NO_LEVEL = 3


def bits(number, high, low):
    """The field of a number from bit `high` down to bit `low`."""
    return (number >> low) & ((1 << (high - low + 1)) - 1)


@dataclass(frozen=True)
class Access:
    kind: str
    user: bool
    sum: bool
    mxr: bool
    address: int


@dataclass(frozen=True)
class Granted:
    """The word that an access goes to, and the levels of the two leaves: None under Bare."""

    frame: int
    word: int
    guest_level: int | None
    host_level: int | None
    is_global: bool


@dataclass(frozen=True)
class Faulted:
    """The numbers of a fault, but for the virtual address, which is the access's own."""

    cause: int
    guest_physical: int
    stage: int
    guest_level: int
    host_level: int


class Stop(Exception):
    """A fault on its way out: all its numbers but the cause."""

    def __init__(self, stage, guest_physical, guest_level, host_level):
        super().__init__()
        self.stage = stage
        self.guest_physical = guest_physical
        self.guest_level = guest_level
        self.host_level = host_level


class BadEntry(Exception):
    """An entry that a walk cannot use, by the level of its table."""

    def __init__(self, level):
        super().__init__()
        self.level = level


# Root registers: mode in bits 63 to 60, frame in bits 43 to 0.


def guest_root_is_good(register):
    if bits(register, 63, 60) == 0:
        return register == 0
    return bits(register, 63, 60) == 8 and bits(register, 59, 44) <= 15


def host_root_is_good(register):
    if bits(register, 63, 60) == 0:
        return register == 0
    return bits(register, 63, 60) == 8 and bits(register, 59, 44) == 0 and bits(register, 1, 0) == 0


def walk(read, root_frame, address, root_index_bits):
    """Goes down from the root table; `read` gives the word at an address, for a level.

    Answers the address that the leaf gives, the leaf's level and entry, and whether
    an entry on the way had G.
    """
    frame, met_global = root_frame, False
    for level in (2, 1, 0):
        first = 12 + 9 * level
        width = root_index_bits if level == 2 else 9
        index = bits(address, first + width - 1, first)
        entry = read(frame * PAGE + index * 8, level)
        met_global = met_global or entry & G != 0
        writable_only = entry & W and not entry & R
        if not entry & V or writable_only or bits(entry, 63, 54):
            raise BadEntry(level)
        frame = bits(entry, 53, 10)
        if entry & (R | X):
            size = 1 << first
            if frame * PAGE % size:
                raise BadEntry(level)
            return frame * PAGE + address % size, level, entry, met_global
        if entry & (U | A | D):
            raise BadEntry(level)
    raise BadEntry(0)


class Machine:
    """A memory of words in whole frames, and the two root registers."""

    def __init__(self, frames, guest_root, host_root):
        self.size = frames * PAGE
        self.words = {}
        self.guest_root = guest_root
        self.host_root = host_root

    def poke(self, address, word):
        assert address % 8 == 0 and address < self.size and word < 1 << 64
        self.words[address] = word

    def contains(self, address):
        return address < self.size

    def host_stage(self, right, address, guest_level):
        """The host address of a guest-physical one, and the level of the leaf.

        `right` is the kind of access that the leaf has to allow; `guest_level` is for
        the report of a fault.
        """
        if self.host_root == 0:
            return address, None

        def read(at, level):
            if not self.contains(at):
                raise Stop(MEMORY, 0, guest_level, level)
            return self.words.get(at, 0)

        def refuse(level):
            return Stop(HOST, address >> 2, guest_level, level)

        if address >> 41:
            raise refuse(NO_LEVEL)
        try:
            target, level, entry, _ = walk(read, bits(self.host_root, 43, 0), address, 11)
        except BadEntry as bad:
            raise refuse(bad.level) from None
        needed = U | A | {LOAD: R, STORE: W | D, FETCH: X}[right]
        if entry & needed != needed:
            raise refuse(level)
        return target, level

    def guest_stage(self, access):
        """The guest-physical address of an access, the level of the leaf, and whether G was met."""
        if self.guest_root == 0:
            return access.address, None, False

        def read(at, level):
            target, _ = self.host_stage(LOAD, at, level)
            if not self.contains(target):
                raise Stop(MEMORY, 0, level, NO_LEVEL)
            return self.words.get(target, 0)

        def refuse(level):
            return Stop(GUEST, 0, level, NO_LEVEL)

        if bits(access.address, 63, 38) not in (0, (1 << 26) - 1):
            raise refuse(NO_LEVEL)
        try:
            target, level, entry, met_global = walk(read, bits(self.guest_root, 43, 0), access.address, 9)
        except BadEntry as bad:
            raise refuse(bad.level) from None
        if not guest_leaf_allows(entry, access):
            raise refuse(level)
        return target, level, met_global

    def run(self, access):
        """What an access comes to."""
        try:
            return self.grant(access)
        except Stop as stop:
            cause = CAUSES[stop.stage][access.kind]
            return Faulted(cause, stop.guest_physical, stop.stage, stop.guest_level, stop.host_level)

    def grant(self, access):
        if access.address % 8:
            raise Stop(ALIGNMENT, 0, NO_LEVEL, NO_LEVEL)
        physical, guest_level, met_global = self.guest_stage(access)
        target, host_level = self.host_stage(access.kind, physical, NO_LEVEL)
        if not self.contains(target):
            raise Stop(MEMORY, 0, NO_LEVEL, NO_LEVEL)
        return Granted(target // PAGE, target % PAGE // 8, guest_level, host_level, met_global)


def guest_leaf_allows(entry, access):
    if not entry & A:
        return False
    if access.user and not entry & U:
        return False
    if not access.user and entry & U and (access.kind == FETCH or not access.sum):
        return False
    if access.kind == LOAD:
        return bool(entry & R) or (access.mxr and bool(entry & X))
    if access.kind == STORE:
        return bool(entry & W) and bool(entry & D)
    return bool(entry & X)
