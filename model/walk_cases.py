"""Builds the cases of crates/walk_cases, and writes its src/cases.rt and the files of src/cases.

    python3 model/walk_cases.py

Each case is an access at some memory and roots. The model works out its whole answer,
and the script holds that to an expectation written beside the case, or beside a loop of
cases: granted(..) has frame, word, guest level, host level and whether the guest's walk
is global; faulted(..) has the kind, which gives the cause, stage, guest level, host level
and, at stage 2, the guest-physical address.
"""

import pathlib

import two_stage as model
from two_stage import FETCH, LOAD, PAGE, STORE, A, D, G, R, U, V, W, X

KINDS = (LOAD, STORE, FETCH)

# The cause of a fault at each stage, for load, store and fetch.
CAUSE = {1: (13, 15, 12), 2: (21, 23, 20), 3: (5, 7, 1)}

FLAGS = {"V": V, "R": R, "W": W, "X": X, "U": U, "G": G, "A": A, "D": D}

# A frame outside every memory: there are at most 4,096.
FAR = 0x1000

# The offset in its page of the word that most cases ask for: word 5.
ONE_WORD = 0x28


def entry(frame, flags, more=0):
    """A table entry: its frame, the letters of its flags, and any further bits."""
    return frame << 10 | sum(FLAGS[letter] for letter in flags) | more


def guest_register(frame, asid=1):
    return 8 << 60 | asid << 44 | frame


def host_register(frame):
    return 8 << 60 | frame


def address_of(top, middle, low, offset=ONE_WORD):
    """The address with these three indices, lowest bits last."""
    return top << 30 | middle << 21 | low << 12 | offset


def granted(frame, word, guest_level, host_level, is_global=False):
    return model.Granted(frame, word, guest_level, host_level, is_global)


def faulted(kind, stage, guest_level, host_level, guest_physical=0):
    cause = CAUSE[stage][KINDS.index(kind)]
    shifted = guest_physical >> 2 if stage == 2 else 0
    return model.Faulted(cause, shifted, stage, guest_level, host_level)


class Scenario:
    """A memory, two roots, and the accesses asked there."""

    def __init__(self, name, frames, guest=0, host=0, is_deep=False):
        self.name, self.frames, self.guest, self.host = name, frames, guest, host
        self.is_deep, self.changes, self.cases = is_deep, [], []

    def poke(self, frame, index, word):
        self.changes.append((frame * PAGE + index * 8, word))
        return self

    def ask(self, kind, address, want, user=False, sum=False, mxr=False):
        """Asks an access, which is expected to come to `want`."""
        machine = model.Machine(self.frames, self.guest, self.host)
        for at, word in (DEEP if self.is_deep else []) + self.changes:
            machine.poke(at, word)
        access = model.Access(kind, user, sum, mxr, address)
        answer = machine.run(access)
        assert answer == want, (self.name, access, answer, want)
        self.cases.append((access, answer))
        return self


# ---------------------------------------------------------------------------------------
# A deep world: sixteen frames, both stages paged, every leaf at level 0.
# The guest's three tables and its data page lie in four regions of guest-physical memory,
# 1 GiB or more apart, each with host tables of its own. The regions' indices in the host's
# root have the two further bits 00, 01, 10 and 11, so the four frames of that root all serve.
#   frames 0 to 3    the host's level 1 table of each region
#   frames 4 to 7    the host's level 0 table of each region
#   frames 8 to 11   what the guest has there: root, level 1 table, level 0 table, data
#   frames 12 to 15  the host's root

REGIONS = ((0x001, 5, 9), (0x202, 6, 10), (0x403, 7, 11), (0x604, 8, 12))
ROOT, MIDDLE, LOW, DATA = range(4)
DEEP_HOST_ROOT = 12
DEEP_FRAMES = 16
VIRTUAL = (1, 2, 3)
FULL = "VRWXUAD"


def region_frame(region):
    """The guest-physical frame that is used of a region."""
    return address_of(*REGIONS[region], 0) >> 12


def host_place(region, level):
    """The frame and index of the host's entry of a region at a level."""
    index = REGIONS[region][2 - level]
    if level == 2:
        return DEEP_HOST_ROOT + index // 512, index % 512
    return (region, index) if level == 1 else (4 + region, index)


def guest_place(level):
    """The frame and index of the guest's entry at a level."""
    return 10 - level, VIRTUAL[2 - level]


def deep_pokes():
    pokes = []

    def poke(place, word):
        frame, index = place
        pokes.append((frame * PAGE + index * 8, word))

    for region in range(4):
        poke(host_place(region, 2), entry(region, "V"))
        poke(host_place(region, 1), entry(4 + region, "V"))
        poke(host_place(region, 0), entry(8 + region, FULL))
    poke(guest_place(2), entry(region_frame(MIDDLE), "V"))
    poke(guest_place(1), entry(region_frame(LOW), "V"))
    poke(guest_place(0), entry(region_frame(DATA), "VRWXAD"))
    return pokes


DEEP = deep_pokes()

DEEP_ADDRESS = address_of(*VIRTUAL)
DEEP_GRANT = granted(11, 5, 0, 0)


def deep(name):
    return Scenario(name, DEEP_FRAMES, guest_register(region_frame(ROOT)), host_register(DEEP_HOST_ROOT), True)


def wanted_level(region):
    """The guest level whose entry is wanted in a region: 3 for the data."""
    return (2, 1, 0, 3)[region]


def wanted_address(region):
    """The guest-physical address that is wanted in a region."""
    offset = VIRTUAL[region] * 8 if region < DATA else ONE_WORD
    return region_frame(region) * PAGE + offset


def ask_kinds(scenario, address, stage, guest_level, host_level, guest_physical=0):
    """Asks all three kinds, which fault alike."""
    for kind in KINDS:
        scenario.ask(kind, address, faulted(kind, stage, guest_level, host_level, guest_physical))
    return scenario


# ---------------------------------------------------------------------------------------


def alignment():
    """An address has to be a multiple of 8, before everything else: cause 4, 6, 0; stage 0; levels 3, 3."""

    def misaligned(cause):
        return model.Faulted(cause, 0, 0, 3, 3)

    paged = Scenario("misaligned, guest paged", 2, guest_register(1)).poke(1, 0, entry(0, "VRWAD"))
    paged.ask(LOAD, 8, granted(0, 1, 2, None))
    for low in range(1, 8):
        paged.ask(LOAD, 8 + low, misaligned(4))
    paged.ask(STORE, 4, misaligned(6)).ask(FETCH, 4, misaligned(0))
    # neither canonical nor mapped, and of the wrong mode: alignment comes first
    paged.ask(LOAD, 0x4000000001, misaligned(4)).ask(FETCH, 0xC002, misaligned(0), user=True)
    bare = Scenario("misaligned, both Bare", 2)
    # outside the memory too
    bare.ask(LOAD, 0x2004, misaligned(4)).ask(STORE, 0x2001, misaligned(6))
    bare.ask(FETCH, 2, misaligned(0))
    return [paged, bare]


def canonical():
    """Bits 63 to 39 have to equal bit 38: else stage 1 and levels 3, 3. Either half can be mapped."""
    half = Scenario("canonical addresses", 2, guest_register(1))
    half.poke(1, 0, entry(0, "VRWXAD")).poke(1, 255, entry(0, "VRWXAD"))
    half.poke(1, 256, entry(0, "VRWXAD")).poke(1, 511, entry(0, "VRWXAD"))
    inside = (0x0, 0x3FC0000000, 0xFFFFFFC000000000, 0xFFFFFFFFC0000000)
    for start in inside:
        half.ask(LOAD, start + 0x1008, granted(1, 1, 2, None))
    outside = (
        0x4000000000,  # bit 38 alone
        0x8000000000,  # bit 39 alone
        0xC000000000,  # both
        0x7FFFFFF000,
        0x8000000000000000,  # bit 63 alone
        0x7FFFFFC000000000,  # all but bit 63
        0xFFFFFF8000000000,  # all but bit 38
        0xFFFFFF4000000000,  # all but bit 39
    )
    for start in outside:
        half.ask(LOAD, start + 8, faulted(LOAD, 1, 3, 3))
    half.ask(STORE, 0x4000000000, faulted(STORE, 1, 3, 3))
    half.ask(FETCH, 0x4000000000, faulted(FETCH, 1, 3, 3))
    # before any word is read: neither root lies inside
    nowhere = Scenario("not canonical, both roots outside", 2, guest_register(FAR), host_register(FAR))
    nowhere.ask(LOAD, 0x4000000000, faulted(LOAD, 1, 3, 3))
    nowhere.ask(LOAD, 0x3FFFFFFFF8, faulted(LOAD, 3, 2, 2))
    return [half, nowhere]


def bare():
    """A Bare stage gives every right and leaves the address as it is."""
    both = Scenario("both Bare", 2)
    for kind in KINDS:
        both.ask(kind, 0x1FF8, granted(1, 511, None, None))
        both.ask(kind, 0x2000, faulted(kind, 3, 3, 3))
    both.ask(LOAD, 0, granted(0, 0, None, None), user=True)
    for high in (0x20000000000, 0x4000000000, 0x8000000000000000, 0xFFFFFFFFFFFFFFF8):
        both.ask(LOAD, high, faulted(LOAD, 3, 3, 3))

    host = Scenario("guest Bare over a paged host", 8, 0, host_register(4))
    # index 0x100 of the host's root: bit 38 alone, which a Bare guest may well use
    host.poke(4, 0x100, entry(0, "VRWXUAD")).poke(4 + 3, 511, entry(0, "VRUA"))
    low, high = address_of(0x100, 0, 2), address_of(0x7FF, 0, 2)
    for kind in KINDS:
        for user in (False, True):
            host.ask(kind, low, granted(2, 5, None, 2), user=user)
    host.ask(LOAD, high, granted(2, 5, None, 2), user=True, sum=True, mxr=True)
    host.ask(STORE, high, faulted(STORE, 2, 3, 2, high))
    host.ask(FETCH, high, faulted(FETCH, 2, 3, 2, high), sum=True, mxr=True)
    host.ask(LOAD, 0x10, faulted(LOAD, 2, 3, 2, 0x10))
    # bits 63 to 41 have to be 0
    for bit in (41, 42, 55, 56, 63):
        host.ask(LOAD, low | 1 << bit, faulted(LOAD, 2, 3, 3, low | 1 << bit))
    host.ask(STORE, low | 1 << 41, faulted(STORE, 2, 3, 3, low | 1 << 41))
    host.ask(FETCH, low | 1 << 41, faulted(FETCH, 2, 3, 3, low | 1 << 41))

    guest = Scenario("paged guest over a Bare host", 4, guest_register(1))
    guest.poke(1, 1, entry(2, "V")).poke(2, 1, entry(3, "V"))
    guest.poke(1, 2, entry(4, "V")).poke(2, 2, entry(4, "V"))
    guest.poke(1, 3, entry(1 << 43, "V")).poke(2, 3, entry(1 << 29, "V"))
    pages = {1: 3, 2: 4, 3: 1 << 29, 4: (1 << 44) - 1}
    for index, frame in pages.items():
        guest.poke(3, index, entry(frame, "VRWXAD"))
    guest.ask(LOAD, address_of(1, 1, 1), granted(3, 5, 0, None))
    for kind in KINDS:
        guest.ask(kind, address_of(2, 0, 0), faulted(kind, 3, 1, 3))
        guest.ask(kind, address_of(1, 2, 0), faulted(kind, 3, 0, 3))
        guest.ask(kind, address_of(1, 1, 2), faulted(kind, 3, 3, 3))
    # no range check: a high frame is outside, at stage 3
    guest.ask(LOAD, address_of(3, 0, 0), faulted(LOAD, 3, 1, 3))
    guest.ask(LOAD, address_of(1, 3, 0), faulted(LOAD, 3, 0, 3))
    guest.ask(LOAD, address_of(1, 1, 3), faulted(LOAD, 3, 3, 3))
    guest.ask(LOAD, address_of(1, 1, 4), faulted(LOAD, 3, 3, 3))
    return [both, host, guest]


def rights():
    """Every kind of leaf, by mode, SUM, MXR and kind: stage 1 and the leaf's level where denied."""
    # what each leaf gives: load, store, fetch
    leaves = {"R": "l", "RW": "ls", "X": "f", "RX": "lf", "RWX": "lsf"}
    table = Scenario("rights of a guest leaf", 4, guest_register(1))
    table.poke(1, 0, entry(2, "V")).poke(2, 0, entry(3, "V"))
    index = 0
    for flags, gives in leaves.items():
        for user_page in (False, True):
            index += 1
            table.poke(3, index, entry(0, "VAD" + flags + ("U" if user_page else "")))
            for user in (False, True):
                for sum, mxr in ((False, False), (False, True), (True, False), (True, True)):
                    given = set(gives) | ({"l"} if mxr and "f" in gives else set())
                    if user:
                        given = given if user_page else set()
                    elif user_page:
                        given = given - {"f"} if sum else set()
                    for kind in KINDS:
                        want = granted(0, 5, 0, None) if kind[0] in given else faulted(kind, 1, 0, 3)
                        table.ask(kind, address_of(0, 0, index), want, user, sum, mxr)
    return [table]


def marks():
    """A guest leaf needs A for everything, and D for a store alone, at each level; bits 8 and 9 never count."""
    table = Scenario("A and D of a guest leaf", 8, guest_register(1))
    table.poke(1, 0, entry(2, "V", 3 << 8)).poke(2, 0, entry(3, "V", 1 << 9))
    for level, frame in ((2, 1), (1, 2), (0, 3)):
        for index, flags in ((4, "VRWXD"), (5, "VRWXA"), (6, "VRWX")):
            table.poke(frame, index, entry(0, flags, 1 << 8))
            indices = [0, 0, 0]
            indices[2 - level] = index
            at = address_of(*indices)
            for kind in KINDS:
                fine = "A" in flags and kind != STORE
                table.ask(kind, at, granted(0, 5, level, None) if fine else faulted(kind, 1, level, 3))
    # MXR does not make up for A
    table.ask(LOAD, address_of(0, 0, 4), faulted(LOAD, 1, 0, 3), mxr=True)
    return [table]


def bad_entries(level):
    """Entries that stop a walk at a level, in either stage."""
    yield 0
    yield entry(0, "RWXUAD")  # V is 0
    yield entry(0, "VWUAD")  # W without R
    yield entry(0, "VWXUAD")  # the same with X
    yield entry(0, "VW")  # the same on what would be a pointer
    for mark in "UAD":
        yield entry(3, "V" + mark)  # a pointer with U, A or D
    for bit in range(54, 64) if level == 0 else (54, 63):
        yield entry(0, FULL, 1 << bit)  # a reserved bit
    if level == 0:
        yield entry(3, "V")  # a pointer where no level is left
    else:
        yield entry(3, "V", 1 << 60)  # a reserved bit on a pointer
        for place in (0, 9 * level - 1):
            yield entry(1 << place, FULL)  # a superpage whose frame is misaligned


def entries():
    """Entries that stop the walk, at every level of either stage; beside them some that do not."""
    guest = Scenario("guest entries that stop the walk", 12, guest_register(4))
    host = Scenario("host entries that stop the walk", 12, 0, host_register(4))
    # level 2 in frame 4, level 1 in frame 8, level 0 in frame 9
    guest.poke(4, 1, entry(8, "V")).poke(8, 1, entry(9, "V"))
    host.poke(4, 1, entry(8, "V")).poke(8, 1, entry(9, "V"))
    for level, frame in ((2, 4), (1, 8), (0, 9)):
        for number, word in enumerate(bad_entries(level)):
            index = 16 + number
            indices = [1, 1, 1]
            indices[2 - level] = index
            at = address_of(*indices)
            guest.poke(frame, index, word)
            guest.ask(LOAD, at, faulted(LOAD, 1, level, 3), user=True)
            # in the host's root the four frames serve in turn
            if level == 2:
                at += (number % 4) * 512 << 30
                host.poke(frame + number % 4, index, word)
            else:
                host.poke(frame, index, word)
            host.ask(LOAD, at, faulted(LOAD, 2, 3, level, at))
    # stores and fetches stop at the same entries, with their own causes
    for level in (2, 1, 0):
        indices = [1, 1, 1]
        indices[2 - level] = 16
        at = address_of(*indices)
        for kind in (STORE, FETCH):
            guest.ask(kind, at, faulted(kind, 1, level, 3), user=True)
            host.ask(kind, at, faulted(kind, 2, 3, level, at))
    return [guest, host]


def aligned():
    """Frame bits from 9 x level up are a superpage's own, and bits 8 and 9 of an entry never count."""
    guest = Scenario("guest entries that are fine", 12, guest_register(4))
    host = Scenario("host entries that are fine", 12, 0, host_register(4))
    for table, stage in ((guest, 1), (host, 2)):

        def leaf(level, level_of=stage):
            return granted(11, 5, *((level, None) if level_of == 1 else (None, level)))

        table.poke(4, 1, entry(8, "V", 3 << 8)).poke(8, 1, entry(9, "V", 3 << 8))
        for more, index in ((0, 16), (1 << 8, 17), (1 << 9, 18), (3 << 8, 19)):
            table.poke(4, index, entry(0, FULL, more))
            table.poke(8, index, entry(0, FULL, more))
            table.poke(9, index, entry(11, FULL, more))
            table.ask(LOAD, address_of(index, 0, 11), leaf(2), user=True)
            table.ask(LOAD, address_of(1, index, 11), leaf(1), user=True)
            table.ask(LOAD, address_of(1, 1, index), leaf(0), user=True)
        # aligned, and past the memory's end: stage 3, once both stages are passed
        table.poke(4, 20, entry(1 << 18, FULL)).poke(8, 20, entry(1 << 9, FULL)).poke(9, 20, entry(12, FULL))
        table.ask(LOAD, address_of(20, 0, 0), faulted(LOAD, 3, 3, 3), user=True)
        table.ask(STORE, address_of(1, 20, 0), faulted(STORE, 3, 3, 3), user=True)
        table.ask(FETCH, address_of(1, 1, 20), faulted(FETCH, 3, 3, 3), user=True)
    # the two further index bits of the host's root are no part of the page: 18 bits are
    for quarter in range(4):
        host.poke(4 + quarter, 21, entry(0, FULL))
        host.ask(LOAD, address_of(512 * quarter + 21, 0, 11), granted(11, 5, None, 2))
        host.ask(LOAD, address_of(512 * quarter + 21, 1, 0), faulted(LOAD, 3, 3, 3))
    return [guest, host]


def superpages():
    """Leaves of every level in both stages at once. Each takes its low bits from the address before it."""
    frames = 0x208
    world = Scenario("superpages in both stages", frames, guest_register(0x10), host_register(4))
    # guest-physical frames 0x10 to 0x12, the guest's tables, lie at host frames 0x10 to 0x12
    world.poke(4, 0, entry(8, "V")).poke(8, 0, entry(9, "V"))
    for frame in (0x10, 0x11, 0x12):
        world.poke(9, frame, entry(frame, "VRUA"))
    world.poke(0x10, 0, entry(0x11, "V")).poke(0x11, 0, entry(0x12, "V"))
    # guest-physical regions 0x201, 0x402 and 0x603: by a host leaf of level 2, 1 and 0.
    # The word asked for lies at indices 1 and 2 of each, so at host frame 0x202 by the first
    # and by the second, and at 0x15 by the third.
    world.poke(5, 1, entry(0, FULL))
    world.poke(6, 2, entry(0xA, "V")).poke(0xA, 1, entry(0x200, FULL))
    world.poke(7, 3, entry(0xB, "V")).poke(0xB, 1, entry(0xC, "V")).poke(0xC, 2, entry(0x15, FULL))
    regions = ((2, 0x201, 0x202), (1, 0x402, 0x202), (0, 0x603, 0x15))
    for number, (host_level, region, frame) in enumerate(regions, start=1):
        # guest leaves of level 2, 1 and 0 that lead to the same guest-physical page
        world.poke(0x10, number, entry(region << 18, "VRWXAD"))
        world.poke(0x11, number, entry(region << 18 | 1 << 9, "VRWXAD"))
        world.poke(0x12, number, entry(region << 18 | 1 << 9 | 2, "VRWXAD"))
        places = ((2, (number, 1, 2)), (1, (0, number, 2)), (0, (0, 0, number)))
        for guest_level, indices in places:
            for kind in KINDS:
                world.ask(kind, address_of(*indices), granted(frame, 5, guest_level, host_level))
    return [world]


def pairs():
    """Every pair of guest level and host level, at stages 2 and 3, with the cause of each kind.

    The guest level is that of the entry wanted, or 3 for the data; the host level that of
    the entry read, or 3 where none is.
    """
    fine = deep("both stages down to level 0")
    for kind in KINDS:
        fine.ask(kind, DEEP_ADDRESS, DEEP_GRANT)
    scenarios = [fine]
    for region in range(4):
        guest_level, physical = wanted_level(region), wanted_address(region)
        for level in (2, 1, 0):
            empty = deep(f"no host entry, guest level {guest_level}, host level {level}")
            empty.poke(*host_place(region, level), 0)
            scenarios.append(ask_kinds(empty, DEEP_ADDRESS, 2, guest_level, level, physical))
        # the guest names a frame past the 29 bits that the host's table translates
        for bit in (29, 43):
            high = deep(f"guest-physical bit {bit + 12}, guest level {guest_level}")
            frame = 1 << bit | region_frame(region)
            if region == ROOT:
                high.guest = guest_register(frame)
            else:
                high.poke(*guest_place(3 - region), entry(frame, "V" if region < DATA else "VRWXAD"))
            physical_there = physical | 1 << bit + 12
            scenarios.append(ask_kinds(high, DEEP_ADDRESS, 2, guest_level, 3, physical_there))
        # words outside: the host's root is cut off by the memory's end before this region's frame of it
        frames = DEEP_HOST_ROOT + region
        cut = Scenario(f"host root outside, guest level {guest_level}", frames, fine.guest, fine.host)
        cut.changes = [poke for poke in DEEP if poke[0] < frames * PAGE]
        scenarios.append(ask_kinds(cut, DEEP_ADDRESS, 3, guest_level, 2))
        for level in (1, 0):
            lost = deep(f"host table outside, guest level {guest_level}, host level {level}")
            lost.poke(*host_place(region, level + 1), entry(DEEP_FRAMES, "V"))
            scenarios.append(ask_kinds(lost, DEEP_ADDRESS, 3, guest_level, level))
        gone = deep(f"word outside, guest level {guest_level}")
        gone.poke(*host_place(region, 0), entry(DEEP_FRAMES, FULL))
        scenarios.append(ask_kinds(gone, DEEP_ADDRESS, 3, guest_level, 3))
    # stage 1 under a paged host: host level 3
    for level in (2, 1, 0):
        stopped = deep(f"no guest entry, guest level {level}").poke(*guest_place(level), 0)
        scenarios.append(ask_kinds(stopped, DEEP_ADDRESS, 1, level, 3))
    return scenarios


def roots_outside():
    """A root may point outside the memory: the walk then says so, at level 2."""
    host = Scenario("host root outside, guest Bare", 4, 0, host_register(4))
    ask_kinds(host, 0x10, 3, 3, 2)
    farthest = Scenario("host root at the last frame there is", 4, 0, host_register((1 << 44) - 4))
    farthest.ask(LOAD, 0x1FFFFFFFFF8, faulted(LOAD, 3, 3, 2))
    guest = Scenario("guest root outside, host Bare", 4, guest_register(4))
    ask_kinds(guest, 0x10, 3, 2, 3)
    last = Scenario("guest root at the last frame there is", 4, guest_register((1 << 44) - 1))
    last.ask(LOAD, 0x3FFFFFFFF8, faulted(LOAD, 3, 2, 3))
    return [host, farthest, guest, last]


def host_rights():
    """A host leaf needs U, A and the right; MXR does not count."""
    # what each leaf allows: load, store, fetch
    leaves = {
        "VRWXUAD": "lsf",
        "VRWXAD": "",  # no U
        "VRWXUD": "",  # no A
        "VXUAD": "f",  # no R
        "VRXUAD": "lf",  # no W
        "VRWXUA": "lf",  # no D
        "VRWUAD": "ls",  # no X
        "VRUA": "l",
        "VXUA": "f",
    }
    final = deep("rights of the host leaf of the data")
    table, _ = host_place(DATA, 0)
    for number, (flags, allows) in enumerate(leaves.items()):
        index = 64 + number
        frame = region_frame(DATA) - REGIONS[DATA][2] + index
        final.poke(table, index, entry(11, flags)).poke(10, index, entry(frame, "VRWXAD"))
        at = address_of(VIRTUAL[0], VIRTUAL[1], index)
        physical = frame * PAGE + ONE_WORD
        for kind, mxr in ((LOAD, False), (LOAD, True), (STORE, False), (FETCH, True)):
            denied = faulted(kind, 2, 3, 0, physical)
            final.ask(kind, at, DEEP_GRANT if kind[0] in allows else denied, mxr=mxr)
    scenarios = [final]
    # the guest's tables are read as by a load, whatever was asked; the cause is the access's own
    for region in (ROOT, MIDDLE, LOW):
        level, physical = wanted_level(region), wanted_address(region)
        for flags in ("VRWXAD", "VRWXUD", "VXUAD"):
            denied = deep(f"host leaf {flags} of the guest's table, guest level {level}")
            denied.poke(*host_place(region, 0), entry(8 + region, flags))
            ask_kinds(denied, DEEP_ADDRESS, 2, level, 0, physical)
            if flags == "VXUAD":
                denied.ask(LOAD, DEEP_ADDRESS, faulted(LOAD, 2, level, 0, physical), mxr=True)
            scenarios.append(denied)
    enough = deep("host leaves VRUA of the guest's tables")
    for region in (ROOT, MIDDLE, LOW):
        enough.poke(*host_place(region, 0), entry(8 + region, "VRUA"))
    for kind in KINDS:
        enough.ask(kind, DEEP_ADDRESS, DEEP_GRANT)
    # the level of a host leaf that denies is its own
    for level in (2, 1):
        table = Scenario(f"host superpage of level {level} that denies", 12, 0, host_register(4))
        table.poke(4, 1, entry(8, "V") if level == 1 else entry(0, "VRUA"))
        table.poke(8, 1, entry(0, "VRUA"))
        at = address_of(1, 1, 1)
        inside = at if level == 1 else address_of(1, 0, 1)
        table.ask(LOAD, inside, granted(1, 5, None, level))
        table.ask(STORE, at, faulted(STORE, 2, 3, level, at))
        table.ask(FETCH, at, faulted(FETCH, 2, 3, level, at))
        scenarios.append(table)
    return scenarios + [mxr_at_the_guest()]


def mxr_at_the_guest():
    """A load of a guest page that can only be fetched passes by MXR, and then still needs the host's R."""
    table = deep("a load by MXR, host readable or not")
    host_table, _ = host_place(DATA, 0)
    base = region_frame(DATA) - REGIONS[DATA][2]
    for index, flags in ((64, "VRUA"), (65, "VXUA")):
        table.poke(host_table, index, entry(11, flags))
        table.poke(10, index, entry(base + index, "VXA"))
    readable, fetched = (address_of(VIRTUAL[0], VIRTUAL[1], index) for index in (64, 65))
    table.ask(LOAD, readable, DEEP_GRANT, mxr=True)
    table.ask(LOAD, readable, faulted(LOAD, 1, 0, 3))
    table.ask(LOAD, fetched, faulted(LOAD, 2, 3, 0, (base + 65) * PAGE + ONE_WORD), mxr=True)
    table.ask(FETCH, fetched, DEEP_GRANT)
    return table


def globals_met():
    """G in any guest entry on the path makes the walk global; the host's G never counts."""
    guest = Scenario("G of guest entries", 8, guest_register(1))
    for index, mark in ((1, ""), (2, "G")):
        guest.poke(1, index, entry(2, "V" + mark)).poke(2, index, entry(3, "V" + mark))
        guest.poke(3, index, entry(7, "VRA" + mark))
        guest.poke(1, index + 4, entry(0, "VRA" + mark)).poke(2, index + 4, entry(0, "VRA" + mark))
    for top in (1, 2):
        for middle in (1, 2):
            for low in (1, 2):
                met = 2 in (top, middle, low)
                guest.ask(LOAD, address_of(top, middle, low), granted(7, 5, 0, None, met))
            met = top == 2 or middle == 2
            guest.ask(LOAD, address_of(top, middle + 4, 1), granted(1, 5, 1, None, met))
        guest.ask(LOAD, address_of(top + 4, 0, 1), granted(1, 5, 2, None, top == 2))
    host = deep("G of host entries")
    for region in range(4):
        host.poke(*host_place(region, 2), entry(region, "VG"))
        host.poke(*host_place(region, 1), entry(4 + region, "VG"))
        host.poke(*host_place(region, 0), entry(8 + region, FULL + "G"))
    for kind in KINDS:
        host.ask(kind, DEEP_ADDRESS, DEEP_GRANT)
    both = deep("G of a guest pointer under a paged host")
    both.poke(*guest_place(1), entry(region_frame(LOW), "VG"))
    both.ask(LOAD, DEEP_ADDRESS, granted(11, 5, 0, 0, True))
    both.ask(FETCH, DEEP_ADDRESS, granted(11, 5, 0, 0, True))
    return [guest, host, both]


def order():
    """Guest rights before the host stage of the data; host rights before whether the word lies inside."""
    guest_first = deep("guest leaf denies, host has no entry").poke(*host_place(DATA, 2), 0)
    guest_first.ask(LOAD, DEEP_ADDRESS, faulted(LOAD, 1, 0, 3), user=True)
    guest_first.ask(LOAD, DEEP_ADDRESS, faulted(LOAD, 2, 3, 2, wanted_address(DATA)))
    range_last = deep("guest leaf denies, frame out of range")
    range_last.poke(*guest_place(0), entry(1 << 29, "VRA"))
    range_last.ask(STORE, DEEP_ADDRESS, faulted(STORE, 1, 0, 3))
    range_last.ask(LOAD, DEEP_ADDRESS, faulted(LOAD, 2, 3, 3, 1 << 41 | ONE_WORD))
    rights_first = deep("host leaf denies, word outside")
    rights_first.poke(*host_place(DATA, 0), entry(FAR, "VRUA"))
    rights_first.ask(STORE, DEEP_ADDRESS, faulted(STORE, 2, 3, 0, wanted_address(DATA)))
    rights_first.ask(LOAD, DEEP_ADDRESS, faulted(LOAD, 3, 3, 3))
    table_first = deep("host leaf of a guest table denies, word outside")
    table_first.poke(*host_place(LOW, 0), entry(FAR, "VXUA"))
    ask_kinds(table_first, DEEP_ADDRESS, 2, 0, 0, wanted_address(LOW))
    return [guest_first, range_last, rights_first, table_first]


def registers():
    """Root registers, each with whether the guest and the host may have it."""
    tried = [mode << 60 for mode in range(16)] + [mode << 60 | 4 for mode in range(16)]
    tried += [1 << bit for bit in (0, 1, 2, 12, 43, 44, 47, 48, 59)]
    tried += [8 << 60 | 1 << bit for bit in (0, 1, 2, 3, 12, 43, *range(44, 60))]
    tried += [8 << 60 | asid << 44 for asid in (15, 16, 17, 0xFFFF)]
    tried += [8 << 60 | frame for frame in (3, (1 << 44) - 4, (1 << 44) - 1)]
    tried += [8 << 60 | 15 << 44 | (1 << 44) - 1, (1 << 64) - 1]
    checked = {register: (model.guest_root_is_good(register), model.host_root_is_good(register)) for register in tried}
    # what is expected of them
    assert checked[0] == (True, True)
    assert checked[4] == checked[1 << 44] == checked[1 << 59] == (False, False)
    for mode in range(1, 16):
        assert checked[mode << 60] == checked[mode << 60 | 4] == (mode == 8, mode == 8)
    assert checked[8 << 60 | 15 << 44] == (True, False)
    assert checked[8 << 60 | 16 << 44] == checked[8 << 60 | 0xFFFF << 44] == (False, False)
    assert checked[8 << 60 | 1] == checked[8 << 60 | 2] == checked[8 << 60 | 3] == (True, False)
    assert checked[8 << 60 | (1 << 44) - 4] == (True, True)
    for bit in range(44, 60):
        assert checked[8 << 60 | 1 << bit] == (bit < 48, False)
    return sorted(checked.items())


# ---------------------------------------------------------------------------------------
# The text of the files, in the layout of the formatter: what is longer than 60 characters
# between its brackets goes to lines of its own.

WIDTH = 60

INDENT = "    "


def number(value):
    return str(value) if value < 10 else hex(value)


def truth(value):
    return "true" if value else "false"


def level_text(level):
    return "None" if level is None else f"Some({level})"


def tuple_text(parts, indent):
    """A tuple on one line, or on several where it is long."""
    flat = ", ".join(parts)
    if len(flat) <= WIDTH:
        return f"({flat})"
    return "(\n" + "".join(f"{indent}{INDENT}{part},\n" for part in parts) + f"{indent})"


def list_text(rows, indent):
    """A list of tuples, each the texts of its parts: on one line, or a line or more for each tuple."""
    flat = ", ".join(f"({', '.join(parts)})" for parts in rows)
    if len(flat) <= WIDTH:
        return f"[{flat}]"
    inner = indent + INDENT
    return "[\n" + "".join(f"{inner}{tuple_text(parts, inner)},\n" for parts in rows) + f"{indent}]"


def way_name(kind, user, sum, mxr):
    return kind.upper() + ("_U" if user else "_S") + ("_SUM" if sum else "") + ("_MXR" if mxr else "")


def answer_text(answer):
    if isinstance(answer, model.Granted):
        name = "Global" if answer.is_global else "Granted"
        levels = f"{level_text(answer.guest_level)}, {level_text(answer.host_level)}"
        return f"{name}({answer.frame}, {answer.word}, {levels})"
    place = f"{answer.stage}, {answer.guest_level}, {answer.host_level}"
    return f"Faulted({answer.cause}, {number(answer.guest_physical)}, {place})"


def words_rows(changes):
    return [(number(address), number(word)) for address, word in changes]


def case_rows(cases):
    for access, answer in cases:
        way = way_name(access.kind, access.user, access.sum, access.mxr)
        yield way, number(access.address), answer_text(answer)


def scenario_text(scenario):
    inner = 2 * INDENT
    fields = (
        ("name", f'"{scenario.name}"'),
        ("start", "Deep" if scenario.is_deep else f"Zeros({scenario.frames})"),
        ("guest", number(scenario.guest)),
        ("host", number(scenario.host)),
        ("words", "&" + list_text(words_rows(scenario.changes), inner)),
        ("cases", "&" + list_text(list(case_rows(scenario.cases)), inner)),
    )
    body = "".join(f"{inner}{name}: {value},\n" for name, value in fields)
    return f"{INDENT}Scenario {{\n{body}{INDENT}}},\n"


def table_text(name, about, scenarios):
    """The file of a table."""
    body = "".join(scenario_text(scenario) for scenario in scenarios)
    return "".join(
        (
            f"//! {about} {WRITTEN}\n",
            *(f"use {path};\n" for path in TABLE_USES),
            f"\npub static {name}: [Scenario; {len(scenarios)}] = [\n{body}];\n",
        )
    )


def way_text(kind, user, sum, mxr):
    fields = (
        ("kind", f"Kind::{kind.capitalize()}"),
        ("mode", "Mode::User" if user else "Mode::Supervisor"),
        ("sum", truth(sum)),
        ("mxr", truth(mxr)),
        ("address", "0"),
    )
    body = "".join(f"{INDENT}{name}: {value},\n" for name, value in fields)
    return f"const {way_name(kind, user, sum, mxr)}: Access = Access {{\n{body}}};\n"


def way_constants():
    for kind in KINDS:
        for user in (False, True):
            for sum in (False, True):
                for mxr in (False, True):
                    yield way_text(kind, user, sum, mxr)


WRITTEN = "Written by model/walk_cases.py: to change it, change that and run it."

USES = (
    "crate::scenarios::Holder",
    "crate::scenarios::Holder::{Either, GuestOnly, Neither}",
    "access::{Access, Kind, Mode}",
)

TABLE_USES = (
    "crate::cases::*",
    "crate::scenarios::Answer::*",
    "crate::scenarios::Scenario",
    "crate::scenarios::Start::*",
)

# Whose root a register may be, by whether the guest and the host may have it.
HOLDER = {(True, True): "Either", (True, False): "GuestOnly", (False, False): "Neither"}


def file_text(names, roots):
    """The file above the tables: what they share, and the root registers."""
    root_rows = [(number(register), HOLDER[holders]) for register, holders in roots]
    modules = sorted(name.lower() for name in names)
    return "".join(
        (
            f"//! The tables. {WRITTEN}\n",
            *(f"mod {module};\n" for module in modules),
            "\n",
            *(f"use {path};\n" for path in USES),
            *(f"pub use {module}::{module.upper()};\n" for module in modules),
            "\n// The ways to make an access: kind, mode, SUM and MXR. The address is that of the case.\n",
            "\n".join(way_constants()),
            "\n/// The words of the deep memory that are not zero, each after its address.\n",
            f"pub static DEEP: [(u64, u64); {len(DEEP)}] = {list_text(words_rows(DEEP), '')};\n",
            "\n/// Root registers, and whose root each may be.\n",
            f"pub static REGISTERS: [(u64, Holder); {len(roots)}] = {list_text(root_rows, '')};\n",
        )
    )


# The tables: each a name, what it is about, and the groups of scenarios in it.
TABLES = (
    ("ADDRESSES", "Alignment, canonical addresses, and stages that are Bare.", (alignment, canonical, bare)),
    ("RIGHTS", "What leaves allow, and global walks.", (rights, marks, host_rights, globals_met)),
    ("ENTRIES", "Entries that stop a walk and entries that do not, and superpages.", (entries, aligned, superpages)),
    ("LEVELS", "The levels of faults, words outside, and the order of the checks.", (pairs, roots_outside, order)),
)


def main():
    tables = [(name, about, [one for group in groups for one in group()]) for name, about, groups in TABLES]
    scenarios = [scenario for _, _, members in tables for scenario in members]
    for scenario in scenarios:
        assert model.guest_root_is_good(scenario.guest) and model.host_root_is_good(scenario.host)
    answers = [answer for scenario in scenarios for _, answer in scenario.cases]
    faults = [answer for answer in answers if isinstance(answer, model.Faulted)]
    # every cause and stage there is, and every pair of levels at stages 2 and 3
    assert {fault.stage for fault in faults} == {0, 1, 2, 3}
    assert {fault.cause for fault in faults} == {0, 1, 4, 5, 6, 7, 12, 13, 15, 20, 21, 23}
    for stage in (2, 3):
        met = {(f.guest_level, f.host_level) for f in faults if f.stage == stage}
        assert met == {(guest, host) for guest in range(4) for host in range(4)}
    roots = registers()
    target = pathlib.Path(__file__).resolve().parent.parent / "crates/walk_cases/src"
    (target / "cases.rt").write_text(file_text([name for name, _, _ in tables], roots))
    (target / "cases").mkdir(exist_ok=True)
    for table in tables:
        (target / "cases" / f"{table[0].lower()}.rt").write_text(table_text(*table))
    print(f"{len(scenarios)} scenarios, {len(answers)} accesses, {len(roots)} registers")


if __name__ == "__main__":
    main()
