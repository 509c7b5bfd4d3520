"""Chooses calls and their arguments for a volume whose state is known.

A call is a tuple: the record's letter and the arguments in the record's
order, e.g. ('W', name, fork, offset, data, changed).
"""

import maker
from spelling import fold

FAR = (1 << 16, 1 << 32, (1 << 32) + 1, 1 << 63, (1 << 64) - 1)


class State:
    """What a chooser needs to know.  forks[name] holds, for each fork, its
    logical length and its count of blocks."""

    def __init__(self, block_size, free, forks):
        self.block_size = block_size
        self.free = free
        self.forks = forks
        self.names = list(forks)


def state_of_made(m):
    return State(m.a, m.free, {
        file.name: [(fork.logical, len(fork.blocks)) for fork in file.forks]
        for file in m.files()})


def state_of_volume(v):
    return State(v.facts.block_size, v.facts.free, {
        placed.entry.name: [(fork.logical, len(chain)) for fork, chain
                            in zip(placed.entry.forks, placed.chains)]
        for placed in v.entries})


def good_name(rng, state):
    return rng.choice(state.names) if state.names else b'none'


def bad_name(rng, state):
    """A name that is no name: empty, or above 255."""
    kind = rng.randrange(4)
    if kind == 0:
        return b''
    if kind == 1:
        return good_name(rng, state) + maker.some_bytes(rng, 256)
    return maker.any_name(rng, rng.choice((256, 256, 257, 300)))


def missing_name(rng, state):
    """A name that no file has, often close to one that a file has."""
    while True:
        near = good_name(rng, state)
        kind = rng.randrange(5)
        if kind == 0:
            name = near[:-1]
        elif kind == 1:
            name = near + maker.any_name(rng, 1)
        elif kind == 2:
            name = maker.near_name(rng, near)
        else:
            name = maker.any_name(rng, maker.name_length(rng))
        taken = {fold(other) for other in state.names}
        if 1 <= len(name) <= 255 and fold(name) not in taken:
            return name


def name_for(rng, state, good=0.8):
    """A name, and the state's own spelling of it where a file has it."""
    r = rng.random()
    if r < good and state.names:
        own = good_name(rng, state)
        return rng.choice((own, maker.other_case(rng, own))), own
    if r < good + (1 - good) * 0.7:
        return missing_name(rng, state), None
    return bad_name(rng, state), None


def some_offset(rng, state, logical, good=0.8):
    """An offset or a cut length, mostly not above the logical length."""
    if rng.random() < good:
        a = state.block_size
        return rng.choice((
            0, logical, max(0, logical - 1), rng.randint(0, logical),
            rng.randint(0, logical), min(logical, a), min(logical, a + 1),
            min(logical, a - 1), logical // a * a))
    return rng.choice((logical + 1, logical + 1, logical + rng.randint(1, 2000),
                       (1 << 32) + logical, (1 << 64) - 1,
                       (1 << 64) - rng.randint(1, 600)))


def entry_call(rng, state):
    count = len(state.names)
    if count and rng.random() < 0.75:
        return 'E', rng.randrange(count)
    return 'E', rng.choice((count, count, count + 1) + FAR)


def find_call(rng, state):
    return 'F', name_for(rng, state)[0]


def quick_call(rng, state):
    return 'Q', name_for(rng, state)[0]


def fork_for(rng, state, good):
    """A name and a fork; mostly a fork that has blocks.  Also the fork's
    logical length and count of blocks, 0 where there is no such file."""
    name, own = name_for(rng, state, good)
    fork = rng.randrange(2)
    filled = [(other, which) for other in state.names for which in (0, 1)
              if state.forks[other][which][1]]
    if own is not None and filled and rng.random() < 0.75:
        own, fork = rng.choice(filled)
        name = rng.choice((own, maker.other_case(rng, own)))
    logical, count = (0, 0) if own is None else state.forks[own][fork]
    return name, fork, logical, count


def block_call(rng, state):
    name, fork, _, count = fork_for(rng, state, 0.85)
    if count and rng.random() < 0.75:
        return 'B', name, fork, rng.choice((0, count - 1, rng.randrange(count)))
    return 'B', name, fork, rng.choice((count, count, count + 1) + FAR)


def read_call(rng, state):
    name, fork, logical, _ = fork_for(rng, state, 0.85)
    offset = some_offset(rng, state, logical)
    if rng.random() < 0.4:
        offset = rng.randint(0, logical // 2)
    left = max(0, logical - offset)
    length = rng.choice((0, 1, rng.randint(1, 300), rng.randint(1, 3000),
                         left, left, left + 1, max(0, left - 1),
                         left + rng.randint(0, 600), state.block_size))
    return 'R', name, fork, offset, min(length, 65535)


def creating(rng, name):
    return ('N', name, maker.some_bytes(rng, 16), rng.getrandbits(32),
            rng.getrandbits(32))


def create_call(rng, state):
    r = rng.random()
    if r < 0.77:
        length = maker.new_length if r < 0.7 else maker.long_length
        name = maker.new_name(rng, length(rng), state.names) or b'!'
    elif r < 0.92 and state.names:
        name = maker.other_case(rng, good_name(rng, state))
    else:
        name = bad_name(rng, state)
    return creating(rng, name)


def write_call(rng, state, most_data=2500):
    name, own = name_for(rng, state)
    fork = rng.randrange(2)
    logical, count = (0, 0) if own is None else state.forks[own][fork]
    offset = some_offset(rng, state, logical)
    if rng.random() < 0.3:
        offset = logical
    a = state.block_size
    room = count * a                # what the fork's own blocks hold
    whole = room + state.free * a   # what it can hold at most
    to_border = a - offset % a
    length = rng.choice((
        0, 1, rng.randint(0, 100), rng.randint(0, 100), rng.randint(0, 700),
        to_border, to_border + 1, room - offset, room - offset + 1,
        whole - offset, whole - offset + 1))
    if not 0 <= length <= most_data:
        length = rng.randint(0, 60)
    return ('W', name, fork, offset, maker.some_bytes(rng, length),
            rng.getrandbits(32))


def cut_call(rng, state):
    name, fork, logical, _ = fork_for(rng, state, 0.8)
    return ('U', name, fork, some_offset(rng, state, logical),
            rng.getrandbits(32))


def delete_call(rng, state):
    return 'D', name_for(rng, state)[0]


def rename_call(rng, state):
    old, own = name_for(rng, state, 0.85)
    own = own or old
    r = rng.random()
    if r < 0.5:
        length = maker.new_length(rng)
        if r < 0.15:
            length = min(31, maker.length_for(rng, maker.File(own).size()))
        new = maker.new_name(rng, length, state.names) or b'!'
    elif r < 0.65:
        new = maker.other_case(rng, good_name(rng, state))
    elif r < 0.85:
        new = rng.choice((own, maker.other_case(rng, own)))
    elif r < 0.92:
        new = maker.any_name(rng, maker.long_length(rng))
    else:
        new = bad_name(rng, state)
    return 'M', old, new, rng.getrandbits(32)


CHOICES = {
    'C': lambda rng, state: ('C',),
    'E': entry_call, 'F': find_call, 'B': block_call, 'R': read_call,
    'N': create_call, 'W': write_call, 'U': cut_call, 'D': delete_call,
    'M': rename_call, 'Q': quick_call}


def choose(rng, state, kinds):
    """A call whose letter is one of kinds (letters may be repeated)."""
    return CHOICES[rng.choice(kinds)](rng, state)
