"""Lawful traffic, which rows/midway and rows/midway_table share: beats of links that break no rule, cut at a cycle, and mistakes in them.

A run goes through the cycles, and in each through the channels from A to E and the links in their order, as positions are ordered. The
first beat of a message is chosen by what the whole system holds just then, so that no rule is broken whatever comes after it. Nothing
here asks a checker.
"""
import random
from collections import Counter, namedtuple

Manager = namedtuple("Manager", "name block blocks forwards")
Link = namedtuple("Link", "name manager level width largest sources strict")
Topology = namedtuple("Topology", "managers links")
Beat = namedtuple("Beat", "cycle channel opcode param size source sink address mask denied corrupt")

N, B, T = 0, 1, 2
GROWS_FROM = {0: N, 1: N, 2: B}
CAPS = {0: T, 1: B, 2: N}
SHRINKS = {(T, B): 0, (T, N): 1, (B, N): 2, (T, T): 3, (B, B): 4, (N, N): 5}
WITH_DATA = {"A": (0, 1, 2, 3), "B": (0, 1, 2, 3), "C": (1, 5, 7), "D": (1, 5), "E": ()}
MOST_PARAM = {2: 4, 3: 3, 5: 1}
CHANNELS = {"ul": "AD", "uh": "AD", "c": "ABCDE"}
REQUESTS = {"ul": (0, 1, 4), "uh": (0, 1, 2, 3, 4, 5), "c": (0, 1, 4)}


# ---- topologies ----


def coherent(count=4):
    """Clients of one manager, whose blocks have eight beats."""
    return Topology([Manager("m0", 6, 12, False)], [Link(f"cpu{it}", 0, "c", 8, 6, 8, False) for it in range(count)])


def single_beats(count=16):
    """TL-UL links, on which each message has one beat."""
    return Topology([Manager("m0", 6, 12, False)], [Link(f"dma{it}", 0, "ul", 8, 3, 4, False) for it in range(count)])


def mixed():
    """All levels at two managers, with bursts of 2 to 16 beats and a strict link."""
    links = [
        Link("cpu0", 0, "c", 8, 6, 4, False),
        Link("cpu1", 0, "c", 4, 6, 4, True),
        Link("dev0", 0, "uh", 8, 7, 4, False),
        Link("dma0", 0, "ul", 8, 3, 2, False),
        Link("cpu2", 1, "c", 16, 5, 4, False),
        Link("cpu3", 1, "c", 8, 6, 6, False),
        Link("dev1", 1, "uh", 4, 5, 2, False),
    ]
    return Topology([Manager("m0", 6, 6, True), Manager("m1", 5, 6, False)], links)


KINDS = {"coherent": coherent, "ul": single_beats, "mixed": mixed}


def topology_text(topology):
    strict = any(link.strict for link in topology.links)
    lines = ["topo 2" if strict else "topo 1"]
    lines += [f"manager {manager.name} {1 << manager.block}" for manager in topology.managers]
    for link in topology.links:
        words = [link.name, topology.managers[link.manager].name, link.level, link.width, link.largest, link.sources]
        lines.append("link " + " ".join(str(word) for word in words) + (" strict" if link.strict else ""))
    return "\n".join(lines + ["end", ""])


# ---- messages ----


def beat_count(link, channel, opcode, size):
    return max(1, (1 << size) // link.width) if opcode in WITH_DATA[channel] else 1


def lanes(link, size, address):
    """The mask of the lanes that a message uses."""
    if 1 << size >= link.width:
        return (1 << link.width) - 1
    return ((1 << (1 << size)) - 1) << (address % link.width >> size << size)


class Client:
    """A link: what of it is in flight, what it may hold, and the beats that its channels have still to send."""

    def __init__(self, link, home):
        self.link, self.home = link, home
        self.requests, self.releases, self.sinks, self.probes = {}, {}, {}, {}
        self.bounds = {}
        self.beats = []
        self.unsent = {channel: [] for channel in CHANNELS[link.level]}
        self.ready = dict.fromkeys(self.unsent, 0)

    def bound(self, block):
        return self.bounds.get(block, N)

    def acquires(self, block):
        return any(block == other for _, _, _, other in self.requests.values())

    def releases_block(self, block):
        return block in self.releases.values()


class Home:
    """A manager: its blocks, its clients, and whose Acquire of a block it serves. Some forward accesses to their clients."""

    def __init__(self, seed, manager):
        self.seed, self.manager = seed, manager
        self.block_bytes = 1 << manager.block
        self.blocks = [0x80000000 + self.block_bytes * it for it in range(manager.blocks)]
        self.clients, self.served = [], {}
        self.open_probes, self.open_grants = Counter(), Counter()


def free(seed, taken, count):
    """A number below `count` that isn't taken."""
    number = seed.randrange(count)
    return None if number in taken else number


def message(seed, link, channel, opcode, param, size, source, address=0, sink=0, denied=0):
    """The beats of a message, without their cycles, the last one first."""
    made = []
    full = lanes(link, size, address) if channel in "AB" else 0
    has_data = opcode in WITH_DATA[channel]
    for _ in range(beat_count(link, channel, opcode, size)):
        mask = full & seed.getrandbits(link.width) if channel in "AB" and opcode == 1 else full
        corrupt = int(has_data and (denied or seed.random() < 0.02))
        made.append((opcode, param, size, source, sink, address, mask, denied, corrupt))
    return made


def plain_request(seed, client, channel, source):
    """A message of A or B that asks for no permission."""
    link = client.link
    opcode = seed.choice(REQUESTS[link.level] if channel == "A" else (0, 1, 2, 3, 4, 5))
    size = seed.randrange(link.largest + 1)
    param = seed.randrange(MOST_PARAM.get(opcode, 0) + 1)
    address = 0x1000 + (seed.randrange(64) << size)
    return opcode, param, size, source, address


def request(seed, client):
    source = free(seed, client.requests, client.link.sources)
    if source is None:
        return None
    if client.link.level == "c" and seed.random() < 0.8:
        return acquire(seed, client, source)
    opcode, param, size, source, address = plain_request(seed, client, "A", source)
    client.requests[source] = (opcode, param, size, None)
    return message(seed, client.link, "A", opcode, param, size, source, address)


def acquire(seed, client, source):
    block = seed.choice(client.home.blocks)
    held = client.bound(block)
    if not client.link.strict and seed.random() < 0.1:
        held = seed.randrange(held + 1)
    if held == T or client.acquires(block) or client.releases_block(block):
        return None
    opcode = seed.choice((6, 6, 6, 7))
    param = 2 if held == B else seed.randrange(2)
    client.requests[source] = (opcode, param, client.home.manager.block, block)
    client.bounds[block] = held
    return message(seed, client.link, "A", opcode, param, client.home.manager.block, source, block)


def wanted(client, block):
    """What the open Acquire of a block asks for."""
    return next(B if param == 0 else T for _, param, _, other in client.requests.values() if other == block)


def serve(home, block):
    """Whose Acquire of a block is served: one at a time, so that each comes to its Grant."""
    if block not in home.served:
        waiting = [client for client in home.clients if client.acquires(block)]
        if not waiting:
            return None
        home.served[block] = home.seed.choice(waiting)
    return home.served[block]


def conflicts(cap, held):
    return held == T or (held == B and cap == T)


def probe(seed, client):
    home = client.home
    if home.manager.forwards and seed.random() < 0.1:
        return forwarded(seed, client)
    block = seed.choice(home.blocks)
    if block in client.probes or home.open_grants[block]:
        return None
    served = serve(home, block)
    if served in (None, client):
        if seed.random() < 0.97:
            return None
        param = seed.randrange(3)
    else:
        cap = wanted(served, block)
        if not conflicts(cap, client.bound(block)):
            return None
        param = 2 if cap == T else seed.choice((1, 1, 2))
    client.probes[block] = CAPS[param]
    home.open_probes[block] += 1
    return message(seed, client.link, "B", seed.choice((6, 6, 7)), param, home.manager.block, seed.randrange(client.link.sources), block)


def forwarded(seed, client):
    """An access that the manager forwards. Nothing pairs it with its reply."""
    opcode, param, size, source, address = plain_request(seed, client, "B", seed.randrange(client.link.sources))
    return message(seed, client.link, "B", opcode, param, size, source, address)


def response(seed, client):
    """A ProbeAck, a Release, or now and then the reply to a forwarded access."""
    link, home = client.link, client.home
    if home.manager.forwards and seed.random() < 0.05:
        size = seed.randrange(link.largest + 1)
        return message(seed, link, "C", seed.randrange(3), 0, size, seed.randrange(link.sources), seed.randrange(64) << size)
    answerable = [block for block in client.probes if not client.releases_block(block)]
    if answerable:
        return probe_ack(seed, client, seed.choice(answerable))
    return release(seed, client) if seed.random() < 0.15 else None


def claim(seed, client, block):
    """What a ProbeAck or a Release says that its client held."""
    held = client.bound(block)
    return seed.randrange(held + 1) if not client.link.strict and seed.random() < 0.1 else held


def probe_ack(seed, client, block):
    held = claim(seed, client, block)
    left = min(held, client.probes.pop(block))
    if seed.random() < 0.1:
        left = seed.randrange(left + 1)
    client.home.open_probes[block] -= 1
    client.bounds[block] = left
    opcode = 5 if held == T and seed.random() < 0.8 else 4
    return message(seed, client.link, "C", opcode, SHRINKS[held, left], client.home.manager.block, seed.randrange(client.link.sources), block)


def release(seed, client):
    source = free(seed, client.releases, client.link.sources)
    block = seed.choice(client.home.blocks)
    if source is None or client.acquires(block) or client.releases_block(block):
        return None
    held = claim(seed, client, block)
    if held == N and seed.random() < 0.98:
        return None
    left = seed.randrange(held) if held and seed.random() < 0.95 else held
    client.releases[source] = block
    client.bounds[block] = left
    opcode = 7 if held == T and seed.random() < 0.8 else 6
    return message(seed, client.link, "C", opcode, SHRINKS[held, left], client.home.manager.block, source, block)


def reply(seed, client):
    ways = [("release", it) for it in client.releases] + [("request", it) for it in client.requests]
    if not ways:
        return None
    way, source = seed.choice(ways)
    if way == "release":
        del client.releases[source]
        return message(seed, client.link, "D", 6, 0, client.home.manager.block, source)
    opcode, _, size, block = client.requests[source]
    if block is not None:
        return grant(seed, client, source)
    del client.requests[source]
    answer = 0 if opcode in (0, 1) else 2 if opcode == 5 else 1
    return message(seed, client.link, "D", answer, 0, size, source, denied=int(seed.random() < 0.03))


def grant(seed, client, source):
    home = client.home
    opcode, param, size, block = client.requests[source]
    if serve(home, block) is not client or home.open_probes[block]:
        return None
    sink = free(seed, client.sinks, 8)
    others = max((other.bound(block) for other in home.clients if other is not client), default=N)
    cap = B if param == 0 else T
    if sink is None or conflicts(cap, others):
        return None
    if cap == B and others == N and seed.random() < 0.2:
        cap = T
    denied = int(seed.random() < 0.03)
    if not denied:
        client.bounds[block] = cap
    del client.requests[source], home.served[block]
    client.sinks[sink] = block
    home.open_grants[block] += 1
    answer = 4 if opcode == 7 or (param == 2 and seed.random() < 0.5) else 5
    return message(seed, client.link, "D", answer, T - cap, size, source, sink=sink, denied=denied)


def acknowledge(seed, client):
    """A GrantAck, as a rule after the last beat of its Grant."""
    if not client.sinks or (client.unsent["D"] and seed.random() < 0.9):
        return None
    sink = seed.choice(list(client.sinks))
    client.home.open_grants[client.sinks.pop(sink)] -= 1
    return [(0, 0, 0, 0, sink, 0, 0, 0, 0)]


MAKERS = {"A": request, "B": probe, "C": response, "D": reply, "E": acknowledge}
EAGER = {"A": 0.25, "B": 0.6, "C": 0.6, "D": 0.5, "E": 0.5}
GAPS = (0, 0, 0, 0, 0, 1, 1, 2, 5)


def run(topology, number, beats, first=0):
    """Lawful traffic of some thousand beats from a cycle on: for each link its beats. `number` is the seed."""
    seed = random.Random(number)
    homes = [Home(seed, manager) for manager in topology.managers]
    clients = [Client(link, homes[link.manager]) for link in topology.links]
    for client in clients:
        client.home.clients.append(client)
    # What speaks when: positions are ordered by channel first, and then by link.
    turns = [(channel, client) for channel in "ABCDE" for client in clients if channel in client.unsent]
    cycle, sent = first, 0
    while sent < beats:
        for channel, client in turns:
            if client.ready[channel] > cycle:
                continue
            unsent = client.unsent[channel]
            if not unsent:
                made = MAKERS[channel](seed, client) if seed.random() < EAGER[channel] else None
                if not made:
                    continue
                unsent += made
            client.beats.append(Beat(cycle, channel, *unsent.pop()))
            client.ready[channel] = cycle + 1 + seed.choice(GAPS)
            sent += 1
        cycle += 1
    return [client.beats for client in clients]


# ---- cutting ----


def last_cycle(capture):
    return max((beats[-1].cycle for beats in capture if beats), default=0)


def cut_at(capture, cycle):
    """What a recorder has that begins with a cycle."""
    return [[beat for beat in beats if beat.cycle >= cycle] for beats in capture]


def later_beats(link, beats):
    """Of each beat whether it is a later beat of a message, counted from the beginning of its channel."""
    missing, later = Counter(), []
    for beat in beats:
        later.append(missing[beat.channel] > 0)
        missing[beat.channel] += -1 if later[-1] else beat_count(link, beat.channel, beat.opcode, beat.size) - 1
    return later


def first_heads(topology, capture, cycle):
    """The cycle of the first head of each channel of each link from a cycle on."""
    begins = {}
    for number, (link, beats) in enumerate(zip(topology.links, capture)):
        for beat, later in zip(beats, later_beats(link, beats)):
            if beat.cycle >= cycle and not later:
                begins.setdefault((number, beat.channel), beat.cycle)
    return begins


def cut_from(capture, begins):
    """What a recorder has that begins with these cycles, and of channels that have none nothing."""
    never = last_cycle(capture) + 1
    return [[beat for beat in beats if beat.cycle >= begins.get((link, beat.channel), never)] for link, beats in enumerate(capture)]


def cut_at_heads(topology, capture, cycle):
    """What a recorder has that begins with a cycle and waits on each channel for the head of a message."""
    return cut_from(capture, first_heads(topology, capture, cycle))


# ---- mistakes ----


def drop(seed, beats, at):
    return beats[:at] + beats[at + 1 :]


def double(seed, beats, at):
    """The beat once more, in the next cycle that its channel has free."""
    beat = beats[at]
    taken = {other.cycle for other in beats if other.channel == beat.channel}
    cycle = beat.cycle + 1
    while cycle in taken:
        cycle += 1
    return sorted(beats + [beat._replace(cycle=cycle)], key=lambda other: (other.cycle, other.channel))


FIELDS = {
    "A": ("opcode", "param", "size", "source", "address", "mask", "corrupt"),
    "B": ("opcode", "param", "size", "source", "address", "mask", "corrupt"),
    "C": ("opcode", "param", "size", "source", "address", "corrupt"),
    "D": ("opcode", "param", "size", "source", "sink", "denied", "corrupt"),
    "E": ("sink",),
}
RANGES = {"opcode": 8, "param": 6, "size": 8, "source": 10, "sink": 10, "denied": 2, "corrupt": 2}


def change(seed, beats, at):
    """The beat with another value in one of its fields."""
    beat = beats[at]
    field = seed.choice(FIELDS[beat.channel])
    old = getattr(beat, field)
    if field == "address":
        new = old ^ 1 << seed.choice((0, 2, 5, 6, 6, 7, 7, 8))
    elif field == "mask":
        new = old ^ 1 << seed.randrange(10)
    else:
        new = seed.choice([it for it in range(RANGES[field]) if it != old])
    return beats[:at] + [beat._replace(**{field: new})] + beats[at + 1 :]


MISTAKES = (drop, double, change)


def mistaken(seed, capture, cycle):
    """The capture with one beat from a cycle on dropped, doubled or changed."""
    places = [(link, at) for link, beats in enumerate(capture) for at, beat in enumerate(beats) if beat.cycle >= cycle]
    link, at = seed.choice(places)
    made = list(capture)
    made[link] = seed.choice(MISTAKES)(seed, capture[link], at)
    return made


def message_at(link, beats, at):
    """The indices of the beats of the message that a beat of a whole run belongs to."""
    channel = [it for it, beat in enumerate(beats) if beat.channel == beats[at].channel]
    later = later_beats(link, [beats[it] for it in channel])
    place = first = channel.index(at)
    while later[first]:
        first -= 1
    while place + 1 < len(channel) and later[place + 1]:
        place += 1
    return channel[first : place + 1]


def send_again(link, beats, indices):
    """A message once more, in the next cycles between two others of its channel. None where no such cycles come."""
    channel = [beat for beat in beats if beat.channel == beats[indices[0]].channel]
    later = later_beats(link, channel)
    for place in range(channel.index(beats[indices[-1]]), len(channel) - 1):
        free_from = channel[place].cycle + 1
        if not later[place + 1] and channel[place + 1].cycle - free_from >= len(indices):
            again = [beats[it]._replace(cycle=free_from + number) for number, it in enumerate(indices)]
            return sorted(beats + again, key=lambda beat: (beat.cycle, beat.channel))
    return None


def mistaken_message(seed, link, beats, at):
    """The beats with a whole message left out, sent twice, or with another value in one of its fields."""
    indices = message_at(link, beats, at)
    way = seed.choice(("leave out", "twice", "change"))
    if way == "leave out":
        return [beat for it, beat in enumerate(beats) if it not in indices]
    if way == "twice":
        return send_again(link, beats, indices) or mistaken_message(seed, link, beats, at)
    field = seed.choice([field for field in FIELDS[beats[at].channel] if field in ("param", "source", "sink", "address", "denied")])
    old = getattr(beats[at], field)
    new = old ^ 1 << seed.choice((5, 6, 6, 7, 7, 8)) if field == "address" else seed.choice([it for it in range(max(2, RANGES[field] - 2)) if it != old])
    return [beat._replace(**{field: new}) if it in indices else beat for it, beat in enumerate(beats)]


# ---- text ----


def beat_text(beat):
    cycle, channel, opcode, param, size, source, sink, address, mask, denied, corrupt = beat
    if channel == "E":
        return f"{cycle} E {sink}"
    if channel == "D":
        return f"{cycle} D {opcode} {param} {size} {source} {sink} {denied} {corrupt}"
    if channel == "C":
        return f"{cycle} C {opcode} {param} {size} {source} {address:x} {corrupt}"
    return f"{cycle} {channel} {opcode} {param} {size} {source} {address:x} {mask:x} {corrupt}"


def pieces(seed, beats, most):
    """The beats in pieces of at most some beats, of which none ends within a cycle."""
    made, at = [], 0
    while at < len(beats):
        end = min(len(beats), at + seed.randrange(6, most))
        while end < len(beats) and beats[end].cycle == beats[end - 1].cycle:
            end += 1
        made.append(beats[at:end])
        at = end
    return made


def fragments(seed, topology, capture, first=0, most=60000):
    """The fragments of a capture: of each its link's name, and its text."""
    made = []
    for link, beats in zip(topology.links, capture):
        begins = first
        for number, piece in enumerate(pieces(seed, beats, most), 1):
            lines = [f"fragment {link.name} {number} {begins} {piece[-1].cycle}", *map(beat_text, piece), "end", ""]
            made.append((link.name, "\n".join(lines)))
            begins = piece[-1].cycle + 1
    return made
