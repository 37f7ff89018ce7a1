"""The rows of a capture from the middle of a run, evaluated slowly from the definitions, beside the plain report's: for rows/midway.

Of each channel there are the readings of its next beat: how many beats it is away from the next head, and the head that those beats
belong to, or None where the past has it. Each key of a link is open with an entry, closed, or unknown; of each client and block there
is the set of permissions that its bound may be. A rule is printed where each reading breaks it for all that is known, and leaves a
beat unjudged where some reading may break it for some of what may be, and not each does. In the plain report a head is due everywhere
at first, all keys are closed, and nobody holds anything. Managers have no regions here.
"""
from lawful import CAPS, GROWS_FROM, MOST_PARAM, SHRINKS, WITH_DATA, B, N, T, beat_count, conflicts, lanes

LAWS = ("plain", "any", "bursts", "heads")
ORDER = "F1 F2 F3 F4 F5 F6 F7 F8 F9 F10 U1 S1 S2 S3 S4 S5 S6 S7 S8 S9 P1 P2 P3 P4 P5 P6 P7 P8 M1 M2 M3".split()
CODES = {
    "ul": {"A": (0, 1, 4), "D": (0, 1)},
    "uh": {"A": (0, 1, 2, 3, 4, 5), "D": (0, 1, 2)},
    "c": {"A": range(8), "B": range(8), "C": (0, 1, 2, 4, 5, 6, 7), "D": (0, 1, 2, 4, 5, 6), "E": range(8)},
}
REPLIES = {0: (0,), 1: (0,), 2: (1,), 3: (1,), 4: (1,), 5: (2,), 6: (4, 5), 7: (4,)}
CLAIMS = {param: held_and_left for held_and_left, param in SHRINKS.items()}
ALL = frozenset((N, B, T))
CLOSED, UNKNOWN = "closed", "unknown"


class KnownLink:
    """What is known of one link."""

    def __init__(self, link, exponent, law):
        self.link, self.exponent = link, exponent
        self.by_fields = law == "bursts"
        self.default = CLOSED if law == "plain" else UNKNOWN
        self.tables = {"request": {}, "release": {}, "sink": {}, "probe": {}}
        self.bounds, self.bound_of_others = {}, frozenset((N,)) if law == "plain" else ALL
        self.readings, self.first, self.count = {}, {}, {}
        for channel in "ABCDE":
            bursts = channel in "AD" or (channel in "BC" and link.level == "c")
            missing = max(1, (1 << link.largest) // link.width) - 1 if bursts and law in ("any", "bursts") else 0
            self.readings[channel] = {(it, None) for it in range(missing + 1)}
            self.count[channel] = 0

    def entry(self, table, key):
        """An open entry, CLOSED or UNKNOWN."""
        beyond = table in ("request", "release") and key >= self.link.sources
        return self.tables[table].get(key, CLOSED if beyond else self.default)

    def is_open(self, table, test):
        return any(entry not in (CLOSED, UNKNOWN) and test(entry) for entry in self.tables[table].values())

    def bound(self, block):
        return self.bounds.get(block, self.bound_of_others)

    def block(self, beat):
        return beat.address >> self.exponent << self.exponent


def role(link, beat):
    """What a head does: None where its opcode is no message."""
    if beat.opcode not in CODES[link.level].get(beat.channel, ()):
        return None
    names = {"A": {6: "Acquire", 7: "Acquire"}, "B": {6: "Probe", 7: "Probe"}, "D": {4: "Grant", 5: "Grant", 6: "ReleaseAck"}}
    names["C"] = {4: "ProbeAck", 5: "ProbeAck", 6: "Release", 7: "Release"}
    names["E"] = {beat.opcode: "GrantAck"}
    return names[beat.channel].get(beat.opcode, "other")


def length(link, beat):
    return beat_count(link, beat.channel, beat.opcode, beat.size) if role(link, beat) else 1


def has_known_param(link, beat):
    kind = role(link, beat)
    most = 2 if kind in ("Acquire", "Probe", "Grant") else 5 if kind in ("ProbeAck", "Release") else 0
    if kind == "other" and beat.channel in "AB":
        most = MOST_PARAM.get(beat.opcode, 0)
    return beat.param <= most


def differs(head, beat):
    fields = ("opcode", "param", "size", "source") + (("sink", "denied") if beat.channel == "D" else ("address",))
    return any(getattr(head, field) != getattr(beat, field) for field in fields)


# ---- rules ----


def has_wrong_mask(link, head, mask):
    full = lanes(link, head.size, head.address)
    return bool(mask & ~full) if head.opcode == 1 else mask != full


def format_rules(known, beat):
    link, channel = known.link, beat.channel
    kind = role(link, beat)
    has_data = beat.opcode in WITH_DATA[channel]
    wrong = {
        "F2": not has_known_param(link, beat),
        "F3": channel in "ABC" and beat.address % (1 << beat.size) != 0,
        "F4": channel != "E" and beat.size > link.largest,
        "F5": channel in "AB" and has_wrong_mask(link, beat, beat.mask),
        "F6": channel != "E" and beat.corrupt and not has_data,
        "F7": channel == "D" and has_data and beat.denied and not beat.corrupt,
        "F8": kind not in ("other", "GrantAck") and beat.size != known.exponent,
        "F9": channel != "E" and beat.source >= link.sources,
    }
    return {rule for rule, is_so in wrong.items() if is_so}


def rules_of_head(known, links, beat):
    kind = role(known.link, beat)
    if kind is None:
        return {"F1"}
    found = format_rules(known, beat)
    claims = has_known_param(known.link, beat)
    if beat.channel == "A":
        found |= rules_of_request(known, beat, kind, claims)
    elif kind == "Probe":
        found |= rules_of_probe(known, links, beat)
    elif kind in ("ProbeAck", "Release"):
        found |= rules_of_loss(known, beat, kind, claims)
    elif kind == "ReleaseAck":
        opened = known.entry("release", beat.source)
        if opened == CLOSED:
            found.add("S5")
        elif opened != UNKNOWN and opened[0] != beat.size:
            found.add("S7")
    elif kind == "GrantAck":
        if known.entry("sink", beat.sink) == CLOSED:
            found.add("S9")
    elif beat.channel == "D":
        found |= rules_of_reply(known, links, beat, kind, claims)
    return found


def is_wrong_claim(known, block, held):
    bound = known.bound(block)
    return held not in bound if known.link.strict else all(held > it for it in bound)


def has_acquire(known, block):
    return known.is_open("request", lambda entry: entry[2] == block)


def has_release(known, block):
    return known.is_open("release", lambda entry: entry[1] == block)


def rules_of_request(known, beat, kind, claims):
    block, found = known.block(beat), set()
    if known.entry("request", beat.source) not in (CLOSED, UNKNOWN):
        found.add("S1")
    if kind == "Acquire":
        if claims and is_wrong_claim(known, block, GROWS_FROM[beat.param]):
            found.add("P1")
        if has_acquire(known, block):
            found.add("P6")
        if has_release(known, block):
            found.add("P8")
    return found


def rules_of_probe(known, links, beat):
    block, found = known.block(beat), set()
    if known.entry("probe", block) not in (CLOSED, UNKNOWN):
        found.add("P5")
    if any(other.is_open("sink", lambda entry: entry[0] == block) for other in links):
        found.add("M3")
    return found


def rules_of_loss(known, beat, kind, claims):
    block, found = known.block(beat), set()
    if claims and is_wrong_claim(known, block, CLAIMS[beat.param][0]):
        found.add("P2")
    if has_release(known, block):
        found.add("P8")
    if kind == "Release":
        if known.entry("release", beat.source) not in (CLOSED, UNKNOWN):
            found.add("S6")
        if has_acquire(known, block):
            found.add("P7")
        return found
    opened = known.entry("probe", block)
    if opened == CLOSED:
        found.add("P3")
    elif opened != UNKNOWN and opened[0] is not None and claims and CLAIMS[beat.param][1] > opened[0]:
        found.add("P4")
    return found


def forbids(held, cap):
    """Whether a client that holds this forbids what a Grant gives another; one that gives nothing is never forbidden."""
    return cap != N and conflicts(cap, held)


def rules_of_reply(known, links, beat, kind, claims):
    found, asked = set(), known.entry("request", beat.source)
    if asked == CLOSED:
        found.add("S2")
    elif asked != UNKNOWN:
        found |= {"S3"} if beat.opcode not in REPLIES[asked[0]] else set()
        found |= {"S4"} if asked[1] != beat.size else set()
    if kind != "Grant":
        return found
    if known.entry("sink", beat.sink) not in (CLOSED, UNKNOWN):
        found.add("S8")
    if asked in (CLOSED, UNKNOWN) or asked[2] is None:
        return found
    block, others = asked[2], [other for other in links if other is not known]
    if claims and not beat.denied and any(all(forbids(held, CAPS[beat.param]) for held in other.bound(block)) for other in others):
        found.add("M1")
    if any(other.entry("probe", block) not in (CLOSED, UNKNOWN) for other in links):
        found.add("M2")
    return found


def rules_of_later(known, head, beat):
    """A later beat of a head; of a head of the past only what holds whatever that was."""
    found = {"F7"} if beat.channel == "D" and beat.denied and not beat.corrupt else set()
    if head is None:
        return found | ({"F5"} if beat.channel in "AB" and beat.mask >> known.link.width else set())
    if beat.channel in "AB" and has_wrong_mask(known.link, head, beat.mask):
        found.add("F5")
    return found | ({"U1"} if differs(head, beat) else set())


# ---- what rules ask about ----


def may_claim_wrongly(known, block, held):
    return any(held != it if known.link.strict else held > it for it in known.bound(block))


def asks_of_head(known, links, beat):
    """The rules that ask about something that isn't known of a head. An Acquire, a Release or a Grant of the past may be open on any block."""
    kind = role(known.link, beat)
    if kind is None:
        return set()
    block, claims, found = known.block(beat), has_known_param(known.link, beat), set()
    if beat.channel == "A":
        found |= {"S1"} if known.entry("request", beat.source) == UNKNOWN else set()
        if kind == "Acquire":
            found |= {"P6", "P8"} | ({"P1"} if claims and may_claim_wrongly(known, block, GROWS_FROM[beat.param]) else set())
    elif kind == "Probe":
        found |= {"M3"} | ({"P5"} if known.entry("probe", block) == UNKNOWN else set())
    elif kind in ("ProbeAck", "Release"):
        found |= {"P8"} | ({"P2"} if claims and may_claim_wrongly(known, block, CLAIMS[beat.param][0]) else set())
        if kind == "Release":
            found |= {"P7"} | ({"S6"} if known.entry("release", beat.source) == UNKNOWN else set())
        else:
            found |= {"P3", "P4"} if known.entry("probe", block) == UNKNOWN else set()
    elif kind == "ReleaseAck":
        found |= {"S5", "S7"} if known.entry("release", beat.source) == UNKNOWN else set()
    elif kind == "GrantAck":
        found |= {"S9"} if known.entry("sink", beat.sink) == UNKNOWN else set()
    elif beat.channel == "D":
        found |= asks_of_reply(known, links, beat, kind, claims)
    return found


def asks_of_reply(known, links, beat, kind, claims):
    asked = known.entry("request", beat.source)
    found = {"S2", "S3", "S4"} if asked == UNKNOWN else set()
    if kind != "Grant":
        return found
    found |= {"S8"} if known.entry("sink", beat.sink) == UNKNOWN else set()
    if asked == UNKNOWN:
        return found | {"M1", "M2"}
    if asked == CLOSED or asked[2] is None:
        return found
    block, others = asked[2], [other for other in links if other is not known]
    if claims and not beat.denied and any(forbids(held, CAPS[beat.param]) for other in others for held in other.bound(block)):
        found.add("M1")
    if any(other.entry("probe", block) == UNKNOWN for other in links):
        found.add("M2")
    return found


def may_break(known, links, reading, beat):
    """The rules that a beat may break by a reading: of a message of the past nobody knows the head."""
    missing, head = reading
    if missing == 0:
        return rules_of_head(known, links, beat) | asks_of_head(known, links, beat)
    if head is None:
        return rules_of_later(known, None, beat) | {"U1"} | ({"F5"} if beat.channel in "AB" else set())
    return rules_of_later(known, head, beat)


def surely_breaks(known, links, reading, beat):
    missing, head = reading
    return rules_of_head(known, links, beat) if missing == 0 else rules_of_later(known, head, beat)


# ---- steps ----


def set_key(known, table, key, certain, entry):
    """A key after a head that opens it with an entry, or closes it, or that may do so."""
    if certain:
        known.tables[table][key] = entry
    elif known.entry(table, key) != entry:
        known.tables[table][key] = UNKNOWN


def set_bound(known, block, certain, held):
    known.bounds[block] = frozenset((held,)) if certain else known.bound(block) | {held}


def give_any_block(known, held):
    """A Grant whose request nobody knows: its block may be any."""
    known.bounds = {block: bound | {held} for block, bound in known.bounds.items()}
    known.bound_of_others |= {held}


def grant(known, beat, certain, asked):
    sound = has_known_param(known.link, beat) and not beat.denied
    if asked == UNKNOWN:
        set_key(known, "sink", beat.sink, certain, (UNKNOWN,))
        if sound:
            give_any_block(known, CAPS[beat.param])
        return
    block = None if asked == CLOSED else asked[2]
    set_key(known, "sink", beat.sink, certain, (block,))
    if block is not None and sound:
        set_bound(known, block, certain, CAPS[beat.param])


def effects(known, beat, certain):
    """A head: what it opens, closes and sets, or may."""
    kind, block = role(known.link, beat), known.block(beat)
    if kind is None:
        return
    claims = has_known_param(known.link, beat)
    if beat.channel == "A":
        set_key(known, "request", beat.source, certain, (beat.opcode, beat.size, block if kind == "Acquire" else None))
        if kind == "Acquire" and claims:
            set_bound(known, block, certain, GROWS_FROM[beat.param])
    elif kind == "Probe":
        set_key(known, "probe", block, certain, (CAPS[beat.param] if claims else None,))
    elif kind in ("ProbeAck", "Release"):
        if kind == "ProbeAck":
            set_key(known, "probe", block, certain, CLOSED)
        else:
            set_key(known, "release", beat.source, certain, (beat.size, block))
        if claims:
            set_bound(known, block, certain, CLAIMS[beat.param][1])
    elif kind == "ReleaseAck":
        set_key(known, "release", beat.source, certain, CLOSED)
    elif kind == "GrantAck":
        set_key(known, "sink", beat.sink, certain, CLOSED)
    elif beat.channel == "D":
        asked = known.entry("request", beat.source)
        set_key(known, "request", beat.source, certain, CLOSED)
        if kind == "Grant":
            grant(known, beat, certain, asked)


def is_dropped(known, reading, beat):
    """Whether a beat of a lead-in differs from the head of a reading."""
    missing, head = reading
    if missing == 0:
        return False
    if head is not None:
        return differs(head, beat)
    count = known.count[beat.channel]
    return length(known.link, beat) <= missing + count or differs(known.first.get(beat.channel, beat), beat) or not carries_data(known.link, beat)


def carries_data(link, beat):
    return role(link, beat) is not None and beat.opcode in WITH_DATA[beat.channel]


def step(known, links, beat):
    """The rules that are printed of a beat, whether it stands in the lead-in of its channel, and the rules that leave it unjudged. What is
    known then counts the beat."""
    readings = known.readings[beat.channel]
    may = set.union(*(may_break(known, links, it, beat) for it in readings))
    unjudged = may - set.intersection(*(surely_breaks(known, links, it, beat) for it in readings))
    leads_in = len({missing for missing, _ in readings}) > 1
    if known.by_fields and leads_in:
        readings = {it for it in readings if not is_dropped(known, it, beat)} or readings
    printed = set.intersection(*(surely_breaks(known, links, it, beat) for it in readings))
    may_begin = any(missing == 0 for missing, _ in readings)
    if may_begin:
        effects(known, beat, len(readings) == 1)
    after = length(known.link, beat) - 1
    known.readings[beat.channel] = {as_due(missing - 1, head) if missing else as_due(after, beat) for missing, head in readings}
    known.first.setdefault(beat.channel, beat)
    known.count[beat.channel] += 1
    return sorted(printed, key=ORDER.index), leads_in, unjudged


def as_due(missing, head):
    """A head is due whatever stood before it."""
    return (missing, head) if missing else (0, None)


def judge(topology, capture, law):
    """Of each link the printed rows, as (index of the beat, rule), and the indices of the beats that stand in a lead-in; and of all
    links the rules that leave beats unjudged, in the order of reports, with how many beats."""
    links = [KnownLink(link, topology.managers[link.manager].block, law) for link in topology.links]
    order = sorted((beat.cycle, beat.channel, number, at) for number, beats in enumerate(capture) for at, beat in enumerate(beats))
    rows, leads, unjudged = [[] for _ in links], [set() for _ in links], dict.fromkeys(ORDER, 0)
    managers = [[other for other in links if other.link.manager == known.link.manager] for known in links]
    for _, _, number, at in order:
        rules, leads_in, left = step(links[number], managers[number], capture[number][at])
        rows[number] += [(at, rule) for rule in rules]
        if leads_in:
            leads[number].add(at)
        for rule in left:
            unjudged[rule] += 1
    return rows, leads, {rule: count for rule, count in unjudged.items() if count}
