"""Random captures, which rows/streams and rows/setups share: beats of a link that break rules as they come, cut into fragments."""


def beat(seed, cycle, channel):
    bits = "%d 0" if channel == "D" else "0"
    head = f"{seed.randrange(8)} {seed.randrange(6)} {seed.randrange(7)} {seed.randrange(4)}"
    address = f"{0x1000 + 64 * seed.randrange(4):x}"
    if channel in "AB":
        return f"{cycle} {channel} {head} {address} {seed.choice(['ff', 'f', '1', 'f0'])} 0"
    if channel == "C":
        return f"{cycle} C {head} {address} 0"
    if channel == "D":
        return f"{cycle} D {head} {seed.randrange(4)} 0 0"
    return f"{cycle} E {seed.randrange(4)}"


def capture(seed, count, most):
    """The beats of a link, each with its cycle."""
    cycle, beats = 0, []
    while len(beats) < count:
        cycle += seed.choice([0, 0, 1, 1, 2, 3, most])
        channels = [it for it in "ABCDE" if seed.random() < 0.4]
        beats += [(cycle, beat(seed, cycle, it)) for it in channels]
        cycle += 1
    return beats[:count]


def fragments(seed, link, beats):
    """Fragments of a link: (last cycle, text), with gaps between ranges and empty ones too."""
    made, number, first, at = [], 0, 0, 0
    while at < len(beats):
        number += seed.randrange(1, 3)
        end = min(len(beats), at + seed.choice([0, 1, 2, 5, 30]))
        while 0 < end < len(beats) and beats[end][0] == beats[end - 1][0]:
            end += 1
        first += seed.randrange(2) if at == 0 or beats[at][0] > first else 0
        first = min(first, beats[at][0])
        last = max(first, beats[end - 1][0] if end > at else first)
        if end > at or beats[at][0] > last:
            lines = [text for _, text in beats[at:end]]
            made.append((last, "\n".join([f"fragment {link} {number} {first} {last}", *lines, "end", ""])))
            at, first = end, last + 1
    return made
