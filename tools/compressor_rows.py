#!/usr/bin/env python3
"""compressor_rows.py: what lists of steps over a compressor come to, by the rules of the three spellings alone (RFC 1035 4.1.4).

It prints the rows of `crates/dns_message_rows/stdin` that begin with `Compressor::random` or `Compressor::append_owners`, and
behind each, after a tab, what it has to answer. What is remembered is a list of suffixes, each with the place where it stands
and the place where its spelling stops; a name is spelled, and octets are truncated, in the plainest way. Nothing here follows
the compressors' code."""

PROBES = 8
STEPS_AT_ONCE = 250
LABELS = [b"a", b"A", b"b", b"ab", b"aB", b"[]", b"{}", b"example"]
OCTETS = [b"\0", b"\1a\0", b"\xc0\0", b"\1\2\3\4"]
REACHED = 16_384  # a pointer has 14 bits for a place
MOST_STATIC = 24

ARRAY_BOUND = 256
# The front octets as a row writes them, the seed and the steps.
OVER_ARRAY = [("-", 1, 1000), ("-", 2, 1000)]
OVER_VEC = [("00*16250", 3, 1000), ("00*16330", 4, 1000), ("-", 5, 2000)]
# The owners of a zone in order, and how long a message may be to take a further one.
OWNERS = 3000
LONG = 16_000


def wire(labels):
    return b"".join(bytes([len(label)]) + label for label in labels) + b"\0"


def folded(kind, labels):
    """The suffix as it is compared: octet for octet under `tree`, or else up to ASCII case."""
    return tuple(labels) if kind == "tree" else tuple(label.lower() for label in labels)


def may_be_remembered(kind, count, place):
    return place < REACHED and (kind != "static" or count < MOST_STATIC)


def split(kind, known, place, labels):
    """How many labels are written one by one, and what stands for the rest: its place, or nothing if it is written in full."""
    places = {suffix: at for suffix, at, _ in known}
    if kind == "hash":
        for first in range(len(labels)):  # the longest first
            if folded(kind, labels[first:]) in places:
                return first, places[folded(kind, labels[first:])]
        return len(labels), None
    for first in range(len(labels)):
        rest = labels[first:]
        if folded(kind, rest) in places:
            return first, places[folded(kind, rest)]
        if not may_be_remembered(kind, len(known) + first, place + len(wire(labels[:first])) - 1):
            return first, None
    return len(labels), None


def spell(kind, known, place, labels):
    """The octets of a name, and what is remembered after it."""
    first, target = split(kind, known, place, labels)
    text = wire(labels[:first])[:-1]
    text += wire(labels[first:]) if target is None else (0xC000 + target).to_bytes(2, "big")
    places = [place + len(wire(labels[:at])) - 1 for at in range(first)]
    if kind == "hash" and any(at >= REACHED for at in places):
        places = []
    new = [(folded(kind, labels[at:]), where, place + len(text)) for at, where in enumerate(places)]
    return text, known + new


class Draws:
    def __init__(self, seed):
        self.state = seed

    def below(self, bound):
        self.state = (self.state * 6_364_136_223_846_793_005 + 1_442_695_040_888_963_407) % 2**64
        return (self.state >> 32) % bound

    def name(self):
        return [LABELS[self.below(len(LABELS))] for _ in range(self.below(5))]


class Steps:
    def __init__(self, kind, bound, front, seed):
        self.kind, self.bound, self.front = kind, bound, len(front)
        self.octets, self.known = front, []
        self.draws, self.sum = Draws(seed), 2_166_136_261

    def take_in(self, octets):
        for octet in octets:
            self.sum = (self.sum ^ octet) * 16_777_619 % 2**32

    def append(self, octets, known):
        """Whether the octets fit. Else all stays as it is."""
        if self.bound is not None and len(self.octets) + len(octets) > self.bound:
            return False
        self.octets, self.known = self.octets + octets, known
        return True

    def append_name(self):
        return self.append(*spell(self.kind, self.known, len(self.octets), self.draws.name()))

    def truncate(self, length):
        if length < len(self.octets):
            self.octets = self.octets[:length]
            self.known = [it for it in self.known if it[2] <= length]
        return True

    def step(self):
        drawn = self.draws.below(32)
        if drawn == 0:
            fits = self.truncate(self.front + self.draws.below(len(self.octets) - self.front + 4))
        elif drawn == 1:
            fits = self.append(OCTETS[self.draws.below(4)], self.known)
        else:
            fits = self.append_name()
        self.take_in([0 if fits else 1])
        self.take_in(self.octets[self.front:])
        for _ in range(PROBES):
            self.probe()

    def probe(self):
        before = self.octets, self.known
        if not self.append_name():
            self.take_in([255])
        self.take_in(self.octets[len(before[0]):])
        self.octets, self.known = before


def octets_of(word):
    if word == "-":
        return b""
    digits, times = word.split("*")
    return bytes.fromhex(digits) * int(times)


def answer(kind, bound, word, seed, count):
    steps, answers = Steps(kind, bound, octets_of(word), seed), []
    for _ in range(count // STEPS_AT_ONCE):
        for _ in range(STEPS_AT_ONCE):
            steps.step()
        answers += [len(steps.octets), steps.sum]
    return " ".join(map(str, answers))


def octets_of_owners(kind):
    octets, place, known = 0, 0, []
    for number in range(OWNERS):
        labels = [b"host-%08d" % number, b"example", b"com"]
        text, known = (wire(labels), []) if kind == "plain" else spell(kind, known, place, labels)
        place += len(text)
        if place > LONG:
            octets, place, known = octets + place, 0, []
    return octets + place


def main():
    for call, bound, runs in ("over_array", ARRAY_BOUND, OVER_ARRAY), ("over_vec", None, OVER_VEC):
        for word, seed, count in runs:
            for kind in "static", "tree", "hash":
                row = f"Compressor::random_{call} {kind} {word} {seed} {count}"
                print(f"{row}\t{answer(kind, bound, word, seed, count)}")
    for kind in "plain", "static", "tree", "hash":
        print(f"Compressor::append_owners {kind} {OWNERS}\t{octets_of_owners(kind)}")


if __name__ == "__main__":
    main()
