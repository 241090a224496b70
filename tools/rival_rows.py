#!/usr/bin/env python3
"""rival_rows.py: streams of a zone's records that are no sender's, and what is to be found when they are held against the sent one.

It prints the rows of `crates/zonewire_rows/stdin` that begin with `rival`, with their titles, and behind each, after a tab, what it
has to answer. What the `let` lines of that file name is written by its name; those lines are not printed. A message is spelled in the
plainest way: names are lists of labels, and where suffixes stand is a list of pairs.
Nothing here follows the code. How many messages the sender takes is worked out from its rule: a pointer goes to the first place
where a suffix was written out, and a record goes behind the others of its message if the message then is no longer than the limit.
The answers to streams that are not free are worked out by hand."""

import ast
import re
from collections import namedtuple

from crates import ROOT

# A question is of type AXFR and class IN, and so is a record's class (RFC 1035 3.2.4, RFC 5936 2.1). A TTL is a minute.
TRANSFER, TTL = "00fc0001", 60
SOA, NS, CNAME, PTR, MINFO, MX, RP, SRV, A, TXT, AAAA, OPAQUE = 6, 2, 5, 12, 14, 15, 17, 33, 1, 16, 28, 65280


def name(text):
    return text.encode().split(b".")[:-1]


def wire(labels):
    return b"".join(bytes([len(label)]) + label for label in labels) + b"\0"


def soa(owner, first, second):
    return owner, SOA, TTL, [name(first), name(second), bytes.fromhex("0000000100000002000000030000000400000005")]


ADDRESS = bytes([1, 2, 3, 4])

# A zone: its text, and its records. Of data that is a list, the lists of labels are names that may be spelled by pointers.
OWNERS = (
    "a. 60 IN SOA b. c. 1 2 3 4 5\nx.y.a. 60 IN A 1.2.3.4\nz.y.a. 60 IN A 1.2.3.4\n",
    [soa(name("a."), "b.", "c."), (name("x.y.a."), A, TTL, [ADDRESS]), (name("z.y.a."), A, TTL, [ADDRESS])],
)
MIXED = (
    "a. 60 IN SOA ns.a. h.ns.a. 1 2 3 4 5\na. 60 IN NS ns.a.\nns.a. 60 IN A 1.2.3.4\nA. 5 IN MX 10 MX.a.\n"
    "mx.a. 60 IN AAAA 2001:db8::1\nx.a. 60 IN CNAME ns.a.\ny.a. 60 IN MINFO x.a. y.x.a.\nz.a. 60 IN RP x.a. y.a.\n"
    "s.a. 60 IN SRV 1 2 3 x.a.\nt.a. 60 IN TXT hi\nu.a. 60 IN TYPE65280 \\# 2 C00C\nv.a. 60 IN PTR .\n",
    [
        soa(name("a."), "ns.a.", "h.ns.a."),
        (name("a."), NS, TTL, [name("ns.a.")]),
        (name("ns.a."), A, TTL, [ADDRESS]),
        (name("A."), MX, 5, [bytes([0, 10]), name("MX.a.")]),
        (name("mx.a."), AAAA, TTL, [bytes.fromhex("20010db8" + "00" * 11 + "01")]),
        (name("x.a."), CNAME, TTL, [name("ns.a.")]),
        (name("y.a."), MINFO, TTL, [name("x.a."), name("y.x.a.")]),
        (name("z.a."), RP, TTL, [wire(name("x.a.")) + wire(name("y.a."))]),
        (name("s.a."), SRV, TTL, [bytes([0, 1, 0, 2, 0, 3]) + wire(name("x.a."))]),
        (name("t.a."), TXT, TTL, [b"\2hi"]),
        (name("u.a."), OPAQUE, TTL, [bytes.fromhex("c00c")]),
        (name("v.a."), PTR, TTL, [[]]),
    ],
)


# How names are spelled: which place of a suffix a pointer goes to, whether a pointer's own place counts as one, and whether names in
# data have pointers too; and how many records a message may have, if that is bounded.
Spelling = namedtuple("Spelling", "choose counts_pointers spells_data most", defaults=[None])
FIRST_PLACE, LAST_PLACE = 0, -1
SENT = Spelling(FIRST_PLACE, False, True)
RIVALS = [Spelling(LAST_PLACE, True, True), Spelling(FIRST_PLACE, False, False), Spelling(FIRST_PLACE, False, True, most=1)]


class Message:
    def __init__(self, spelling):
        self.spelling, self.octets, self.known = spelling, b"\0" * 12, []
        self.append_name(name("a."))
        self.octets += bytes.fromhex(TRANSFER)

    def append_name(self, labels):
        passed = []
        for first in range(len(labels)):
            places = [place for suffix, place in self.known if suffix == labels[first:]]
            if places:
                if self.spelling.counts_pointers:
                    passed.append((labels[first:], len(self.octets)))
                self.octets += (0xC000 + places[self.spelling.choose]).to_bytes(2, "big")
                break
            passed.append((labels[first:], len(self.octets)))
            self.octets += wire(labels[first:first + 1])[:-1]
        else:
            self.octets += b"\0"
        self.known += passed

    def append_record(self, record):
        owner, rtype, ttl, data = record
        self.append_name(owner)
        self.octets += rtype.to_bytes(2, "big") + bytes([0, 1]) + ttl.to_bytes(4, "big")
        mark = len(self.octets)
        self.octets += b"\0\0"
        for part in data:
            if isinstance(part, bytes):
                self.octets += part
            elif self.spelling.spells_data:
                self.append_name(part)
            else:
                self.octets += wire(part)
        self.octets = self.octets[:mark] + (len(self.octets) - mark - 2).to_bytes(2, "big") + self.octets[mark + 2:]


def message_of(spelling, records):
    message = Message(spelling)
    for record in records:
        message.append_record(record)
    return bytes.fromhex("123484000001%04x00000000" % len(records)) + message.octets[12:]


def messages_of(spelling, records, limit):
    """The messages as (the number of the first record, how many, the octets), each as full as it may be."""
    messages, first = [], 0
    while first < len(records):
        count = 1
        while first + count < len(records) and count != spelling.most:
            if len(message_of(spelling, records[first:first + count + 1])) > limit:
                break
            count += 1
        octets = message_of(spelling, records[first:first + count])
        if len(octets) > limit:
            return None
        messages.append((first, count, octets))
        first += count
    return messages


def stream_of(messages):
    return b"".join(len(octets).to_bytes(2, "big") + octets for octets in messages)


QUERY = "12340000000100000000000001610000fc0001"
# A piece of an argument; and a name of a record of MIXED, or of all of them, as no other zone has them.
PIECE = re.compile(r'"(?:[^"\\]|\\.)*"|[^+]+')
OF_MIXED = re.compile(r"(?!HEAD)[A-Z]+\d+|EACH")


def names_in_rows():
    """What the `let` lines of the rows name: texts, and octets."""
    texts, octets = {}, {}
    for line in (ROOT / "crates/zonewire_rows/stdin").read_text().splitlines():
        if line.startswith("let "):
            name, argument = line[len("let "):].split(" = ", 1)
            pieces = PIECE.findall(argument)
            if pieces[0].startswith('"') or pieces[0][1:] in texts:
                texts[name] = "".join(texts[it[1:]] if it[0] == "$" else ast.literal_eval(it) for it in pieces)
            else:
                octets[name] = b"".join(octets[it[1:]] if it[0] == "$" else bytes.fromhex(it) for it in pieces)
    return texts, octets


TEXTS, OCTETS = names_in_rows()


def text_word(text):
    """A text: the longest name that it begins with, and the rest in quotes."""
    name = max((it for it in TEXTS if text.startswith(TEXTS[it])), key=lambda it: len(TEXTS[it]), default=None)
    rest = text[len(TEXTS[name]):] if name else text
    quoted = ['"' + rest.replace("\\", "\\\\").replace("\n", "\\n") + '"'] if rest else []
    return "+".join([f"${name}"] * bool(name) + quoted)


def octets_word(octets, names):
    """The shortest word for octets: digits, and names."""
    starts = {at: [it for it in names if octets.startswith(names[it], at)] for at in range(len(octets))}
    ends = [at for at in starts if starts[at]] + [len(octets)]
    words = {len(octets): []}
    for at in reversed(starts):
        options = [[f"${it}", *words[at + len(names[it])]] for it in starts[at]]
        options += [[octets[at:end].hex(), *words[end]] for end in ends if end > at]
        words[at] = min(options, key=lambda it: (len("+".join(it)), len(it)))
    return "+".join(words[0]) or "-"


def row(limit, text, stream, query=QUERY):
    names = {it: OCTETS[it] for it in OCTETS if text == MIXED[0] or not OF_MIXED.fullmatch(it)}
    return f"rival {limit} {octets_word(bytes.fromhex(query), names)} {text_word(text)} {octets_word(stream, names)}"


def rival_row(zone, spelling, limit):
    text, records = zone
    records = records + records[:1]
    sent, rival = messages_of(SENT, records, limit), messages_of(spelling, records, limit)
    if rival is None:
        return
    lengths = {(first, count): len(octets) for first, count, octets in sent}
    shorter = sum(len(octets) < lengths.get((first, count), 0) for first, count, octets in rival)
    fewer = str(len(rival) < len(sent)).lower()
    answer = f"same free {len(rival)} sent {len(sent)} fewer {fewer} shorter {shorter}"
    print(row(limit, text, stream_of([octets for _, _, octets in rival])), answer, sep="\t")


def title(text):
    print(f"# {text}", f"# {text}", sep="\t")


# What messages that are not free are made of. The question stands at 12, and a record behind it at 19; the names of the first SOA's
# data then stand at 31 and 34, and the second record at 57.
NUMBERS = "0000000100000002000000030000000400000005"
FIRST = "c00c 0006 0001 0000003c 001a 016200 016300" + NUMBERS
LAST = "c00c 0006 0001 0000003c 0018 c01f c022" + NUMBERS
HAS_A = "0001 0001 0000003c 0004 01020304"


def message(count, *records, question="016100" + TRANSFER, questions=1):
    return bytes.fromhex("12348400 %04x %04x 0000 0000" % (questions, count) + question + "".join(records))


SOA_ROW = "a. 60 IN SOA b. c. 1 2 3 4 5\n"
A_ROW = "a. 60 IN A 1.2.3.4\n"
PLAIN_SOA = "016100 0006 0001 0000003c 001a 016200 016300" + NUMBERS

# What is wrong, if it begins a new title; the zone's text; the messages; and what is found.
FAULTY = [
    ("a pointer into a label: 01 61 stand in the label of two octets at 57",
     SOA_ROW + "\\001a.a. 60 IN A 1.2.3.4\na.a. 60 IN A 1.2.3.4\n",
     [message(4, FIRST, "020161c00c", HAS_A, "c03a", HAS_A, LAST)], "same Pointer(58)"),
    ("a pointer to a later place, where the suffix stands, and one to its own place",
     OWNERS[0], [message(4, FIRST, "0178c04d", HAS_A, "017a0179c00c", HAS_A, LAST)], "refused Record(2) Pointer(77)"),
    (None, OWNERS[0], [message(4, FIRST, "0178c03b", HAS_A, "017a0179c00c", HAS_A, LAST)], "refused Record(2) Pointer(59)"),
    ("a pointer to the octet of the root, behind the question's label",
     SOA_ROW + "x.a. 60 IN A 1.2.3.4\n", [message(3, FIRST, "01780161c00e", HAS_A, LAST)], "same Pointer(14)"),
    ("a pointer into the data of an address, 01 61 00 00, and one into that of an SRV record, to its target",
     SOA_ROW + "a. 60 IN A 1.97.0.0\n" + A_ROW,
     [message(4, FIRST, "c00c 0001 0001 0000003c 0004 01610000", "c045", HAS_A, LAST)], "same Pointer(69)"),
    (None, SOA_ROW + "a. 60 IN SRV 1 2 3 b.a.\nb.a. 60 IN A 1.2.3.4\n",
     [message(4, FIRST, "c00c 0021 0001 0000003c 000b 000100020003 0162016100", "c04b", HAS_A, LAST)], "same Pointer(75)"),
    ("a pointer to another suffix: z.a. for z.y.a.",
     OWNERS[0], [message(4, FIRST, "01780179c00c", HAS_A, "017ac00c", HAS_A, LAST)], "other Pointer(12)"),
    ("a question and an owner in capitals",
     SOA_ROW, [message(2, PLAIN_SOA, PLAIN_SOA, question="014100" + TRANSFER)], "same Octets"),
    (None, SOA_ROW + A_ROW, [message(3, FIRST, "014100", HAS_A, LAST)], "other Octets"),
    ("a message without its question, one without records, one longer than the limit of 131",
     SOA_ROW + A_ROW, [message(1, FIRST), message(2, "016100", HAS_A, PLAIN_SOA, question="", questions=0)], "same Header"),
    (None, SOA_ROW, [message(1, FIRST), message(0), message(1, FIRST)], "same Count"),
    (None, SOA_ROW + A_ROW + "b.a. 60 IN A 1.2.3.4\n",
     [message(4, PLAIN_SOA, "016100", HAS_A, "0162016100", HAS_A, PLAIN_SOA)], "same Long"),
    ("records in another order, one too few, one too many, and octets behind them",
     OWNERS[0], [message(4, FIRST, "017a0179c00c", HAS_A, "0178c03b", HAS_A, LAST)], "other Octets"),
    (None, SOA_ROW, [message(1, FIRST)], "refused Unfinished Count"),
    (None, SOA_ROW, [message(2, FIRST, LAST), message(1, FIRST)], "same Count"),
    (None, SOA_ROW, [message(2, FIRST, LAST) + b"\0"], "refused Trailing Trailing"),
]


def faulty_rows():
    title("rival: streams that are not free. A pointer into the header: 03 00 00 00 00 stand at 7, and are a name under the root")
    text = ". 60 IN SOA b. c. 1 2 3 4 5\n\\000\\000\\000. 60 IN A 1.2.3.4\n"
    first = "00 0006 0001 0000003c 001a 016200 016300" + NUMBERS
    last = "00 0006 0001 0000003c 0018 c01c c01f" + NUMBERS
    stream = stream_of([message(3, first, "c007", HAS_A, last, question="00" + TRANSFER)])
    print(row(512, text, stream, "1234000000010000000000000000fc0001"), "same Pointer(7)", sep="\t")
    for text_of_title, text, messages, answer in FAULTY:
        if text_of_title:
            title(f"rival: {text_of_title}")
        print(row(131 if answer == "same Long" else 512, text, stream_of(messages)), answer, sep="\t")
    title("rival: a stream that ends in a message, and none at all: the zone is not sent in messages of 56 octets, and there is no rival")
    print(row(512, SOA_ROW, stream_of([message(2, FIRST, LAST)])[:-1]), "refused Unfinished Frame", sep="\t")
    print(row(56, OWNERS[0], b""), "refused Record(1)", sep="\t")


def main():
    title("rival: for each limit a stream that points to the latest place where a suffix stands, a pointer's own place too; one that spells")
    title("owners alone by pointers; one that begins a message for each record. What is received of it; how many free messages it has and how")
    title("many are sent; whether it has fewer; how many of its messages are shorter than the sent one. tools/rival_rows.py works it out")
    for limit in range(57, 132):
        for spelling in RIVALS:
            rival_row(OWNERS, spelling, limit)
    title("rival: the same of a zone with names in data of other types")
    for limit in 90, 120, 200, 512:
        for spelling in RIVALS:
            rival_row(MIXED, spelling, limit)
    faulty_rows()


if __name__ == "__main__":
    main()
