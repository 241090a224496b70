#!/usr/bin/env python3
"""random_zones.py [--zones N] [--seed S] [--batch N] [--show N] PROGRAM: holds `zonewire` against a second reader and writer, `tools/model.py`.

    python3 tools/random_zones.py --zones 2000 --seed 1 build/zonewire

A random zone file is checked, sent in each spelling, received in each layout and put in canonical form, by the program and by the model. They
have to agree in output, status and fault text. Many zones have faults. A random stream has pointers that the program would not write, in data of
other types too, and often a fault.

Zones come in batches with the same options. For each batch and command a server of `tools/refuse/refuse.c` forks the program, so this
needs `cc`. It prints how many zones, streams and runs there were, and differences with their inputs. The exit status is 1 if there is one."""

import argparse
import base64
import random
import re
import sys
from collections import Counter
from pathlib import Path

from crates import words_of
from memory import Program, Server, make_library
from model import ANY, AXFR, CAA, CLASSES, FAR, FIELDS, SIZES, SOA, TYPES, Fault, Query, Record, Unreadable
from model import canonical, canonical_data, head_of, is_under, lowered, parse_data, plain, read_fields, read_name, read_zone
from model import receive, rows_of, send, show_name, show_number, show_zone, wire

SPELLINGS, LAYOUTS = words_of("SPELLINGS"), words_of("LAYOUTS")

# -- Random zones and streams.

LABELS = r"a b A B c www WWW Mail * _srv - 0 a\.b \097 \@ \$x a\;b \000 \255 \" \( x\\y @ a$z a-b \032 [`{ " + "l" * 63
BAD_IPV6 = '::1:: ::: 1:2:3:4:5:6:7:8:9 1:2:3:4:5:6:7 ::12345 ::g 1.2.3.4 ::1.2.3.256 :1:: "::" 1.2.3.4:: ::1.2.3 1::2::3'
BLANK = [b"", b"\n", b" \n", b"; c\n", b" ( ; x\n )\n"]
ODD = [b"\\", b'"', b"(", b")", b";", b"\n", b"\0", b"\x7f", b"\xff", b"\t", b" ", b".", b"@", b"\\256", b"\\03", b"$", b"0", b"a", b"\r"]


class Maker:
    """Writes random zone files, and streams of their records."""

    def __init__(self, seed, apex, origin, cls):
        self.random, self.apex, self.origin, self.cls, self.faults, self.has_origin = random.Random(seed), apex, origin, cls, 0, False
        self.at_apex = False

    def one(self, *them):
        return self.random.choice(them)

    def is_rare(self, times=1.0):
        return self.random.random() < self.faults * times

    def case(self, word):
        return "".join(self.one(it.upper(), it.lower()) for it in word) if self.one(0, 0, 1) else word

    def label(self):
        if self.is_rare():
            return self.one("", "é", "$z", "l" * 64, "\\256", "\\0", '"q"', "(", "\\", "l" * 63 + ".")
        return self.one(*LABELS.split()) if self.one(0, 1) else self.one("a", "b", "A", "www")

    def name(self, is_owner=False):
        front = ".".join(self.label() for _ in range(self.one(1, 1, 1, 2, 3, 0 if is_owner else 1)))
        if self.is_rare():
            return self.one('"a."', "..", ".a.", "a..b.", ".".join(["l" * 63] * 4) + ".", "@.", "")
        if self.has_origin and self.one(0, 1):
            return front or "@"
        if not is_owner and self.one(0, 0, 0, 1):
            return self.one(".", front + ".", "l" * 63 + "." + "m" * 63 + ".")
        under = "" if self.is_rare() else self.case(self.apex)
        return (f"{front}.{under}" if front and under != "." else front + "." if front else under) or "."

    def number(self, size):
        if self.is_rare(0.5):
            return self.one(str(256**size), "-1", "1h", "\\049", '"1"', "", "0x1", "99999999999", "1.", "+1")
        most = 256**size - 1
        return self.one("", "", "", "00") + str(self.one(0, 1, 2, 60, self.random.randint(0, most), most) & most)

    def octets(self, most=20):
        if self.one(*[0] * 40, 1):
            most = 300
        return bytes(self.one(0, 32, 34, 92, 97, 65, 59, 255, 126, self.random.randrange(256)) for _ in range(self.random.randint(0, most)))

    def split(self, word):
        """Some tokens of a word."""
        while word and self.one(0, 1):
            cut = self.random.randint(1, len(word))
            yield word[:cut]
            word = word[cut:]
        if word:
            yield word

    def string(self):
        octets = self.octets() if self.one(0, 0, 1) else self.one(b"", b"a", b"hi ho", b"x;y", b"#", b"255 is most"[: self.random.randint(0, 11)])
        if self.is_rare(0.2):
            octets = b"x" * self.one(255, 256)
        is_quoted = not octets or self.one(0, 1)
        plain = b" ;()" if is_quoted else b""
        text = "".join(
            chr(it) if (33 <= it < 127 and it not in b'\\";()' or it in plain) and self.one(*[1] * 9, 0)
            else f"\\{chr(it)}" if 32 <= it < 127 and not chr(it).isdigit() and self.one(0, 1) else f"\\{it:03}"
            for it in octets
        )  # fmt: skip
        return f'"{text}"' if is_quoted else text

    def base64(self):
        word = base64.b64encode(self.octets()).decode()
        if self.is_rare():
            word = self.one(word[:-1], word + "=", "Zh==", "Zg", "*", "Zg==Zg==", "====", '""', "Z g=", "\\090g==")
        return list(self.split(word))

    def hex(self):
        word = self.case(self.octets().hex())
        if self.is_rare():
            word = self.one(word + "0", word + "g", '"00"', "\\048", "0 x")
        return list(self.split(word))

    def ipv6(self):
        groups = [self.one("0", "0", "00", "0000", "1", "abcd", "DB8", "000f") for _ in range(8)]
        first = self.random.randint(0, 8)
        size = self.random.randint(self.one(0, 1, 1), 8 - first) if first < 8 else 0
        if groups and self.one(0, 0, 1) and first + size < 7:
            groups[6:] = [self.ipv4()]
        word = ":".join(groups)
        if self.one(0, 1):
            word = ":".join(groups[:first]) + "::" + ":".join(groups[first + size :])
        if self.is_rare():
            word = self.one(*BAD_IPV6.split())
        return word

    def ipv4(self):
        if self.is_rare(0.5):
            return self.one("1.2.3", "1.2.3.256", "01.2.3.4", "1.2.3.4.", "1.2.3.4.5", "1..2.3", '"1.2.3.4"', "1.2.3.\\052", "+1.2.3.4")
        return ".".join(str(self.one(0, 1, 10, 127, 255)) for _ in range(4))

    def field(self, kind):
        if kind in SIZES and kind.startswith("u"):
            return [self.number(SIZES[kind])]
        if kind == "strings":
            return [self.string() for _ in range(self.one(1, 1, 2, 5, 0 if self.is_rare() else 1))]
        if kind == "tag":
            return [self.one("issue", "iodef", "ISSUE", '"issue"', '"a b"', "a\\;b", "\\000", '""' if self.is_rare(10) else "t")]
        if kind in ("string", "text"):
            return [self.string()]
        if kind in ("c", "p"):
            return [self.name()]
        found = {"ipv4": self.ipv4, "ipv6": self.ipv6, "hex": self.hex, "base64": self.base64}[kind]()
        return found if isinstance(found, list) else [found]

    def parsed(self, rtype, octets):
        try:
            return parse_data(rtype, octets, 0, len(octets), False)
        except Unreadable:
            return None

    def unknown(self, octets):
        """Octets in the form for data of any type."""
        size = str(len(octets) + (self.one(-1, 1) if self.is_rare() else 0))
        return [self.one("\\#", *["\\#"] * 20, "\\035" if self.is_rare() else "\\#"), size, *self.split(self.case(octets.hex()))]

    def fitting(self, rtype):
        """Octets of a type's data, most often such as fit its fields."""
        tokens = [token for kind in FIELDS.get(rtype, ["hex"]) for token in self.field(kind)]
        try:
            _, tokens = next(rows_of(" ".join([" x", *tokens, "\n"]).encode()))
            octets = plain(read_fields(FIELDS.get(rtype, ["hex"]), tokens[1:], ()))
        except Unreadable:
            octets = b"\1\2\3\4"
        if self.is_rare(4):
            octets = self.one(octets[:-1], octets + b"\0", b"", b"\xc0\x0c", b"\0\0", octets[:1])
        return octets

    def data(self, rtype):
        if rtype not in FIELDS and self.one(*[0] * 80, 1):
            return self.unknown(bytes(9000))
        if rtype not in FIELDS or self.one(*[0] * 9, 1):
            return self.unknown(self.fitting(rtype))
        tokens = [token for kind in FIELDS[rtype] for token in self.field(kind)]
        if self.is_rare():
            tokens = self.one(tokens[:-1], [*tokens, "x"], tokens[1:], [])
        return tokens

    def type_word(self, rtype):
        word = show_number(rtype, TYPES, "TYPE") if self.one(*[1] * 9, 0) else f"TYPE{self.one('', '', '0')}{rtype}"
        return self.case(self.one("TYPE65536", "XYZ", "TYPE", "\\065", '"A"', "ANY") if self.is_rare(0.5) else word)

    def class_word(self):
        word = show_number(self.cls, CLASSES, "CLASS") if self.one(1, 1, 0) else f"CLASS{self.cls}"
        return self.case(self.one("CH", "HS", "IN", "CLASS3", "ANY", "CLASS65536", "NONE") if self.is_rare(0.5) else word)

    def space(self, is_open, may_touch):
        """What is between two tokens, and whether parentheses are open behind it."""
        if self.is_rare(0.3):
            return self.one(b"(", b")", b"\n", b"", b";"), is_open
        chance = self.random.randrange(24)
        if chance == 0:
            return (b" )" if is_open else b"( "), not is_open
        if is_open and chance < 6:
            return self.one(b"\n", b" \n\t", b" ; c\"(\n", b"\n\n ", b";\n"), is_open
        if may_touch and chance < 10:
            return b"", is_open
        return self.one(b" ", b" ", b" ", b"\t", b"  ", b" \r"), is_open

    def join(self, tokens, is_blank_led):
        """The row of some tokens."""
        is_open, text = self.one(*[0] * 20, 1) and not is_blank_led, b""
        text = b"(" if is_open else self.one(b" ", b"\t", b" ( ) ") if is_blank_led else b""
        for place, token in enumerate(tokens):
            if place:
                space, is_open = self.space(is_open, '"' in (token[:1], tokens[place - 1][-1:]))
                text += space
            text += token.encode()
        text += b" )" if is_open and not self.is_rare(0.3) else b""
        return text + self.one(b"", b"", b"", b" ", b" ; comment \xff \"(", b"\t\r") + b"\n"

    def row(self, rtype, is_first=False):
        is_blank_led = not is_first and self.one(0, 0, 0, 1) or self.is_rare(0.3)
        owner = [] if is_blank_led else ["@" if self.at_apex and self.one(0, 1) else self.case(self.apex)] if is_first else [self.name(True)]
        ttl = [self.number(4)] if self.one(0, 1, 1) else []
        cls = [self.class_word()] if self.one(0, 1, 1) else []
        middle = self.one(ttl + cls, cls + ttl)
        if self.is_rare(0.5):
            middle = self.one(ttl + cls + ttl, cls + cls, middle + middle)
        return self.join([*owner, *middle, self.type_word(rtype), *self.data(rtype)], is_blank_led)

    def directive(self):
        if self.is_rare(2):
            word = self.one("$INCLUDE", "$include", "$GENERATE", "$TTL", "$ORIGIN", "$")
            return self.join([word, *self.one([], ["x"], ["x", "a."], ["a", "b", "c"], ["\\255"], ['"x"'])], False)
        if self.one(0, 1):
            return self.join([self.case("$TTL"), self.number(4)], False)
        name = self.one(self.apex, self.apex, self.name(True), "a." if self.is_rare() else self.apex)
        self.has_origin, self.at_apex = True, name == self.apex
        return self.join([self.case("$ORIGIN"), name], False)

    def zone(self):
        """The text of a zone."""
        apex = read_name(self.apex.encode(), ())
        self.at_apex, self.has_origin = self.origin == apex, self.origin is not None and is_under(self.origin, apex)
        self.faults = self.one(0, 0, 0, 0.004, 0.02, 0.06)
        parts = [self.directive()] if self.one(0, 1) else []
        parts.append(self.row(1 if self.is_rare() else SOA, True))
        for _ in range(self.one(*[0, 1, 2, 3, 5, 8] * 6, 13, 40)):
            if self.one(*[0] * 9, 1):
                parts.append(self.one(self.directive(), *BLANK))
            rtype = self.one(*FIELDS) if self.one(1, 1, 1, 1, 0) else self.one(10, 11, 41, 46, 250, 255, 0, 65280, 65535, 99)
            parts.append(self.row(SOA if self.is_rare(0.5) else 16 if rtype == SOA else rtype))
        text = b"".join(parts) + self.one(b"", b"", b"", b" ; end", b" ", b"(" if self.is_rare() else b"")
        if self.is_rare(4):
            place = self.random.randrange(len(text))
            text = text[:place] + self.random.choice(ODD) + text[place + self.one(0, 1) :]
        return text[:-1] if self.is_rare() else text

    def stream(self, records, query):
        """A stream of the records, in messages of some records each; perhaps with a fault."""
        left, stream, self.faults = [*records, records[0]], b"", self.one(0, 0, 0.02, 0.1)
        if self.is_rare(2):
            left.insert(1, Record(query.name, CAA, query.cls, 1, [b"\0", b"\0", b"x"]))
        if self.is_rare(2):
            left[-1] = left[-1]._replace(ttl=5)
        if self.is_rare(2):
            left.insert(self.random.randint(0, len(left)), self.random.choice(left))
        while left:
            taken = left[: self.random.randint(0, len(left))]
            left = left[len(taken) :]
            stream += self.message(taken, query, not stream or self.one(0, 1))
        return self.one(stream[: self.random.randint(0, len(stream))], stream + b"\xff") if self.is_rare(2) else stream

    def message(self, records, query, has_question):
        flags = self.one(0x8000, 0x8000, 0x87F0, 0x8400) if not self.is_rare(0.3) else self.one(0, 0x8800, 0x8003, 0xFFFF, 0x800F)
        counts = [self.one(0, 1, 2) if self.is_rare(0.3) else has_question, len(records), 0, self.is_rare(0.3)]
        if self.is_rare(0.3):
            counts[1] = max(counts[1] + self.one(-1, 1), 0)
        octets, places = bytearray(), {}
        octets += (query.id ^ self.is_rare(0.3)).to_bytes(2, "big") + flags.to_bytes(2, "big")
        octets += b"".join(int(it).to_bytes(2, "big") for it in counts)
        if has_question:
            self.spelled(octets, self.cased(query.name), places)
            octets += (AXFR ^ self.is_rare(0.3)).to_bytes(2, "big") + query.cls.to_bytes(2, "big")
        for it in records:
            self.record(octets, it, places)
        octets += b"\0" if self.is_rare(0.5) else b""
        if self.is_rare():
            octets[self.random.randrange(len(octets))] = self.one(0, 1, 0xC0, 0xFF, 0x40, self.random.randrange(256))
        return len(octets).to_bytes(2, "big") + bytes(octets)

    def cased(self, name):
        return tuple(self.one(label, label, label.upper(), label.lower()) for label in name)

    def spelled(self, octets, name, places):
        """A name, often with a pointer to where its rest is, a pointer itself perhaps; with a fault, to anywhere."""
        known = [it for it in range(len(name) + 1) if places.get(lowered(name[it:]))]
        cut = self.one(*known) if known and self.one(0, 1, 1) else len(name)
        targets = places.get(lowered(name[cut:]), []) if cut in known else []
        targets = [self.random.randrange(len(octets) + 2)] if self.is_rare(0.5) else list(targets)
        for it in range(cut + 1):
            if len(octets) < FAR:
                places.setdefault(lowered(name[it:]), []).append(len(octets))
            octets += wire(name[it : it + 1])[:-1] if it < cut else b""
        octets += (0xC000 | self.one(*targets)).to_bytes(2, "big") if targets else b"\0"

    def record(self, octets, record, places):
        self.spelled(octets, record.owner, places)
        cls = record.cls ^ self.is_rare(0.3)
        octets += head_of(record._replace(cls=cls)) + b"\0\0"
        start, data = len(octets), record.data
        if self.is_rare():
            more, less, own_place = plain(data) + b"\0", plain(data)[:-1], bytes([0xC0, start & 255])
            data = [self.one(b"\4a;b\0", b"\3a;b\0", b"\1", b"\xc0\x0c", b"", b"\xc0", b"\0\0", more, less, own_place)]
        for it in data:
            if isinstance(it, bytes):
                octets += it
            else:
                self.spelled(octets, it, places)
        size = len(octets) - start + (self.one(-1, 1, 2) if self.is_rare(0.3) else 0)
        octets[start - 2 : start] = max(size, 0).to_bytes(2, "big")


# -- The comparison.


def told(call):
    """What the program has to do: its status, its output, and what it says."""
    try:
        return 0, call(), b""
    except Fault as fault:
        return 1, b"", f"zonewire: {fault}\n".encode()


class Comparison:
    """The program's runs beside what the model says, and what differs."""

    def __init__(self, program, show):
        self.program, self.show, self.counts, self.servers = Program("zonewire", program, "given"), show, Counter(), {}

    def close(self):
        for it in self.servers.values():
            it.close()
        self.servers = {}

    def run(self, words, given, wanted):
        """Runs the program, and compares. Returns whether it did what the model says."""
        if words not in self.servers:
            self.servers[words] = Server(self.program, words)
        outcome = self.servers[words].ask(given, whole=0)[-1][0]
        self.counts["runs"] += 1
        self.counts[re.sub("[0-9]+", "N", wanted[2].decode()).strip().removeprefix("zonewire: ") or words[0]] += 1
        if (outcome.status >> 8, outcome.out, outcome.err) == wanted and not outcome.status & 255:
            return True
        self.counts["differences"] += 1
        if self.counts["differences"] <= self.show:
            print(f"zonewire {' '.join(words)}, of {given!r}", f"is {outcome.ending()}, {outcome.out!r}, {outcome.err!r}", sep="\n    ")
            print(f"    not {wanted}", flush=True)
        return False


class Batch:
    """Options, and the zones that are tried with them."""

    def __init__(self, comparison, seed):
        chooser = random.Random(seed)
        self.comparison, one = comparison, chooser.choice
        apex = one(["a.", "a.", "b.a.", "Ex.a.", ".", "x.y.z."])
        origin = one([None, None, apex, apex.removesuffix(".") or ".", "a", "c.b.a"])
        self.cls = one([1, 1, 1, 1, 3, 4, 7, 254, ANY if one([0, 0, 1]) else 1])
        class_word = one([show_number(self.cls, CLASSES, "CLASS"), f"class{self.cls}"])
        self.limit, self.origin = one([57, 80, 100, 150, 200, 300, 512, 1500, 16384, 65535]), self.name_of(origin)
        self.query = Query(one([0, 4660, 65535]), self.name_of(one([apex, apex, apex.upper(), apex.swapcase()])), self.cls)
        self.has_apex, self.maker = one([0, 1, 1]), Maker(seed + 1, apex, self.origin, self.cls)
        shared = ("--class", class_word)
        self.text_words = shared + (("--origin", origin) if origin else ())
        self.id_words, self.apex_words = ("--id", str(self.query.id)), ("--apex", show_name(self.query.name))
        self.send_words = (*self.text_words, *self.id_words, "--max", str(self.limit), *(self.apex_words if self.has_apex else ()))
        self.receive_words = (*shared, *self.id_words, *self.apex_words)

    def name_of(self, text):
        return None if text is None else read_name(text.encode(), ())

    def zone(self):
        """Compares what is done with a random zone."""
        text = self.maker.zone()
        run, counts = self.comparison.run, self.comparison.counts
        read = lambda: read_zone(text, self.origin, self.cls)
        counts["zones"] += 1
        run(("check", *self.text_words), text, told(lambda: b"%d records\n" % len(read())))
        try:
            records = read()
        except Fault:
            run(self.maker.one(("canon", *self.text_words), ("send", *self.send_words)), text, told(read))
            return
        counts["zones without fault"] += 1
        counts["records"] += len(records)
        run(("canon", *self.text_words), text, told(lambda: canonical(records)))
        query = self.query if self.has_apex else self.query._replace(name=records[0].owner)
        sent = {it: told(lambda: b"".join(send(records, query, self.limit, it))) for it in SPELLINGS}
        for spelling, wanted in sent.items():
            run(("send", *self.send_words, "--spelling", spelling), text, wanted)
        self.receive(self.frames(records), LAYOUTS)
        for _ in range(2):
            counts["streams"] += 1
            self.receive(self.maker.stream(records, self.query), [self.maker.one(*LAYOUTS)])

    def frames(self, records):
        """A stream of the program, with the query's name as owner of the SOA perhaps; what the model says of each spelling is checked."""
        query = self.query._replace(name=records[0].owner)
        try:
            most = len(send(records, query, self.limit, "plain"))
        except Fault:
            most = None
        is_read_again = all(read_zone(show_zone(records, it), None, self.cls) == records for it in LAYOUTS)
        for it in SPELLINGS:
            frames = send(records, query, 65535 if most is None else self.limit, it)
            if not is_read_again or not is_told(records, frames, most or 1, query, it):
                self.comparison.counts["differences"] += 1
                print(f"the model's own stream or print is not of its records, {it}: {records}")
        return b"".join(frames)

    def receive(self, stream, layouts):
        for it in layouts:
            wanted = told(lambda: show_zone(receive(stream, self.query), it))
            self.comparison.run(("receive", *self.receive_words, "--layout", it), stream, wanted)


def is_told(records, frames, most, query, spelling):
    """Whether messages, as the model reads them, are of the records, up to case but under `tree`, and at most as many as without pointers."""
    found = receive(b"".join(frames), query)
    forms = [[(lowered(it.owner), *it[1:4], canonical_data(it.data)) for it in them] for them in (found, records)]
    return len(frames) <= most and forms[0] == forms[1] and (spelling != "tree" or found == records or lowered(query.name) != query.name)


def main():
    parser = argparse.ArgumentParser(description="Holds the program against a second reader and writer.")
    parser.add_argument("--zones", type=int, default=1000, metavar="N", help="how many zones")
    parser.add_argument("--seed", type=int, default=1, metavar="S", help="where the random numbers begin")
    parser.add_argument("--batch", type=int, default=50, metavar="N", help="how many zones have the same options")
    parser.add_argument("--show", type=int, default=10, metavar="N", help="how many differences are shown")
    parser.add_argument("program", type=Path, metavar="PROGRAM")
    asked = parser.parse_args()
    make_library()
    comparison = Comparison(asked.program.resolve(), asked.show)
    for start in range(0, asked.zones, asked.batch):
        batch = Batch(comparison, (asked.seed, start).__hash__())
        for _ in range(min(asked.batch, asked.zones - start)):
            batch.zone()
        comparison.close()
    print(", ".join(f"{count} {it}" for it, count in comparison.counts.most_common()))
    return 1 if comparison.counts["differences"] else 0


if __name__ == "__main__":
    sys.exit(main())
