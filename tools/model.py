"""model.py: a second reader and writer of zones, from the RFCs and docs/FORMATS.md alone. Nothing of it follows the crates.

It reads zone files and streams, prints zones, puts them in canonical form, and spells streams in all four ways, octet for octet. A `Fault` has the
text that the program says. `tools/random_zones.py` holds the program against it."""

import base64
import functools
import re
from collections import namedtuple

# -- What the standards number.

TYPES = dict(
    A=1, NS=2, MD=3, MF=4, CNAME=5, SOA=6, MB=7, MG=8, MR=9, NULL=10, WKS=11, PTR=12, HINFO=13, MINFO=14, MX=15, TXT=16, RP=17, AFSDB=18,
    AAAA=28, LOC=29, SRV=33, NAPTR=35, KX=36, DNAME=39, OPT=41, DS=43, SSHFP=44, RRSIG=46, NSEC=47, DNSKEY=48, NSEC3=50, NSEC3PARAM=51,
    TLSA=52, CDS=59, CDNSKEY=60, ZONEMD=63, SVCB=64, HTTPS=65, SPF=99, TSIG=250, IXFR=251, AXFR=252, CAA=257,
)  # fmt: skip
CLASSES = dict(IN=1, CH=3, HS=4)
# The fields of each type. A `c` is a name that may be spelled by a pointer, a `p` one that may not.
FIELDS = {
    **{TYPES[it]: ["c"] for it in "NS MD MF CNAME MB MG MR PTR".split()},
    1: ["ipv4"], 6: "c c u32 u32 u32 u32 u32".split(), 13: ["string", "string"], 14: ["c", "c"], 15: ["u16", "c"], 16: ["strings"],
    17: ["p", "p"], 28: ["ipv6"], 33: "u16 u16 u16 p".split(), 39: ["p"], 43: "u16 u8 u8 hex".split(), 44: "u8 u8 hex".split(),
    48: "u16 u8 u8 base64".split(), 257: "u8 tag text".split(),
}  # fmt: skip
SIZES = {"u8": 1, "u16": 2, "u32": 4, "ipv4": 4, "ipv6": 16}
SOA, CAA, AXFR, ANY = 6, 257, 252, 255
# A name is a tuple of labels. Data is a list of names and octets, one for each field; unknown data is one item of octets.
Record = namedtuple("Record", "owner type cls ttl data")
Query = namedtuple("Query", "id name cls")


class Unreadable(Exception):
    """What is read does not follow the format."""


class Fault(Exception):
    """What the program has to say."""


def need(holds):
    if not holds:
        raise Unreadable


@functools.cache
def lowered(it):
    return it.lower() if isinstance(it, bytes) else tuple(label.lower() for label in it)


@functools.cache
def wire(it):
    return it if isinstance(it, bytes) else b"".join(bytes([len(label)]) + label for label in it) + b"\0"


def plain(data):
    return b"".join(map(wire, data))


def canonical_data(data):
    return b"".join(it if isinstance(it, bytes) else wire(lowered(it)) for it in data)


def is_under(name, apex):
    return lowered(name)[max(len(name) - len(apex), 0) :] == lowered(apex)


def has_empty_tag(record):
    return record.type == CAA and record.data[1] == b"\0"


# -- Text.

ESCAPE = rb"\\(?:[ -/:-~]|[01][0-9][0-9]|2[0-4][0-9]|25[0-5])"
TOKEN = re.compile(rb'(?:[!#-\x27*-:<-\[\]-~]|%s)+|"(?:[ !#-\[\]-~]|%s)*"' % (ESCAPE, ESCAPE))
SYMBOL = re.compile(rb"\\([0-9]{3})|\\(.)|(.)")


def rows_of(text):
    """The rows with tokens: whether one begins with white space, and its tokens as they are spelled."""
    place, end = 0, len(text)
    while place < end:
        is_blank_led, tokens, is_open, is_empty = text[place] in b" \t\r", [], False, True
        while place < end and (text[place] != 10 or is_open):
            octet = text[place : place + 1]
            if octet in b" \t\r\n":
                place += 1
            elif octet == b";":
                place = text.find(b"\n", place) if b"\n" in text[place:] else end
            elif octet in b"()":
                need(is_open == (octet == b")"))
                is_open, is_empty, place = not is_open, False, place + 1
            else:
                found = TOKEN.match(text, place)
                need(found)
                tokens.append(found[0])
                is_empty, place = False, found.end()
        need(place < end or is_empty)
        place += 1
        if tokens:
            yield is_blank_led, tokens


def octets_of(token):
    token = token[1:-1] if token.startswith(b'"') else token
    return b"".join(bytes([int(it[1])]) if it[1] else it[2] or it[3] for it in SYMBOL.finditer(token))


def read_word(token):
    need(b"\\" not in token and not token.startswith(b'"'))
    return token.decode()


def read_number(token, size):
    word = read_word(token)
    need(re.fullmatch("[0-9]+", word) and int(word) < 256**size)
    return int(word)


def read_mnemonic(token, table, prefix):
    """A number by its word, None if the token is no such word."""
    word = token.decode().upper()
    if word in table:
        return table[word]
    found = re.fullmatch(prefix + "([0-9]+)", word)
    return int(found[1]) if found and int(found[1]) < 65536 else None


def read_name(token, origin):
    need(not token.startswith(b'"'))
    if token == b"@":
        need(origin is not None)
        return origin
    if token == b".":
        return ()
    labels = [b""]
    for it in SYMBOL.finditer(token):
        if it[0] == b".":
            labels.append(b"")
        else:
            labels[-1] += octets_of(it[0])
    if labels[-1]:
        need(origin is not None)
        labels += origin
    else:
        labels.pop()
    need(all(0 < len(it) < 64 for it in labels) and len(wire(tuple(labels))) < 256)
    return tuple(labels)


def read_ipv4(word):
    groups = word.split(".")
    need(len(groups) == 4 and all(re.fullmatch("0|[1-9][0-9]{0,2}", it) and int(it) < 256 for it in groups))
    return bytes(map(int, groups))


def read_ipv6(word):
    halves = [it.split(":") if it else [] for it in word.split("::")]
    found = []
    for groups in halves:
        tail = read_ipv4(groups.pop()) if groups and groups is halves[-1] and "." in groups[-1] else b""
        need(all(re.fullmatch("[0-9a-fA-F]{1,4}", it) for it in groups))
        found.append(b"".join(int(it, 16).to_bytes(2, "big") for it in groups) + tail)
    gap = 16 - sum(map(len, found))
    need(len(found) == 1 and gap == 0 or len(found) == 2 and gap > 1)
    return bytes(gap).join(found)


def read_hex(tokens):
    word = "".join(map(read_word, tokens))
    need(re.fullmatch("([0-9a-fA-F]{2})*", word))
    return bytes.fromhex(word)


def read_base64(tokens):
    word = "".join(map(read_word, tokens))
    need(re.fullmatch("([A-Za-z0-9+/]{4})*([A-Za-z0-9+/]{2}==|[A-Za-z0-9+/]{3}=)?", word))
    return base64.b64decode(word)


def read_string(token):
    octets = octets_of(token)
    need(len(octets) < 256)
    return bytes([len(octets)]) + octets


def read_fields(kinds, tokens, origin):
    rests = {"hex": read_hex, "base64": read_base64, "strings": lambda it: b"".join(map(read_string, it))}
    words = {"ipv4": lambda it: read_ipv4(read_word(it)), "ipv6": lambda it: read_ipv6(read_word(it)), "text": octets_of}
    names = dict.fromkeys("cp", lambda it: read_name(it, origin))
    calls = {**words, **names, "string": read_string, "tag": read_string}
    data, left = [], list(tokens)
    for kind in kinds:
        if kind in rests:
            need(left or kind != "strings")
            data.append(rests[kind](left))
            left = []
            continue
        need(left)
        token = left.pop(0)
        data.append(calls[kind](token) if kind in calls else read_number(token, SIZES[kind]).to_bytes(SIZES[kind], "big"))
    need(not left and len(plain(data)) < 65536)
    return data


class Text:
    """What the rows before a row leave."""

    def __init__(self, origin, cls):
        self.origin, self.cls, self.owner, self.ttl, self.last_ttl = origin, cls, None, None, 3600

    def directive(self, word, tokens):
        if word == b"$ORIGIN":
            need(len(tokens) == 1)
            self.origin = read_name(tokens[0], self.origin)
        elif word == b"$TTL":
            need(len(tokens) == 1)
            self.ttl = read_number(tokens[0], 4)
        else:
            need(word == b"$INCLUDE" and 0 < len(tokens) < 3)
            need(not tokens[0].startswith(b'"') and all(it < 128 for it in octets_of(tokens[0])))
            if tokens[1:]:
                read_name(tokens[1], self.origin)
            raise Fault("include")

    def entry(self, is_blank_led, tokens):
        """Reads a row. Returns its record, None for a directive."""
        if not is_blank_led and tokens[0].startswith(b"$"):
            return self.directive(tokens[0].upper(), tokens[1:])
        left = list(tokens)
        self.owner = self.owner if is_blank_led else read_name(left.pop(0), self.origin)
        need(self.owner is not None)
        ttl = cls = kind = None
        while kind is None:
            need(left)
            token = left.pop(0)
            if re.fullmatch(b"[0-9]+", token):
                need(ttl is None)
                ttl = self.last_ttl = read_number(token, 4)
                continue
            kind = read_mnemonic(token, TYPES, "TYPE")
            if kind is None:
                need(cls is None and read_mnemonic(token, CLASSES, "CLASS") == self.cls)
                cls = self.cls
        if ttl is None:
            ttl = self.last_ttl if self.ttl is None else self.ttl
        return Record(self.owner, kind, self.cls, ttl, self.data(kind, left))

    def data(self, kind, tokens):
        if tokens[:1] != [rb"\#"]:
            need(kind in FIELDS)
            return read_fields(FIELDS[kind], tokens, self.origin)
        need(tokens[1:])
        octets = read_hex(tokens[2:])
        need(len(octets) == read_number(tokens[1], 2))
        try:
            return parse_data(kind, octets, 0, len(octets), False)
        except Unreadable:
            raise Fault("untyped data")


def judge(record, records):
    """The rules of a zone that a record keeps or breaks."""
    if not records and record.type != SOA:
        raise Fault("first record is not SOA")
    if records and record.type == SOA:
        raise Fault("second SOA")
    if records and not is_under(record.owner, records[0].owner):
        raise Fault("out of zone")
    if has_empty_tag(record):
        raise Fault("cannot be spelled")


def read_zone(text, origin, cls):
    if cls == ANY:
        raise Fault("class ANY")
    reader, records, number, rows = Text(origin, cls), [], 0, rows_of(text)
    while True:
        number += 1
        try:
            row = next(rows, None)
            if row is None:
                break
            record = reader.entry(*row)
            if record:
                judge(record, records)
                records.append(record)
        except Unreadable:
            raise Fault(f"entry {number}: text")
        except Fault as fault:
            raise Fault(f"entry {number}: {fault}")
    if not records:
        raise Fault("no SOA")
    return records


# -- Printing, and canonical form.


def escaped(octets, special, low):
    return "".join(f"\\{chr(it)}" if it in special else chr(it) if low <= it < 127 else f"\\{it:03}" for it in octets)


def show_name(name):
    return "".join(escaped(it, b' .\\"$();', 33) + "." for it in name) or "."


def strings_of(octets):
    while octets:
        yield octets[1 : octets[0] + 1]
        octets = octets[octets[0] + 1 :]


def show_ipv6(octets):
    groups = [f"{int.from_bytes(octets[it : it + 2], 'big'):x}" for it in range(0, 16, 2)]
    runs = [(size, place) for size in range(8, 1, -1) for place in range(9 - size) if groups[place : place + size] == ["0"] * size]
    if not runs:
        return ":".join(groups)
    size, place = runs[0]
    return ":".join(groups[:place]) + "::" + ":".join(groups[place + size :])


def show_field(kind, it):
    """The tokens of a field."""
    if kind in ("c", "p"):
        return [show_name(it)]
    if kind in ("string", "strings"):
        return [f'"{escaped(string, QUOTED, 32)}"' for string in strings_of(it)]
    shown = {
        "ipv4": lambda: ".".join(map(str, it)),
        "ipv6": lambda: show_ipv6(it),
        "hex": lambda: it.hex().upper(),
        "base64": lambda: base64.b64encode(it).decode(),
        "tag": lambda: escaped(it[1:], b' "();\\', 32),
        "text": lambda: f'"{escaped(it, QUOTED, 32)}"',
    }
    word = shown[kind]() if kind in shown else str(int.from_bytes(it, "big"))
    return [word] if word else []


QUOTED = b'"\\'
COMMENTS = ["", "", *(f"\t; {it}" for it in "serial refresh retry expire minimum".split())]


def show_number(number, table, prefix):
    return next((word for word, it in table.items() if it == number), f"{prefix}{number}")


def show_record(record, layout):
    head = [show_name(record.owner), str(record.ttl), show_number(record.cls, CLASSES, "CLASS"), show_number(record.type, TYPES, "TYPE")]
    if record.type in FIELDS:
        data = [token for kind, it in zip(FIELDS[record.type], record.data) for token in show_field(kind, it)]
    else:
        data = ["\\#", str(len(record.data[0]))] + [it for it in [record.data[0].hex().upper()] if it]
    if layout == "multiline":
        comments = COMMENTS if record.type == SOA else [""] * len(data)
        return " ".join([*head, "("]) + "".join(f"\n        {it}{comment}" for it, comment in zip(data, comments)) + "\n        )\n"
    between = "\t" if layout == "tabbed" else " "
    return between.join([*head, " ".join(data)]) + "\n"


def show_zone(records, layout):
    return "".join(show_record(it, layout) for it in records).encode()


def head_of(record):
    return record.type.to_bytes(2, "big") + record.cls.to_bytes(2, "big") + record.ttl.to_bytes(4, "big")


def canonical(records):
    forms = {(lowered(it.owner)[::-1], it.type, canonical_data(it.data), it.ttl): it for it in records}
    parts = [(wire(key[0][::-1]), head_of(it), len(key[2]).to_bytes(2, "big"), key[2]) for key, it in sorted(forms.items())]
    return b"".join(b"".join(it) for it in parts)


# -- Streams, written.

# Pointers reach the places before this, and the static spelling remembers that many suffixes.
FAR, STATIC_SUFFIXES = 16384, 24


class Message:
    """A message that is written: its octets, and where suffixes of names are."""

    def __init__(self, query, spelling):
        self.octets, self.count, self.spelling, self.known = bytearray(), 0, spelling, {}
        self.octets += query.id.to_bytes(2, "big") + bytes.fromhex("84000001000000000000")
        self.name(query.name)
        self.octets += AXFR.to_bytes(2, "big") + query.cls.to_bytes(2, "big")

    def name(self, name):
        if self.spelling == "plain":
            self.octets += wire(name)
            return
        keys = [(name if self.spelling == "tree" else lowered(name))[it:] for it in range(len(name) + 1)]
        cut = self.labels_before_pointer(name, keys)
        places = []
        for label in name[:cut]:
            places.append(len(self.octets))
            self.octets += bytes([len(label)]) + label
        self.octets += (0xC000 | self.known[keys[cut]]).to_bytes(2, "big") if cut < len(name) else b"\0"
        self.remember(keys, places)

    def labels_before_pointer(self, name, keys):
        """How many labels are written, before a pointer to the rest or the root."""
        if self.spelling == "hash":
            return next((it + 1 for it in reversed(range(len(name))) if keys[it] not in self.known), 0)
        place = len(self.octets)
        for cut, label in enumerate(name):
            if keys[cut] in self.known:
                return cut
            if place >= FAR or self.spelling == "static" and len(self.known) + cut >= STATIC_SUFFIXES:
                return len(name)
            place += 1 + len(label)
        return len(name)

    def remember(self, keys, places):
        if self.spelling == "hash" and places and places[-1] >= FAR:
            return
        for key, place in zip(keys, places):
            if place < FAR and (self.spelling != "static" or len(self.known) < STATIC_SUFFIXES):
                self.known[key] = place

    def append(self, record, limit):
        """Appends a record, if the message is then not longer than the limit. Returns whether it was."""
        kept, known = len(self.octets), dict(self.known)
        self.name(record.owner)
        self.octets += head_of(record) + b"\0\0"
        start, kinds = len(self.octets), FIELDS.get(record.type, ["text"])
        for kind, it in zip(kinds, record.data):
            if kind == "c":
                self.name(it)
            else:
                self.octets += wire(it)
        self.octets[start - 2 : start] = (len(self.octets) - start).to_bytes(3, "big")[1:]
        if len(self.octets) > limit:
            del self.octets[kept:]
            self.known = known
            return False
        self.count += 1
        return True

    def frame(self):
        octets = self.octets[:6] + self.count.to_bytes(2, "big") + self.octets[8:]
        return bytes(len(octets).to_bytes(2, "big") + octets)


def send(records, query, limit, spelling):
    if lowered(query.name) != lowered(records[0].owner):
        raise Fault("wrong zone")
    frames, message = [], Message(query, spelling)
    for number, record in enumerate([*records, records[0]], 1):
        if message.append(record, limit):
            continue
        if message.count:
            frames.append(message.frame())
            message = Message(query, spelling)
        if not message.append(record, limit):
            raise Fault(f"record {number} does not fit")
    return [*frames, message.frame()]


# -- Streams, read.


def parse_name(octets, place, end, may_point=True):
    """The name at a place, and where its reader goes on. Pointers go back; the reader sees nothing from `end` on."""
    labels, size, behind, pointers = [], 1, None, 0
    while True:
        need(place < end)
        head = octets[place]
        if head == 0:
            return tuple(labels), behind or place + 1
        if head >= 0xC0:
            need(may_point and place + 1 < end)
            target = int.from_bytes(octets[place : place + 2], "big") & 0x3FFF
            behind, pointers = behind or place + 2, pointers + 1
            need(target < place and pointers < 256)
            place = target
            continue
        size += 1 + head
        need(head < 64 and place + head < end and size < 256)
        labels.append(bytes(octets[place + 1 : place + 1 + head]))
        place += 1 + head


def parse_data(kind, octets, place, end, may_point=True):
    data = []
    for field in FIELDS.get(kind, ["text"]):
        start = place
        if field in ("c", "p"):
            name, place = parse_name(octets, place, end, may_point)
            data.append(name)
            continue
        if field in SIZES:
            place += SIZES[field]
        elif field in ("hex", "base64", "text"):
            place = end
        else:
            while place == start or field == "strings" and place < end:
                need(place < end)
                place += 1 + octets[place]
        need(place <= end)
        data.append(bytes(octets[start:place]))
    need(place == end)
    return data


def parse_record(octets, place):
    owner, place = parse_name(octets, place, len(octets))
    need(place + 10 <= len(octets))
    kind, cls = (int.from_bytes(octets[it : it + 2], "big") for it in (place, place + 2))
    ttl, size = int.from_bytes(octets[place + 4 : place + 8], "big"), int.from_bytes(octets[place + 8 : place + 10], "big")
    place += 10
    need(place + size <= len(octets))
    return Record(owner, kind, cls, ttl, parse_data(kind, octets, place, place + size)), place + size


def judge_head(octets, query, is_first):
    """The rules of a message before its records. Returns where the records begin."""
    flags, counts = octets[2:4], [int.from_bytes(octets[it : it + 2], "big") for it in (4, 6, 8, 10)]
    rules = [
        (lambda: len(octets) > 11, "short message"),
        (lambda: octets[:2] == query.id.to_bytes(2, "big"), "wrong id"),
        (lambda: flags[0] & 0x80, "not a response"),
        (lambda: not flags[0] & 0x78, "wrong opcode"),
        (lambda: not flags[1] & 15, f"rcode {flags[1] & 15 if len(flags) > 1 else 0}"),
        (lambda: counts[0] < 2 and not counts[2] and not counts[3], "wrong counts"),
        (lambda: counts[0] or not is_first, "wrong question"),
    ]
    for holds, text in rules:
        if not holds():
            raise Fault(text)
    if not counts[0]:
        return 12, counts[1]
    try:
        name, place = parse_name(octets, 12, len(octets))
        need(lowered(name) == lowered(query.name))
        need(octets[place : place + 4] == AXFR.to_bytes(2, "big") + query.cls.to_bytes(2, "big"))
    except Unreadable:
        raise Fault("wrong question")
    return place + 4, counts[1]


def judge_received(number, record, records, query, is_done):
    is_soa, first = record.type == SOA, records[0] if records else None
    if not first and not (is_soa and lowered(record.owner) == lowered(query.name)):
        raise Fault("first record is not the SOA")
    if record.cls != query.cls:
        raise Fault(f"record {number}: wrong class")
    if not is_under(record.owner, query.name):
        raise Fault(f"record {number}: out of zone")
    is_last = first and is_soa and canonical([first]) == canonical([record])
    if first and is_soa and not is_last:
        raise Fault(f"record {number}: SOA differs")
    if is_done:
        raise Fault(f"record {number}: behind the last SOA")
    if has_empty_tag(record):
        raise Fault(f"record {number}: cannot be spelled")
    return is_last


def receive(stream, query):
    if query.cls == ANY:
        raise Fault("query: class ANY")
    records, start, number, is_done = [], 0, 0, False
    while not is_done:
        octets = stream[start + 2 : start + 2 + int.from_bytes(stream[start : start + 2], "big")]
        if len(stream) < start + 2 or len(octets) < int.from_bytes(stream[start : start + 2], "big"):
            raise Fault("unfinished")
        place, count = judge_head(octets, query, start == 0)
        for _ in range(count):
            number += 1
            try:
                record, place = parse_record(octets, place)
            except Unreadable:
                raise Fault(f"record {number}: malformed")
            is_done = judge_received(number, record, records, query, is_done) or is_done
            records.append(record)
        if place < len(octets):
            raise Fault("trailing octets")
        start += 2 + len(octets)
    return records[:-1]
