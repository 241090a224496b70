#!/usr/bin/env python3
"""zonetool_cases.py PROGRAM: runs `zonetool` on cases that were worked out by hand, and compares what each writes, says and ends with.

    python3 tools/zonetool_cases.py build/zonetool

A case has the words of a command line, the status, standard output, and the first line of standard error, which is the only one if it
begins with `zonetool: `. Help has a line of usage, and more. The files that words name are those of FILES, in a folder of their own. A
case of `explain` is a text and what is said of it. It prints each case that differs and how many there were. The exit status is 1 if one
differs."""
import os
import re
import subprocess
import sys
import tempfile
from base64 import b64encode
from dataclasses import dataclass
from pathlib import Path

# The program's crate.
CRATE = "tool_main"
SOA, A, TXT = "z. 60 IN SOA b. c. 1 2 3 4 5\n", "a.z. 60 IN A 192.0.2.1\n", 'b.z. 60 IN TXT "t"\n'
# The records that the first zone has, and others.
NEW_SOA, LATE_A, RAW = "z. 60 IN SOA b. c. 2 2 3 4 5\n", "a.z. 61 IN A 192.0.2.1\n", "z. 60 IN TYPE65280 \\# 2 0aff\n"
MX, TOP_A = "z. 60 IN MX 10 a.z.\n", "z. 60 IN A 192.0.2.2\n"
SIGNATURE = "z. 60 IN RRSIG \\# 2 0AFF\n"
FILES = {
    "one": SOA + A + TXT,
    "other-order": "Z. 60 IN SOA B. C. 1 2 3 4 5\n" + 'B.z. 60 IN TXT "t"\n' + "; twice\n" + "A.Z. 60 IN A 192.0.2.1\n" + A,
    "other-data": SOA + A + 'b.z. 60 IN TXT "T"\n',
    "late": SOA + LATE_A + TXT,
    "new": NEW_SOA + A + TXT,
    "new-minimum": "z. 60 IN SOA b. c. 2 2 3 4 6\n" + A + TXT,
    "soa": SOA,
    "raw": SOA + A + TXT + RAW,
    "signed": SOA + SIGNATURE + A,
    "mixed": SOA + MX + TXT + A + TOP_A + "A.z. 60 IN A 192.0.2.1\n",
    "empty": "",
    "comment": "; nothing\n",
    "unended": (SOA + A)[:-1],
    "two-soas": SOA + A + NEW_SOA,
    "outside": SOA + "y. 60 IN A 192.0.2.1\n",
    "no-soa": A,
    "include": SOA + "$INCLUDE one\n",
    "relative": "@ 60 IN SOA b. c. 1 2 3 4 5\n" + "a 60 IN A 192.0.2.1\n" + 'b.z. 60 IN TXT "t"\n',
    "chaos": 'z. 60 CH SOA b. c. 1 2 3 4 5\nz. 60 CH TXT "x"\n',
    "-": SOA + A,
}
TABBED = "z.\t60\tIN\tSOA\tb. c. 1 2 3 4 5\n" + "a.z.\t60\tIN\tA\t192.0.2.1\n"
NUMBERS = "".join(f"        {at}\t; {it}\n" for at, it in enumerate("serial refresh retry expire minimum".split(), 1))
MULTILINE = f"z. 60 IN SOA (\n        b.\n        c.\n{NUMBERS}        )\na.z. 60 IN A (\n        192.0.2.1\n        )\n"
AGAIN = "error: the argument '--class <CLASS>' cannot be used multiple times"
NUMBER = "error: invalid value '{}' for '--id <NUMBER>': {}"


@dataclass(frozen=True)
class Case:
    """A command line, what it has to end with, write and say, its standard input, and whether its standard output takes nothing."""

    words: str
    status: int = 0
    out: object = ""
    said: str = ""
    given: str = ""
    is_full: bool = False


def query(name, number=0, cls=1):
    """The octets of a query after their length; the name is given as it is in a message."""
    octets = number.to_bytes(2, "big") + bytes([0, 0, 0, 1, 0, 0, 0, 0, 0, 0]) + name + bytes([0, 252, 0, cls])
    return len(octets).to_bytes(2, "big") + octets


def unexpected(word):
    return f"error: unexpected argument '{word}' found"


def needs_value(option):
    return f"error: a value is required for '{option}' but none was supplied"


DIFF = [
    Case("diff one one"),
    Case("diff one other-order"),
    Case("diff one other-data", 1, '+b.z. 60 IN TXT "T"\n' + "-" + TXT),
    Case("diff one late", 1, "-" + A + "+" + LATE_A),
    Case("diff late one", 1, "+" + A + "-" + LATE_A),
    Case("diff --ignore-ttl one late"),
    Case("diff --ignore-ttl late soa", 1, "-a.z. 0 IN A 192.0.2.1\n" + '-b.z. 0 IN TXT "t"\n'),
    Case("diff one new", 1, "-" + SOA + "+" + NEW_SOA),
    Case("diff one new --ignore-serial"),
    Case("diff one new-minimum --ignore-serial", 1, "-z. 60 IN SOA b. c. 0 2 3 4 5\n+z. 60 IN SOA b. c. 0 2 3 4 6\n"),
    Case("diff one new --without SOA"),
    Case("diff one soa", 1, "-" + A + "-" + TXT),
    Case("diff soa one", 1, "+" + A + "+" + TXT),
    Case("diff one soa --without A", 1, "-" + TXT),
    Case("diff one soa --without A --without TXT"),
    Case("diff --without TYPE1 --without txt one soa"),
    Case("diff one raw", 1, "+" + RAW.replace("0aff", "0AFF")),
    Case("diff one raw --without TYPE65280"),
    Case("diff one signed", 1, "+" + SIGNATURE + "-" + TXT),
    Case("diff soa signed --without RRSIG --without A"),
    Case("diff one soa --without NONE", 2, said="zonetool: bad type"),
    Case("diff one soa --without TYPE65536", 2, said="zonetool: bad type"),
    Case("diff one soa --without A,TXT", 2, said="zonetool: bad type"),
    Case("diff one soa --without", 2, said=needs_value("--without <TYPE>")),
    Case("diff one relative --origin z"),
    Case("diff one relative --origin Z."),
    Case("diff one relative", 2, said="zonetool: relative: entry 1: text"),
    Case("diff one - ", given=FILES["other-order"]),
    Case("diff - one", 1, "+" + TXT, given=FILES["-"]),
    Case("diff ./- one", 1, "+" + TXT),
    Case("diff - -", 2, said="zonetool: standard input is read once", given=FILES["one"]),
    Case("diff one empty", 2, said="zonetool: empty: no SOA"),
    Case("diff comment one", 2, said="zonetool: comment: no SOA"),
    Case("diff unended two-soas", 2, said="zonetool: unended: entry 2: text"),
    Case("diff one two-soas", 2, said="zonetool: two-soas: entry 3: second SOA"),
    Case("diff one outside", 2, said="zonetool: outside: entry 2: out of zone"),
    Case("diff no-soa missing", 2, said="zonetool: no-soa: entry 1: first record is not SOA"),
    Case("diff include one", 2, said="zonetool: include: entry 2: include"),
    Case("diff missing one", 2, said="zonetool: missing: read failed: No such file or directory (os error 2)"),
    Case("diff one folder", 2, said="zonetool: folder: read failed: Is a directory (os error 21)"),
    Case("diff chaos chaos --class CH"),
    Case("diff chaos chaos --class class3"),
    Case("diff chaos chaos", 2, said="zonetool: chaos: entry 1: text"),
    Case("diff one one --class CLASS255", 2, said="zonetool: one: class ANY"),
    Case("diff one one --class ANY", 2, said="zonetool: bad class"),
    Case("diff one one --class no", 2, said="zonetool: bad class"),
    Case("diff one one --class IN --class IN", 2, said=AGAIN),
    Case("diff one one --origin a..b", 2, said="zonetool: bad name"),
    Case("diff one", 2, said="error: the following required arguments were not provided:"),
    Case("diff one one one", 2, said=unexpected("one")),
    Case("diff one one --layout simple", 2, said=unexpected("--layout")),
    Case("diff one late", 2, said="zonetool: write failed", is_full=True),
]
SORT = [
    Case("sort mixed", 0, SOA + TOP_A + MX + A + TXT),
    Case("sort --layout simple mixed", 0, SOA + TOP_A + MX + A + TXT),
    Case("sort", 0, SOA + A + TXT, given=FILES["other-order"].replace("B. C.", "b. c.")),
    Case("sort -", 0, SOA + A, given=SOA + A),
    Case("sort ./- --layout tabbed", 0, TABBED),
    Case("sort --layout multiline ./-", 0, MULTILINE),
    Case("sort --layout wide one", 2, said="error: invalid value 'wide' for '--layout <LAYOUT>'"),
    Case("sort relative --origin z", 0, SOA + A + TXT),
    Case("sort chaos --class CH", 0, FILES["chaos"]),
    Case("sort raw", 0, SOA + RAW.replace("0aff", "0AFF") + A + TXT),
    Case("sort", 2, said="zonetool: -: no SOA"),
    Case("sort missing", 2, said="zonetool: missing: read failed: No such file or directory (os error 2)"),
    Case("sort one one", 2, said=unexpected("one")),
    Case("sort one --ignore-ttl", 2, said=unexpected("--ignore-ttl")),
]
QUERY = [
    Case("query example.com", 0, query(b"\7example\3com\0")),
    Case("query Example.com. --id 65535", 0, query(b"\7Example\3com\0", 65535)),
    Case("query . --id 4660", 0, query(b"\0", 4660)),
    Case("query a\\.b\\065.c --class CH", 0, query(b"\4a.bA\1c\0", cls=3)),
    Case("query z --id 65536", 2, said=NUMBER.format("65536", "65536 is not in 0..=65535")),
    Case("query z --id x", 2, said=NUMBER.format("x", "invalid digit found in string")),
    Case("query a..b", 2, said="zonetool: bad name"),
    Case("query " + "l" * 64, 2, said="zonetool: bad name"),
    Case("query z --class no", 2, said="zonetool: bad class"),
    Case("query", 2, said="error: the following required arguments were not provided:"),
    Case("query www --origin z", 0, query(b"\3www\1z\0")),
    Case("query www. --origin z", 0, query(b"\3www\0")),
    Case("query www --origin z..", 2, said="zonetool: bad name"),
    Case("query w..w --origin z", 2, said="zonetool: bad name"),
    Case("query " + ".".join(["l" * 62] * 3) + " --origin " + "o" * 63 + ".oo", 2, said="zonetool: bad name"),
    Case("query z", 2, said="zonetool: write failed", is_full=True),
]
# -- Data of further types, in presentation form and in general form (RFC 3597 5). The bitmap of NEXT is that of RFC 4034 4.3.
HOST, BITMAP = b"\4host\7example\3com\0", bytes.fromhex("0006400100000003041b") + bytes(26) + b"\x20"
# The times and the key of RFC 4034 3.3.
TIMES = (1048354263, 1045762263)
SIGNED = b"".join([bytes.fromhex("0001050200015180"), *(it.to_bytes(4, "big") for it in TIMES), b"\x0a\x52\7example\3com\0", bytes(range(4))])
SERVICE = bytes.fromhex("00010000010006026832026833" "000300020035")


def general(*parts):
    octets = b"".join(parts)
    return f"\\# {len(octets)} {octets.hex().upper()}"


ROW_GAPS = " (" + "\n" * 40000 + ")\n"
ROW_FIELDS = "a.z. 60 IN TLSA 3 1 1 (" + "\naa" * 40000 + ")\n"
ROW_GENERAL = "a.z. 60 IN TLSA " + general(bytes([3, 1, 1]), b"\xaa" * 40000) + ROW_GAPS
BEFORE = bytes.fromhex("00010801 00000005 ffffffff 7e36b500 0001 00 000000".replace(" ", ""))
NEXT = "$ORIGIN example.com.\nalfa 86400 IN NSEC {}{}\n"
FIELDS, GAPS = "host A ( ; next\n  MX\tRRSIG NSEC TYPE1234 ) ; end", " ( ; next\n   ) ; end"
SHOWN = "host.example.com. A MX RRSIG NSEC TYPE1234"
LONG = "host.example.com.", "A", "MX", "RRSIG", "NSEC", "TYPE1234"
SEVERAL = "s.z. 60 IN {} 1 . port=53 alpn=h2,h3 ; s\nu.z. {} 1 2 \"x\"\ne.z. EUI48 00-00-5E-00-53-2a\n"
WRITTEN = (
    f"s.z. 60 IN SVCB {general(SERVICE)} ; s\nu.z. TYPE256 {general(bytes([0, 1, 0, 2]), b'x')}\n"
    f"e.z. TYPE108 {general(bytes.fromhex('00005e00532a'))}\n"
)
PRINTED = 's.z. 60 IN SVCB 1 . alpn=h2,h3 port=53 ; s\nu.z. URI 1 2 "x"\ne.z. EUI48 00-00-5e-00-53-2a\n'
SIGNATURE_TEXT = "z. 60 IN RRSIG A 5 2 86400 {} {} 2642 example.com. AAECAw==\n"
# Rows with mnemonics for algorithms and types of certificates (RFC 4034 A.1, RFC 4398 2.1), each with the word for its type and the octets before
# its last field in general form; and rows whose last field has no octets.
NAMED = [
    ("CERT PGP 0 0 Zm9v", "TYPE37", "0003000000"),
    ("CERT pkix 12345 RSASHA256 Zm9v", "TYPE37", "0001303908"),
    ("CDS 12345 ECDSAP256SHA256 2 666F6F", "CDS", "30390D02"),
    ("CDNSKEY 257 3 ed25519 Zm9v", "CDNSKEY", "0101030F"),
    ("RRSIG A RSASHA1-NSEC3-SHA1 1 60 2 1 3 z. Zm9v", "RRSIG", "00010701" "0000003C" "00000002" "00000001" "0003" "017A00"),
]
# How many octets of data are written, and how many lines are counted, around the borders of vectors and of pieces.
BORDERS = 1, 15, 16, 17, 31, 32, 33, 63, 64, 65, 127, 128, 129, 143, 144, 145, 255, 256, 257
KEYS = [bytes(range(256))[-it:] + bytes(it - min(it, 256)) for it in BORDERS]
ENDED = "TLSA 3 1 1", "CERT 1 0 0", "CDS 12345 13 99", "CDNSKEY 257 3 13", "ZONEMD 1 1 1", "OPENPGPKEY", "RRSIG A 8 1 60 2 1 3 z."
FORMS = [
    Case("general", 0, NEXT.format(general(HOST, BITMAP), GAPS), given=NEXT.format(FIELDS, "")),
    Case("general --origin example.com", 0, "a. 5 IN NSEC " + general(HOST, BITMAP) + "\n", given="a. 5 IN NSEC host TYPE1234 NSEC RRSIG MX A\n"),
    Case("general", 0, WRITTEN, given=SEVERAL.format("SVCB", "URI")),
    Case("general --class IN", 0, WRITTEN.replace("IN SVCB", "IN svcb"), given=SEVERAL.format("svcb", "TYPE256")),
    Case("general other-order", 0, FILES["other-order"]),
    Case("general include", 0, FILES["include"]),
    Case("general empty"),
    Case("general comment", 0, FILES["comment"]),
    Case("general chaos --class CH", 0, FILES["chaos"]),
    Case("general signed", 0, FILES["signed"]),
    Case("general", 0, "a. 5 IN TYPE53 \\# 4 0102 0304\n", given="a. 5 IN TYPE53 \\# 4 0102 0304\n"),
    Case("general", 0, "a. 5 IN TYPE53 \\# 4 01020304\n", given="a. 5 IN SMIMEA \\# 4 0102 0304\n"),
    Case("general", 2, said="zonetool: -: line 2 does not read", given=";\na. 5 IN NSEC\n"),
    Case("general", 2, said="zonetool: -: line 1 does not read", given="a. 5 IN NSEC b. A ANYTHING\n"),
    Case("general", 2, said="zonetool: -: line 1 does not read", given="a. 5 IN EUI48 00-00-5e-00-53\n"),
    Case("general", 2, said="zonetool: -: line 1 does not read", given="a. IN SVCB 1 . port=1 port=2\n"),
    Case("general", 2, said="zonetool: -: line 1 does not read", given="a. IN SVCB 1 . port= 53\n"),
    Case("general", 2, said="zonetool: -: line 1 does not read", given='a. IN SVCB 1 . "port=53"\n'),
    Case("general", 2, said="zonetool: -: line 1 does not read", given="a. 5 IN APL 1:10.0.0.0/8\n"),
    *(Case("general", 0, f"a. 5 IN {word} {general(bytes.fromhex(front), b'foo')}\n", given=f"a. 5 IN {row}\n") for row, word, front in NAMED),
    *(Case("general", 2, said="zonetool: -: line 1 does not read", given=f"a. 5 IN {row}\n") for row in ENDED),
    Case("general", 2, said="zonetool: -: line 1 does not read", given="a. 5 IN CERT PKI 0 0 Zm9v\n"),
    Case("general", 0, "a. 5 IN TLSA \\# 3 030101\n", given="a. 5 IN TLSA \\# 3 030101\n"),
    Case("general unended", 2, said="zonetool: unended: line 2 does not read"),
    # Texts that are longer than the pieces in which they are read: a row of 120,000 octets, and a row that is refused far behind the first piece.
    Case("general", 0, ROW_GENERAL + A, given=ROW_FIELDS + A),
    Case("present", 0, "a.z. 60 IN TLSA 3 1 1 " + "AA" * 40000 + ROW_GAPS + A, given=ROW_GENERAL + A),
    Case("general", 2, said="zonetool: -: line 3001 does not read", given="; a line of a comment that is long\n" * 3000 + "a.z. 5 IN NSEC\n" + A),
    Case("general", 2, said="zonetool: -: line 4002 does not read", given="; a line of a comment that is long\n" * 4000 + A + "a.z. 5 IN A (\n"),
    # Times before 1970, which are those of 2^32 seconds later.
    Case("general", 0, f"a. 5 IN RRSIG {general(BEFORE)}\n", given="a. 5 IN RRSIG A 8 1 5 19691231235959 19010101000000 1 . AAAA\n"),
    Case("general", 2, said="zonetool: -: line 1 does not read", given="a. 5 IN RRSIG A 8 1 5 00001231235959 19010101000000 1 . AAAA\n"),
    *(Case("general", 0, f"a. 5 IN TYPE61 {general(it)}\n", given=f"a. 5 IN OPENPGPKEY {b64encode(it).decode()}\n") for it in KEYS),
    *(Case("general", 2, said=f"zonetool: -: line {it + 1} does not read", given="\n" * it + "a.z. 5 IN NSEC\n") for it in BORDERS),
    *(Case("general", 2, said=f"zonetool: -: line {it // 2 + 2} does not read", given=";\r\n" * (it // 2) + ";" * it + "\na.z. 5 IN NSEC\n") for it in BORDERS),
    Case("general relative", 2, said="zonetool: relative: line 1 does not read"),
    Case("general missing", 2, said="zonetool: missing: read failed: No such file or directory (os error 2)"),
    Case("general --layout simple", 2, said=unexpected("--layout")),
    Case("general one", 2, said="zonetool: write failed", is_full=True),
    Case("present", 0, NEXT.format(SHOWN, GAPS), given=NEXT.format(general(HOST, BITMAP), GAPS)),
    Case("present", 0, NEXT.format(SHOWN, "").replace("alfa 86400 IN NSEC ", "alfa 86400 IN NSEC( ; next\n") + ")\n",
         given=NEXT.format(general(HOST, BITMAP), "").replace("alfa 86400 IN NSEC ", "alfa 86400 IN TYPE47( ; next\n") + ")\n"),
    Case("present --layout multiline", 0, NEXT.format("".join(["(", *("\n        " + it for it in LONG), "\n        )"]), ""),
         given=NEXT.format(general(HOST, BITMAP), "")),
    Case("present --layout multiline", 0, NEXT.format("( " + SHOWN + " )", ""), given=NEXT.format("( " + general(HOST, BITMAP) + " )", "")),
    Case("present --layout tabbed", 0, PRINTED, given=WRITTEN),
    Case("present", 0, SIGNATURE_TEXT.format("20030322173103", "20030220173103"), given="z. 60 IN RRSIG " + general(SIGNED) + "\n"),
    Case("general", 0, "z. 60 IN RRSIG " + general(SIGNED) + "\n", given=SIGNATURE_TEXT.format(*TIMES)),
    Case("present", 0, "a. 5 IN TLSA \\# 3 030101\n", given="a. 5 IN TLSA \\# 3 030101\n"),
    Case("present", 0, "a. 5 IN TLSA 3 1 1 0A\n", given="a. 5 IN TLSA \\# 4 0301010a\n"),
    Case("present", 0, "a. 5 IN CERT 3 0 13 Zm9v\n", given="a. 5 IN TYPE37 \\# 8 000300000D666F6F\n"),
    Case("present", 0, "a. 5 IN CERT PGP 0 0 Zm9v\n", given="a. 5 IN CERT PGP 0 0 Zm9v\n"),
    Case("present signed", 0, FILES["signed"]),
    Case("present raw", 0, FILES["raw"]),
    Case("present", 0, SEVERAL.format("SVCB", "URI"), given=SEVERAL.format("SVCB", "URI")),
    Case("present", 2, said="zonetool: -: line 1 does not read", given="a. 5 IN NSEC\n"),
    Case("present --layout wide one", 2, said="error: invalid value 'wide' for '--layout <LAYOUT>'"),
    Case("present -h", 0, "Usage: zonetool present [OPTIONS] [FILE]"),
]
# -- What `explain` says of a zone's text. The tables have the text after the line of this SOA, and the place and the reason, whose token is marked;
# a reason that names no token says how wide the mark is.
TOP = "a. 60 IN SOA b. c. 1 2 3 4 5\n"
NO_FEED, OPEN, MISPLACED = "the last line has no line feed", "parenthesis is not closed", "parenthesis is misplaced"
QUOTE, ESCAPE = "quote is not closed", "escape is not whole: write three digits from 000 to 255"
RELATIVE, OUTSIDE = "relative name without an origin: give --origin or $ORIGIN", "record outside the zone a."
ENDS, MUCH, AGAIN_STATED = "the entry ends where {} is wanted", "{} is one token too many", "{} states a TTL or a class again"
SECONDS, OF_8, OF_16, OF_32 = "a number of seconds from 0 to 4294967295", "a number from 0 to 255", "a number from 0 to 65535", "a number from 0 to 4294967295"
HEAD, STRING, GENERAL = "a TTL, a class or a type", "a string of at most 255 octets", "data of {} is read only as \\# LENGTH OCTETS in base 16"
TAG, FIRST, LONG = "a tag of at most 255 octets", "the first record is not an SOA", "data has more than 65535 octets"
UNTYPED, EMPTY_TAG = "octets are no data of the record's type", "the tag of a CAA record is empty"
X63, X255, NL = "x" * 63, "x" * 255, "\n"
LONGEST = ".".join([X63] * 3 + ["y" * 59, "a."])
ROWS = [
    # Rows: line feeds, quotes, parentheses, octets.
    ("a. 60 IN A 1.2.3.4", "2:19: " + NO_FEED),
    ("a. A 1.2.3.4 ; c", "2:17: " + NO_FEED),
    ("a. A\t1.2.3.4\t ", "2:15: " + NO_FEED),
    ('a. TXT "no end\n', "2:8: " + QUOTE),
    ('a. TXT "a\\"\n', "2:8: " + QUOTE),
    ('a. TXT a "b" (\n"c" "d )\n', "3:5: " + QUOTE),
    ("a. TXT ( a\n b\n", "2:8: " + OPEN),
    ("a. TXT ( a ) ( b ; )\n", "2:14: " + OPEN),
    ("a. TXT (\n a\n", "2:8: " + OPEN),
    ("a. TXT a )\n", "2:10: " + MISPLACED),
    ("a. TXT ( a\n\t( b )\n", "3:2: " + MISPLACED + "; one is open since line 2"),
    ("a. TXT ab\x7f\n", "2:10: octet 127 is not printable: write \\127"),
    ("a. TXT \xe9\n", "2:8: octet 195 is not printable: write \\195"),
    ("\x00\n", "2:1: octet 0 is not printable: write \\000"),
    ("a. TXT x\\99\n", "2:9: " + ESCAPE),
    ("a. TXT \\256\n", "2:8: " + ESCAPE),
    ("a. TXT ab\\\n", "2:10: " + ESCAPE),
    ('a. TXT "x\\99"\n', "2:10: " + ESCAPE),
    ('a. TXT "x\ty"\n', "2:10: octet 9 is not printable: write \\009"),
    ('a. TXT "\xe9\n', "2:9: octet 195 is not printable: write \\195"),
]
DIRECTIVES = [
    ("$FOO x\n", "2:1: unknown directive '$FOO'"),
    ("$ORIGIN ; c\n", "2:8: " + ENDS.format("a name")),
    ("$ORIGIN b\n", "2:9: " + RELATIVE, 1),
    ("$ORIGIN b..\n", "2:9: 'b..' is not a name"),
    ("$origin b. c.\n", "2:12: " + MUCH.format("'c.'")),
    ("$ORIGIN b.\nw A 1.2.3.4\n", "3:1: " + OUTSIDE, 1),
    ("$TTL\n", "2:5: " + ENDS.format(SECONDS)),
    ("$TTL 4294967296\n", "2:6: '4294967296' is not " + SECONDS),
    ("$TTL -1\n", "2:6: '-1' is not " + SECONDS),
    ("$ttl 1d2h3M4s\n", "2:6: TTL units ('1d2h3M4s') are not read: write 93784"),
    ("$TTL 1 2\n", "2:8: " + MUCH.format("'2'")),
    ("$INCLUDE\n", "2:9: " + ENDS.format("a path without quotes")),
    ('$INCLUDE "x"\n', "2:11: 'x' is not a path without quotes"),
    ("$INCLUDE x y\n", "2:12: " + RELATIVE, 1),
    ("$INCLUDE x y. z\n", "2:15: " + MUCH.format("'z'")),
    ("$include x y.\n", "2:1: $INCLUDE is not read: give the zone as one text", 8),
]
HEADS = [
    ("www A 1.2.3.4\n", "2:1: " + RELATIVE, 3),
    ("@ A 1.2.3.4\n", "2:1: " + RELATIVE, 1),
    ("b..a. A 1.2.3.4\n", "2:1: 'b..a.' is not a name"),
    (f"x{X63}.a. A 1.2.3.4\n", f"2:1: 'x{X63}.a.' is not a name"),
    (f"y{LONGEST} A 1.2.3.4\n", f"2:1: 'y{LONGEST}' is not a name"),
    ("b.a.\n", "2:5: " + ENDS.format(HEAD)),
    ("a. 60 IN ; A\n", "2:9: " + ENDS.format(HEAD)),
    (" 60\n", "2:4: " + ENDS.format(HEAD)),
    ("a. 1h IN A 1.2.3.4\n", "2:4: TTL units ('1h') are not read: write 3600"),
    ("a. IN 1W A 1.2.3.4\n", "2:7: TTL units ('1W') are not read: write 604800"),
    ("a. 60 60 A 1.2.3.4\n", "2:7: " + AGAIN_STATED.format("'60'")),
    ("a. IN 60 in A 1.2.3.4\n", "2:10: " + AGAIN_STATED.format("'in'")),
    ("a. CH A 1.2.3.4\n", "2:4: 'CH' is not the zone's class"),
    ("a. CH A 1.2.3\n", "2:9: '1.2.3' is not an IPv4 address"),
    ("a. 60 IN MXX 10 b.\n", "2:10: unknown type 'MXX'; did you mean MX?"),
    ("a. aaa ::1\n", "2:4: unknown type 'aaa'; did you mean AAAA?"),
    ("a. CNAM b.\n", "2:4: unknown type 'CNAM'; did you mean CNAME?"),
    ("\tSVR 1 2 3 b.\n", "2:2: unknown type 'SVR'"),
    ("a. TYPE65536 \\# 0\n", "2:4: unknown type 'TYPE65536'"),
]
DATA = [
    ("a. A 1.2.3.256\n", "2:6: '1.2.3.256' is not an IPv4 address"),
    ("a.\t60\tIN\tA\t1.2.3\n", "2:12: '1.2.3' is not an IPv4 address"),
    ("a. A (\n  1.2.3.4.5 ; c\n)\n", "3:3: '1.2.3.4.5' is not an IPv4 address"),
    ("a. AAAA ::g\n", "2:9: '::g' is not an IPv6 address"),
    ("a. AAAA\n", "2:8: " + ENDS.format("an IPv6 address")),
    ("a. CAA 256 t v\n", "2:8: '256' is not " + OF_8),
    ("a. DS 1 2\n", "2:10: " + ENDS.format(OF_8)),
    ("a. MX 65536 b.\n", "2:7: '65536' is not " + OF_16),
    ("a. SRV 1 2\n", "2:11: " + ENDS.format(OF_16)),
    ("a. SOA b. c. 4294967296 2 3 4 5\n", "2:14: '4294967296' is not " + OF_32),
    ("a. SOA b. c. (\n 1 2 ; 3\n 4 )\n", "4:3: " + ENDS.format(OF_32)),
    ("a. MX (\n 10 ; b.\n)\n", "3:4: " + ENDS.format("a name")),
    ("a. NS b..\n", "2:7: 'b..' is not a name"),
    ("a. MX 10 b\n", "2:10: " + RELATIVE, 1),
    ("a. MX (\n 10 ; c\n b. c. )\n", "4:5: " + MUCH.format("'c.'")),
    ("a. TXT\n", "2:7: " + ENDS.format(STRING)),
    ("a. HINFO x\n", "2:11: " + ENDS.format(STRING)),
    (f"a. TXT a x{X255}\n", f"2:10: 'x{X255}' is not {STRING}"),
    ('a. MX "10" b.\n', "2:8: '10' is quoted: only strings are"),
    ('"a." A 192.0.2.1\n', "2:2: 'a.' is quoted: only strings are"),
    ("a. 4294967296 A 192.0.2.1\n", "2:4: '4294967296' is not a number of seconds from 0 to 4294967295"),
    (" a. A 192.0.2.1\n", "2:2: unknown type 'a.'"),
    ("a. TXT ( x ( y\n", "2:12: parenthesis is misplaced; one is open since line 2"),
    ("a. CAA 0\n", "2:9: " + ENDS.format(TAG)),
    (f"a. CAA 0 x{X255} v\n", f"2:10: 'x{X255}' is not {TAG}"),
    ("a. CAA 0 issue\n", "2:15: " + ENDS.format("a string")),
    ("a. CAA 0 issue x y\n", "2:18: " + MUCH.format("'y'")),
    ('a. TXT "a" (\n"b" ' + "y" * 256 + ' "c" )\n', "3:5: '" + "y" * 256 + "' is not " + STRING),
    ("a. SSHFP 1 2 zz\n", "2:14: 'zz' is not base 16"),
    ("a. DS 1 2 3 ab cg ef\n", "2:16: 'cg' is not base 16"),
    ("a. DS 1 2 3 ab c\n", "2:16: 'c' is not base 16"),
    ("a. DNSKEY 256 3 5 AQ*=\n", "2:19: 'AQ*=' is not base 64"),
    ("a. DNSKEY 256 3 5 AQ=\n", "2:19: 'AQ=' is not base 64"),
    ("a. APL 1:10.0.0.0/8\n", "2:4: " + GENERAL.format("APL"), 3),
    ("a. TYPE42 1:10.0.0.0/8\n", "2:11: " + GENERAL.format("APL"), 12),
    ("a. TYPE65280\n", "2:13: " + GENERAL.format("TYPE65280")),
    ("a. TYPE65280 \\#\n", "2:16: " + ENDS.format(OF_16)),
    ("a. TYPE65280 \\# 65536 00\n", "2:17: '65536' is not " + OF_16),
    ("a. TYPE65280 \\# 4 010203\n", "2:17: '4' is not the number of octets that follow"),
    ("a. TYPE65280 \\# 3 0102 0g\n", "2:24: '0g' is not base 16"),
    (f"a. TXT (\n{(X255 + NL) * 256})\n", "3:1: " + LONG, 255),
]
RULES = [
    ("a. A \\# 3 010203\n", "2:1: " + UNTYPED, 2),
    ("; c\n\na. TXT x\n" + TOP, "5:1: second SOA; the first is in line 1", 2),
    ("b. 60 IN A 1.2.3.4\n", "2:1: " + OUTSIDE, 2),
    ("b.a. A 1.2.3.4\n\n ; c\nba. A 1.2.3.4\n", "5:1: " + OUTSIDE, 3),
    ('a. CAA 0 "" x\n', "2:1: " + EMPTY_TAG, 2),
]
# Texts that keep the rule that one above breaks, after the line of the SOA.
KEPT = [
    "", " \t; c", "a. A 1.2.3.4\n; c", 'a. TXT "an end" "a\\"" "(" \\( ";"\n', "a. TXT ( a\n b\n)\n", "a. TXT \\195\\255\n", "$ORIGIN b.a.\nw A 1.2.3.4\n",
    "$TTL 4294967295\n", f"{X63}.a. A 1.2.3.4\n", f"{LONGEST} A 1.2.3.4\n", " 60 A 1.2.3.4\n", "a. IN 60 A 1.2.3.4\n", "a. 4294967295 A 1.2.3.255\n",
    "a. TYPE65535 \\# 0\n", "a. AAAA ::f\n", "a. CAA 255 t v\n", "a. MX 65535 b.\n", f"a. TXT {X255}\n", "a. CAA 0 ab1 v\n", "a. DS 1 2 3 ab c d\n",
    "a. DNSKEY 256 3 5 AQ==\n", "a. NSEC \\# 3 016200\n", "a. A \\# 4 0102 0304\n", "B.A. A 1.2.3.4\n", f"a. TXT (\n{(X255 + NL) * 255}{'x' * 254})\n",
]


def explained(text, said, width=None, words="explain", file="-"):
    """The case of a text of which this is said. The mark is as wide as the token in quotes, or as said, or 1."""
    line, column, reason = re.fullmatch(r"(\d+):(\d+): (.*)", said).groups()
    token = re.search(r"'([^']*)'", reason)
    width = width or (len(token[1]) if token else 1)
    octets = text.encode().split(b"\n")[int(line) - 1]
    shown = "".join(chr(it) if it == 9 or 32 <= it < 127 else "?" for it in octets)
    mark = re.sub(r"[^\t]", " ", shown[: int(column) - 1]) + "^" * width
    return Case(words, 1, f"{file}:{said}\n{shown}\n{mark}\n", given=text)


def together(text, *said, front=""):
    """The case of `explain --all` of a text after the front, of which all this is said: places with reasons, and how wide the mark is."""
    each = [explained(front + text, reason, width).out for reason, width in said]
    return Case("explain --all", 1, "".join(each), given=front + text)


def stats(*rows):
    """The table of `stats`: the numbers of records and names, and the octets of each spelling, the same for both sizes of messages."""
    *numbers, octets = rows
    sizes = [(f"{word} {most}", count) for word, count in zip(("plain", "static", "tree", "hash"), octets) for most in (16384, 65535)]
    return "".join(f"{name:16}{count}\n" for name, count in [*numbers, *sizes])


# A stream has a message: its length, its header and its question, and each record of the zone with the SOA again.
STATS = [
    Case("stats soa", 0, stats(("records", 1), ("SOA", 1), ("names", 1), ("delegations", 0), (99, 95, 95, 95))),
    Case("stats", 0, stats(("records", 1), ("SOA", 1), ("names", 1), ("delegations", 0), (99, 95, 95, 95)), given=SOA),
    Case("stats missing", 2, said="zonetool: missing: read failed: No such file or directory (os error 2)"),
    Case("stats two-soas", 2, said="zonetool: two-soas: entry 3: second SOA"),
    Case("stats one one", 2, said=unexpected("one")),
    Case("stats one --layout simple", 2, said=unexpected("--layout")),
]
EXPLAIN = [
    *(explained(TOP + text, *said) for text, *said in ROWS + DIRECTIVES + HEADS + DATA + RULES),
    *(Case("explain", given=TOP + text) for text in KEPT),
    explained("; c\n$TTL 5\na. A 1.2.3.4\n", "3:1: " + FIRST, 2),
    explained("\n\n" + TOP + " TXT x\n" + TOP, "5:1: second SOA; the first is in line 3", 2),
    explained("\t60 IN SOA b. c. 1 2 3 4 5\n", "1:2: no owner: the first record states its owner", 2),
    explained("a. SOA b. c. 4294967296 2 3 4 5\n", "1:14: '4294967296' is not " + OF_32),
    explained("www A 1.2.3.4\n", "1:1: " + FIRST, 3, words="explain - --origin z"),
    explained("@ 60 IN SOA b. c. 1 2 3 4 5\n$ORIGIN Y\n@ A 1.2.3.4\n$ORIGIN y.\n@ A 1.2.3.4\n", "5:1: record outside the zone Z.", 1, words="explain --origin Z."),
    explained(FILES["chaos"] + "z. IN A 1.2.3.4\n", "3:4: 'IN' is not the zone's class", words="explain --class CH"),
    explained(FILES["outside"], "2:1: record outside the zone z.", 2, words="explain outside", file="outside"),
    explained(FILES["unended"], "2:23: " + NO_FEED, words="explain --class in unended", file="unended"),
    explained(FILES["relative"], "1:1: " + RELATIVE, words="explain ./relative", file="./relative"),
    Case("explain relative --origin z"),
    Case("explain", given="a. 60 IN SOA b. c. 4294967295 2 3 4 5\n"),
    Case("explain chaos --class class3"),
    explained(TOP + "b. A 1.2.3.4\n", "2:1: " + OUTSIDE, 2, words="explain --all"),
    Case("explain --all one"),
    Case("explain --all empty", 1, "empty:1:1: the text has no record\n"),
    Case("explain --all --class CLASS255 one", 1, "one:1:1: no zone has the class ANY\n"),
    Case("explain --all missing", 2, said="zonetool: missing: read failed: No such file or directory (os error 2)"),
    together("a. 60 IN MXX 10 b.\nb. A 1.2.3.4\n$INCLUDE x\nc.a. A 1.2.3.4\n" + TOP, ("2:10: unknown type 'MXX'; did you mean MX?", 3), ("3:1: " + OUTSIDE, 2),
             ("4:1: $INCLUDE is not read: give the zone as one text", 8), ("6:1: second SOA; the first is in line 1", 2), front=TOP),
    together("a. TXT ( x\nb.a. A 1.2.3\n", ("2:8: " + OPEN, 1), ("3:8: '1.2.3' is not an IPv4 address", 5), front=TOP),
    together("a. 60 IN SOA b. c. 1 2 3 4\nb. A 1.2.3.4\nc. A 1.2.3\n", ("1:27: " + ENDS.format(OF_32), 1), ("3:6: '1.2.3' is not an IPv4 address", 5)),
    together("b. 60 A 1.2.3.4\nc. A 1.2.3.4\n" + TOP + "b. A 1.2.3.4\n", ("1:1: " + FIRST, 2), ("4:1: " + OUTSIDE, 2)),
    Case("explain --color always outside", 1, "\x1b[1moutside:2:1:\x1b[0m record outside the zone z.\ny. 60 IN A 192.0.2.1\n\x1b[31m^^\x1b[0m\n"),
    Case("explain --color never outside", 1, "outside:2:1: record outside the zone z.\ny. 60 IN A 192.0.2.1\n^^\n"),
    Case("diff --color always one late", 1, "\x1b[31m-" + A[:-1] + "\x1b[0m\n\x1b[32m+" + LATE_A[:-1] + "\x1b[0m\n"),
    Case("explain --class CLASS255 one", 1, "one:1:1: no zone has the class ANY\n"),
    Case("explain empty", 1, "empty:1:1: the text has no record\n"),
    Case("explain -", 1, "-:1:1: the text has no record\n", given="\n; c\n$TTL 5\n"),
    Case("explain missing", 2, said="zonetool: missing: read failed: No such file or directory (os error 2)"),
    Case("explain folder", 2, said="zonetool: folder: read failed: Is a directory (os error 21)"),
    Case("explain one --class no", 2, said="zonetool: bad class"),
    Case("explain one --origin a..b", 2, said="zonetool: bad name"),
    Case("explain one one", 2, said=unexpected("one")),
    Case("explain one --layout simple", 2, said=unexpected("--layout")),
    Case("explain outside", 2, said="zonetool: write failed", is_full=True),
    Case("explain one", is_full=True),
]
# -- Data of further types in the other commands: the zone in presentation form, and in general form, in canonical order.
SERVED, TARGET = "s.z. 60 IN SVCB 1 . alpn=h2,h3 port=53\n", 'u.z. 60 IN URI 1 2 "x"\n'
SIGNED_TEXT = SIGNATURE_TEXT.format("20030322173103", "20030220173103")
FURTHER_FORMS = {
    "further": SOA + SERVED.replace("alpn=h2,h3 port=53", "( port=53 ; p\n alpn=h2,h3 )") + "$TTL 60\n" + SIGNED_TEXT + TARGET + A,
    "general": SOA + "z. 60 IN RRSIG " + general(SIGNED) + "\n" + A + "s.z. 60 IN SVCB " + general(SERVICE) + "\nu.z. 60 IN TYPE256 "
               + general(bytes([0, 1, 0, 2]), b"x") + "\n",
    "present": SOA + SIGNED_TEXT + A + SERVED + TARGET,
    "bad-further": SOA + SIGNED_TEXT + "a.z. URI 1 x y\n",
}
FILES.update({"further": FURTHER_FORMS["further"], "further-general": FURTHER_FORMS["general"], "bad-further": FURTHER_FORMS["bad-further"]})
# The octets of the stream: in full, and with eight octets fewer by pointers to the apex and the names of the first SOA.
IN_FULL = 21 + 2 * 39 + (13 + len(SIGNED)) + 19 + (15 + len(SERVICE)) + (15 + 5)
FURTHER_STREAM = (IN_FULL, IN_FULL - 8, IN_FULL - 8, IN_FULL - 8)
LINE_OF = dict(zip(("SOA", "RRSIG", "A", "SVCB", "URI"), FURTHER_FORMS["general"].splitlines(keepends=True)))
SHOWN_LINE = dict(zip(LINE_OF, FURTHER_FORMS["present"].splitlines(keepends=True)))


def wide(head, *parts):
    """The record of this owner, TTL, class and type in the layout of several lines."""
    return f"{head} (" + "".join(f"\n        {it}" for it in parts) + "\n        )"


WIDE_SOA, WIDE_A = MULTILINE.split("a.z.", 1)[0], wide("a.z. 60 IN A", "192.0.2.1") + "\n"
WIDE = [wide(f"{' '.join(line.split()[:4])}", *line.split()[4:]) for line in (SIGNED_TEXT, SERVED, TARGET)]
FURTHER = [
    Case("sort --present --layout multiline further", 0, f"{WIDE_SOA}{WIDE[0]}\n{WIDE_A}{WIDE[1]}\n{WIDE[2]}\n"),
    Case("sort --layout multiline --present raw", 0, WIDE_SOA + wide("z. 60 IN TYPE65280", "\\#", "2", "0AFF") + "\n" + WIDE_A + wide("b.z. 60 IN TXT", '"t"') + "\n"),
    Case("sort --layout tabbed --present further-general", 0, TABBED.split("a.z.")[0] + "".join(
        it.replace(" ", "\t", 4) for it in FURTHER_FORMS["present"].splitlines(keepends=True)[1:])),
    Case("diff further further-general"),
    Case("diff further further-general --present"),
    Case("diff - further", given=FILES["further-general"]),
    Case("diff further -", given=FILES["further"]),
    Case("diff soa further", 1, "".join("+" + LINE_OF[it] for it in ("RRSIG", "A", "SVCB", "URI"))),
    Case("diff further soa --present --without A", 1, "".join("-" + SHOWN_LINE[it] for it in ("RRSIG", "SVCB", "URI"))),
    Case("diff --present one raw", 1, "+" + RAW.replace("0aff", "0AFF")),
    Case("diff --present --color always soa further --without RRSIG --without SVCB --without TYPE256", 1, "\x1b[32m+" + A[:-1] + "\x1b[0m\n"),
    Case("diff --present --color always further one --without A --without TXT --without RRSIG --without SVCB", 1,
         "\x1b[31m-" + SHOWN_LINE["URI"][:-1] + "\x1b[0m\n"),
    Case("diff further bad-further", 2, said="zonetool: bad-further: entry 3: text"),
    Case("diff further soa --without URI --without A --without rrsig", 1, "-" + LINE_OF["SVCB"]),
    Case("diff further soa --without URL", 2, said="zonetool: bad type"),
    Case("sort further", 0, FURTHER_FORMS["general"]),
    Case("sort further-general", 0, FURTHER_FORMS["general"]),
    Case("sort --present further", 0, FURTHER_FORMS["present"]),
    Case("sort --present - --layout simple", 0, FURTHER_FORMS["present"], given=FILES["further-general"]),
    Case("sort --present one", 0, FILES["one"]),
    Case("sort --present bad-further", 2, said="zonetool: bad-further: entry 3: text"),
    Case("sort --present --origin z", 0, SOA + "a.z. 60 IN NSEC z. A\n", given="@ 60 IN SOA b. c. 1 2 3 4 5\n$ORIGIN z.\na 60 NSEC @ a\n"),
    Case("stats further-general", 0, stats(("records", 5), ("A", 1), ("SOA", 1), ("RRSIG", 1), ("SVCB", 1), ("TYPE256", 1), ("names", 4), ("delegations", 0), FURTHER_STREAM)),
    Case("stats further", 0, stats(("records", 5), ("A", 1), ("SOA", 1), ("RRSIG", 1), ("SVCB", 1), ("TYPE256", 1), ("names", 4), ("delegations", 0), FURTHER_STREAM)),
    Case("stats --present", 0, stats(("records", 5), ("A", 1), ("SOA", 1), ("RRSIG", 1), ("SVCB", 1), ("URI", 1), ("names", 4), ("delegations", 0), FURTHER_STREAM),
         given=FILES["further"]),
    Case("stats bad-further", 2, said="zonetool: bad-further: entry 3: text"),
    Case("explain further"),
    Case("explain --all -", given=FILES["further"]),
    Case("explain --present further", 2, said=unexpected("--present")),
]
# What `explain` says of data of further types, after the line of the SOA.
TIME, SALT, HASH, HARDWARE = "a time as YYYYMMDDHHmmSS or in seconds", "a salt in base 16 or -", "a hash in base 32", "an address of {} octets"
PARAMETER, KEYS = "a service parameter", "a key of the service parameters is there twice, or lacks another"
PLACE, RECORD_TYPE = "the next part of a location", "a type"
SIGNATURE_ROW = "a. RRSIG A 5 2 86400 20030322173103 20030220173103 2642 a. AAECAw==\n"
NEXT_ROW = "b.a. NSEC a. A NSEC\n"
FURTHER_DATA = [
    (SIGNATURE_ROW.replace("20030322173103", "20031322173103"), f"2:22: '20031322173103' is not {TIME}"),
    (SIGNATURE_ROW.replace("20030322173103", "2003032217310"), f"2:22: '2003032217310' is not {TIME}"),
    (SIGNATURE_ROW.replace(" A 5", " AB 5"), f"2:10: 'AB' is not {RECORD_TYPE}"),
    (SIGNATURE_ROW.replace(" 5 ", " RSASHA9 "), "2:12: 'RSASHA9' is not an algorithm"),
    ("a. CERT PKI 0 0 AA==\n", "2:9: 'PKI' is not a type of certificates"),
    ("a. CDNSKEY 257 3 13\n", "2:20: " + ENDS.format("base 64")),
    ("a. SVCB 1 . port= 53\n", "2:13: 'port=' is not a service parameter"),
    (SIGNATURE_ROW.replace(" a. AA", " a.. AA"), "2:57: 'a..' is not a name"),
    (SIGNATURE_ROW.replace(" a. AA", " a AA"), "2:57: " + RELATIVE, 1),
    (SIGNATURE_ROW.replace("AAECAw==", "AAEC Aw="), "2:65: 'Aw=' is not base 64"),
    (SIGNATURE_ROW.replace("AAECAw==", "AA*C Aw=="), "2:60: 'AA*C' is not base 64"),
    ("a. RRSIG A 5 2 ; x\n", "2:15: " + ENDS.format(OF_32)),
    ("a. RRSIG (\n A 5 2 86400 20030322173103 ; x\n 20030220173103 2642 )\n", "4:21: " + ENDS.format("a name")),
    ('a. RRSIG "A" 5\n', "2:11: 'A' is quoted: only strings are"),
    ("a. NSEC a. A (\n MX ; x\n FOO )\n", f"4:2: 'FOO' is not {RECORD_TYPE}"),
    ("a. NSEC\n", "2:8: " + ENDS.format("a name")),
    ("a. NSEC3 1 0 65536 - A0 A\n", "2:14: '65536' is not " + OF_16),
    ("a. NSEC3 1 0 5 abc A0 A\n", f"2:16: 'abc' is not {SALT}"),
    ("a. NSEC3 1 0 5 - W0 A\n", f"2:18: 'W0' is not {HASH}"),
    ("a. NSEC3PARAM 1 0 5\n", "2:20: " + ENDS.format(SALT)),
    ("a. NSEC3PARAM 1 0 5 - A\n", "2:23: " + MUCH.format("'A'")),
    ("a. TLSA 3 1 1 0A 0g\n", "2:18: '0g' is not base 16"),
    ("a. TLSA 3 1 1 0A 0\n", "2:18: '0' is not base 16"),
    ("a. EUI48 00-00-5e-00-53\n", f"2:10: '00-00-5e-00-53' is not {HARDWARE.format('six')}"),
    ("a. EUI64 00-00-5e-00-53-00-00-00 x\n", "2:34: " + MUCH.format("'x'")),
    ("a. EUI64 00-00-5e-00-53-00\n", f"2:10: '00-00-5e-00-53-00' is not {HARDWARE.format('eight')}"),
    ("a. NAPTR 1 2 u E2U " + "x" * 256 + " .\n", "2:20: '" + "x" * 256 + f"' is not {STRING}"),
    ("a. LOC 91 N 0 E 0\n", f"2:8: '91' is not {PLACE}"),
    ("a. LOC 9 61 N 0 E 0\n", f"2:10: '61' is not {PLACE}"),
    ("a. LOC 9 N 0 E\n", "2:15: " + ENDS.format(PLACE)),
    ("a. LOC 9 N 0 E 0 1 1 1 1\n", f"2:24: '1' is not {PLACE}"),
    ("a. SVCB 1 . port=65536\n", f"2:13: 'port=65536' is not {PARAMETER}"),
    ('a. HTTPS 1 . alpn= "h2" (\n prt=5 )\n', f"3:2: 'prt=5' is not {PARAMETER}"),
    ("a. SVCB 1 . alpn=h2 port=1 port=1\n", "2:13: " + KEYS, 7),
    ("a. SVCB 1 . mandatory=port\n", "2:13: " + KEYS, 14),
    ("a. SVCB 1\n", "2:10: " + ENDS.format("a name")),
    ("a. URI 1 x y\n", "2:10: 'x' is not " + OF_16),
    ("a. URI 1 2\n", "2:11: " + ENDS.format("a string")),
    ("a. SMIMEA\n", "2:10: " + ENDS.format(OF_8)),
    ("a. CERT 1 2 3 *\n", "2:15: '*' is not base 64"),
    ("a. URI \\# 3 0001\n", "2:11: '3' is not the number of octets that follow"),
    ("a. IPSECKEY 10 1 2 192.0.2.1\n", "2:4: " + GENERAL.format("IPSECKEY"), 8),
    ("a. CH URI 1 2 x\n", "2:4: 'CH' is not the zone's class"),
    ("a. URX 1 2 x\n", "2:4: unknown type 'URX'; did you mean URI?"),
    ("a. RRSG A\n", "2:4: unknown type 'RRSG'; did you mean RRSIG?"),
    ("a. OPENPGPKEY (\n" + "A" * 65536 + "\n" + "A" * 21848 + " )\n", "3:1: " + LONG, 65536),
    # Rows that are written in general form, and what is said of rows among them.
    ("b. RRSIG ( A 5 2 86400 ; x\n 20030322173103 20030220173103 2642 a. AAECAw== )\n", "2:1: " + OUTSIDE, 2),
    (NEXT_ROW + "b.a. URI (\n 1 2\n x ) ; x\nc. (\n URI 1 2\n x )\n", "6:1: " + OUTSIDE, 2),
    (NEXT_ROW + "\tTYPE47 (\n b. A\n)\n IN CH NSEC b. A\n", "6:5: " + AGAIN_STATED.format("'CH'")),
    (NEXT_ROW + SIGNATURE_ROW + "; x\n" + TOP, "5:1: second SOA; the first is in line 1", 2),
    (NEXT_ROW + "a. TXT ( x ; y\n" + SIGNATURE_ROW.replace("2642", "( 2642 )").replace("AAECAw==", "AAECAw=="), "4:52: parenthesis is misplaced; one is open since line 3"),
    (NEXT_ROW + 'a. TXT ( x ; y\na. NAPTR 1 2 "(" \\( ( x . )\n', "4:21: parenthesis is misplaced; one is open since line 3"),
    (NEXT_ROW + "a. NSEC a. A", "3:13: " + NO_FEED),
]
FURTHER += [
    *(explained(TOP + text, *said) for text, *said in FURTHER_DATA),
    explained(FILES["bad-further"], "3:12: 'x' is not " + OF_16, words="explain bad-further", file="bad-further"),
    explained(FILES["bad-further"], "3:12: 'x' is not " + OF_16, words="explain --all bad-further", file="bad-further"),
    explained("\tNSEC a. A\n", "1:2: no owner: the first record states its owner", 4),
    explained("a. NSEC a. A\n" + TOP, "1:1: " + FIRST, 2),
    explained("$ORIGIN a.\n@ 60 IN SOA b. c. 1 2 3 4 5\nb NSEC @ A\n$ORIGIN b.\na SVCB 1 b\n", "5:1: " + OUTSIDE, 1),
    Case("explain", given=TOP + "".join(text for text in (SIGNATURE_ROW, NEXT_ROW, "\tURI 1 2 x\n", "a. SVCB 0 a.\n", "a. LOC 9 N 0 E 0\n", "a. NSEC3PARAM 1 0 5 -\n"))),
    Case("explain --origin a", given=TOP + "b NSEC @ A ; x\n\tRRSIG NSEC 5 2 86400 0 0 2642 @ (\n AAEC\n Aw== )\n"),
    together("b.a. A 1.2.3\n" + NEXT_ROW + "a. RRSIG A 5 x\nc.a. URI 1 2 (\n \"x\" )\nc. NSEC a. A\nc.a. A 1.2.3.4 5\n", ("2:8: '1.2.3' is not an IPv4 address", 5),
             ("4:14: 'x' is not " + OF_8, 1), ("7:1: " + OUTSIDE, 2), ("8:16: " + MUCH.format("'5'"), 1), front=TOP),
    together("a. TXT ( x\n" + NEXT_ROW + "a. NSEC3 1 0 5 - ( A0 ) A\nb. NSEC a. A\na. TXT x ) y\na. NSEC a. B\n",
             ("4:18: parenthesis is misplaced; one is open since line 2", 1), ("5:1: " + OUTSIDE, 2), ("6:10: " + MISPLACED, 1), (f"7:12: 'B' is not {RECORD_TYPE}", 1), front=TOP),
]
LINES = [
    Case("", 2, said="error: 'zonetool' requires a subcommand but one was not provided"),
    Case("check one", 2, said="error: unrecognized subcommand 'check'"),
    Case("--origin z", 2, said=unexpected("--origin")),
    Case("diff \udcff one", 2, said="zonetool: a word is not UTF-8"),
    Case("--version", 0, "zonetool 0.1.0\n"),
    Case("--help", 0, "Usage: zonetool <COMMAND>"),
    Case("diff --help", 0, "Usage: zonetool diff [OPTIONS] <OLD> <NEW>"),
    Case("sort -h", 0, "Usage: zonetool sort [OPTIONS] [FILE]"),
    Case("query --help", 0, "Usage: zonetool query [OPTIONS] <APEX>"),
    Case("explain --help", 0, "Usage: zonetool explain [OPTIONS] [FILE]"),
    Case("--help", 2, said="zonetool: write failed", is_full=True),
]


# A program of `rt try` looks for faults of memory, and leaves its own to the system as it ends.
SETTINGS = {**os.environ, "ASAN_OPTIONS": "detect_leaks=0:allocator_may_return_null=1"}


def run(program, folder, case):
    """How the program ends for a case, with what it writes, and what it says."""
    with open("/dev/full", "wb") as full:
        out = full if case.is_full else subprocess.PIPE
        words = [program, *case.words.split()]
        ran = subprocess.run(words, cwd=folder, env=SETTINGS, input=case.given.encode(), stdout=out, stderr=subprocess.PIPE)
    return ran.returncode, ran.stdout or b"", ran.stderr.decode(errors="replace")


def differences(case, status, out, said):
    """A line for the status, the output and the line of standard error, of those that differ."""
    lines = said.splitlines()
    first = "\n".join(lines) if said.startswith("zonetool: ") else "".join(lines[:1])
    wanted_out = case.out if isinstance(case.out, bytes) else case.out.encode()
    if wanted_out.startswith(b"Usage: ") and wanted_out in out.splitlines():
        out = wanted_out
    pairs = (("status", case.status, status), ("output", wanted_out, out), ("said", case.said, first))
    return [f"    {name}: wanted {a!r}, given {b!r}" for name, a, b in pairs if a != b]


def judged(program):
    """How many cases there are, and the lines of each that differs."""
    cases, found = DIFF + SORT + STATS + QUERY + FORMS + EXPLAIN + FURTHER + LINES, []
    with tempfile.TemporaryDirectory(prefix="zonetool-") as name:
        folder = Path(name)
        (folder / "folder").mkdir()
        for file, text in FILES.items():
            (folder / file).write_bytes(text.encode())
        for case in cases:
            notes = differences(case, *run(program, folder, case))
            if notes:
                found.append((f"zonetool {case.words}", *notes))
    return len(cases), found


def main():
    if len(sys.argv) != 2:
        print("usage: zonetool_cases.py PROGRAM", file=sys.stderr)
        return 2
    count, found = judged(str(Path(sys.argv[1]).resolve()))
    for lines in found:
        print("\n".join(lines))
    print(f"{count} cases, {len(found)} differ")
    return 1 if found else 0


if __name__ == "__main__":
    sys.exit(main())
