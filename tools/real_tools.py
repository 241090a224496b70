#!/usr/bin/env python3
"""real_tools.py [--zonewire PATH] [--zonetool PATH] [--only TEXT]: takes zones to real name servers and signers, and back, and compares records.

    python3 tools/real_tools.py --zonewire build/zonewire --zonetool build/zonetool

A record is its owner, its type, class and TTL, and the octets of its data. They are compared octet for octet; only owners and names that a
server may compress (RFC 3597 4) are compared up to ASCII case. This file reads records by itself: from the messages of a transfer, from the
raw files of named-compilezone, and from what ldns-read-zone writes in the general form. Of each zone that dnssec-signzone, ldns-signzone or
kzonesign signs are compared:

- what `zonetool general | zonewire send` makes of the signer's text, and of texts that other tools write of it, with what BIND and ldns read
  in it;
- what BIND, Knot and NSD serve as secondaries, after they have fetched that stream from a server of this file;
- what they serve as primaries of the signer's text, and what `zonewire receive | zonetool present` makes of that, in each layout, as BIND and
  ldns read it; its lines with those of `dig`, apart from white space, in types that have one form of text; what `zonetool general` makes of
  the lines of `dig`, `kdig` and `drill`; and whether dnssec-verify and ldns-verify-zone find its signatures as good as the signer's.

tools/further_types.zone has each further type in each of its forms. What `zonetool general` makes of it is compared with what BIND, ldns, Knot
and NSD read in it, and so is what `zonetool present` writes of that, in each layout, and what other tools write of it. A block of that file
that begins with `; not NAME, NAME: REASON` is left out for the tools named, `zonetool` for all of this, `written` for what other tools write, `dig`
for the text that a server has and `dig` prints.

It needs both programs (proved, or those that `rt try` compiled), and of these what is there: bind9, bind9-utils, bind9-dnsutils, knot,
knot-dnssecutils, knot-dnsutils, nsd, ldnsutils. It names each tool that is not installed, and leaves out what needs it. Servers listen on free ports of
127.0.0.1, write in a temporary folder, and end with the run. It prints a line for each comparison, and the first records of one that differs. The
last line is `N the same, M differ`. The exit status is 1 if any differs, or a tool or a server fails, and 2 if one of our programs is not
there."""
import argparse
import os
import re
import shutil
import signal
import socket
import socketserver
import struct
import subprocess
import sys
import tempfile
import threading
import time
from collections import namedtuple
from contextlib import contextmanager
from dataclasses import dataclass
from pathlib import Path

from crates import ROOT
from model import TYPES

APEX, ID = "example.com", 4660
FURTHER = ROOT / "tools" / "further_types.zone"
LAYOUTS = ("simple", "tabbed", "multiline")
# How many seconds a program may take, a server until it has its zone, and a part of a transfer.
SECONDS, START_SECONDS, READ_SECONDS = 300, 120, 20
# How many records of a difference are shown, and how much of each.
SHOWN, WIDTH = 4, 200
# Where the data of a type has names that a server may compress or that have no case: the octets before them, and how many there are.
NAMES = {
    **{TYPES[it]: (0, 1) for it in "NS MD MF CNAME MB MG MR PTR DNAME".split()},
    **{TYPES[it]: (0, 2) for it in "SOA MINFO RP".split()},
    **{TYPES[it]: (2, 1) for it in "MX AFSDB KX".split()}, TYPES["SRV"]: (6, 1),
}  # fmt: skip
SOA, IXFR, AXFR = TYPES["SOA"], TYPES["IXFR"], TYPES["AXFR"]
# The types whose text has one form, apart from white space.
ONE_FORM = set("SOA NS A AAAA MX DS DNSKEY RRSIG NSEC NSEC3 NSEC3PARAM CDS CDNSKEY TLSA SMIMEA OPENPGPKEY CSYNC ZONEMD EUI48 EUI64".split())
Record = namedtuple("Record", "owner type cls ttl data")
# A program of `rt try` looks for faults of memory, and leaves its own to the system as it ends.
SETTINGS = {**os.environ, "ASAN_OPTIONS": "detect_leaks=0:allocator_may_return_null=1", "TZ": "UTC"}


class Failure(Exception):
    """A program that fails, or a server that does not start."""


# -- Records, from messages, raw files and the general form.


def name_at(octets, place):
    """The name at a place of a message, in lower case and without pointers, and where what follows it begins."""
    name, end = b"", None
    while octets[place]:
        if octets[place] >= 0xC0:
            end = end or place + 2
            place = struct.unpack_from(">H", octets, place)[0] & 0x3FFF
        else:
            after = place + 1 + octets[place]
            name, place = name + octets[place:after].lower(), after
    return name + b"\0", end or place + 1


def data_at(octets, place, end, rtype):
    """Record data at a place of a message: names that may be compressed are in lower case and in full, all else is as it is there."""
    before, names = NAMES.get(rtype, (0, 0))
    data, place = octets[place : place + before], place + before
    for _ in range(names):
        name, place = name_at(octets, place)
        data += name
    return data + octets[place:end]


def answers_in(message):
    """The records of the answer section of a message."""
    rcode, questions, answers = message[3] & 15, *struct.unpack_from(">HH", message, 4)
    if rcode:
        raise Failure(f"an answer with the code {rcode}")
    place, found = 12, []
    for _ in range(questions):
        place = name_at(message, place)[1] + 4
    for _ in range(answers):
        owner, place = name_at(message, place)
        rtype, cls, ttl, length = struct.unpack_from(">HHIH", message, place)
        place += 10
        found.append(Record(owner, rtype, cls, ttl, data_at(message, place, place + length, rtype)))
        place += length
    return found


def messages_of(stream):
    """The messages of a stream, each after its length in two octets."""
    place, found = 0, []
    while place < len(stream):
        after = place + 2 + struct.unpack_from(">H", stream, place)[0]
        found.append(stream[place + 2 : after])
        place = after
    return found


def records_of_stream(stream):
    """The records of a transfer, without the SOA at its end."""
    found = [record for message in messages_of(stream) for record in answers_in(message)]
    if len(found) < 2 or found[0] != found[-1] or found[0].type != SOA:
        raise Failure("the stream does not begin and end with the same SOA")
    return set(found[:-1])


def records_of_raw(octets):
    """The records of a zone in the raw format of named-compilezone: after 24 octets, sets of data that have owner, type, class and TTL in common."""
    place, found = 24, set()
    while place < len(octets):
        _, cls, rtype, _, ttl, count, _ = struct.unpack_from(">IHHHIIH", octets, place)
        owner, place = name_at(octets, place + 20)
        for _ in range(count):
            end = place + 2 + struct.unpack_from(">H", octets, place)[0]
            found.add(Record(owner, rtype, cls, ttl, data_at(octets, place + 2, end, rtype)))
            place = end
    return found


def name_of_text(text):
    """The octets of an absolute name, in lower case."""
    labels = [b""]
    for number, escaped, octet in re.findall(rb"\\([0-9]{3})|\\(.)|(.)", text):
        if octet == b".":
            labels.append(b"")
        else:
            labels[-1] += bytes([int(number)]) if number else escaped or octet
    return b"".join(bytes([len(it)]) + it.lower() for it in labels if it) + b"\0"


def records_of_general(text):
    """The records of a text whose every line has owner, TTL, class and `TYPE` and a number, and data in the general form."""
    found = set()
    for line in text.splitlines():
        owner, ttl, _, rtype, _, length, *digits = line.split()
        data, number = bytes.fromhex(b"".join(digits).decode()), int(rtype[4:])
        if len(data) != int(length):
            raise Failure(f"{line}: not {length} octets")
        found.add(Record(name_of_text(owner), number, 1, int(ttl), data_at(data, 0, len(data), number)))
    return found


def name_text(name):
    """A name for people."""
    place, text = 0, ""
    while name[place]:
        after = place + 1 + name[place]
        text, place = text + name[place + 1 : after].decode("latin1") + ".", after
    return text or "."


def shown(record):
    """A record in the general form, cut if it is long."""
    line = f"{name_text(record.owner)} {record.ttl} CLASS{record.cls} TYPE{record.type} \\# {len(record.data)} {record.data.hex().upper()}"
    return line if len(line) <= WIDTH else f"{line[:WIDTH]} .."


# -- Programs.


def found(name):
    """The path of a tool, which may be where only root looks, None if it is not installed."""
    return shutil.which(name, path=f"{os.environ.get('PATH', '')}:/usr/sbin:/sbin")


def ran(words, given=b"", **how):
    """What a program writes. Fails unless it ends with status 0."""
    done = subprocess.run([str(it) for it in words], input=given, capture_output=True, timeout=SECONDS, env=SETTINGS, **how)
    if done.returncode:
        said = (done.stderr or done.stdout).decode(errors="replace").strip().split("\n")
        raise Failure(f"{Path(words[0]).name} {words[1] if len(words) > 1 else ''}: status {done.returncode}: {'; '.join(said[:3])}")
    return done.stdout


def ran_on(text, words):
    """What an installed tool writes whose last word is the path of a text."""
    with tempfile.NamedTemporaryFile(prefix="real-") as file:
        file.write(text)
        file.flush()
        return ran([found(words[0]), *words[1:], file.name])


@dataclass(frozen=True)
class Ours:
    """Our two programs."""

    zonewire: Path
    zonetool: Path

    def general(self, text):
        """A text with the data of further types in the general form."""
        return ran([self.zonetool, "general", "-"], text)

    def send(self, text):
        """The stream of a zone's text."""
        return ran([self.zonewire, "send", "--id", ID], text)

    def received(self, stream, layout):
        """The text of a stream's zone, with the further types as their fields."""
        general = ran([self.zonewire, "receive", "--apex", APEX, "--id", ID], stream)
        return ran([self.zonetool, "present", "--layout", layout, "-"], general)

    def read(self, text):
        """The records of a text with further types."""
        return records_of_stream(self.send(self.general(text)))

    def query(self):
        """The query for the zone's transfer, after its length."""
        return ran([self.zonetool, "query", APEX, "--id", ID])


# -- Servers.


class Primary:
    """A server of a stream, on a port of 127.0.0.1: it answers queries for the SOA, by UDP and TCP, and for the zone with the stream's messages."""

    def __init__(self, stream):
        self.messages = messages_of(stream)
        outer = self

        class Tcp(socketserver.StreamRequestHandler):
            def handle(self):
                while len(length := self.rfile.read(2)) == 2:
                    for message in outer.answers(self.rfile.read(int.from_bytes(length, "big"))):
                        self.wfile.write(struct.pack(">H", len(message)) + message)

        class Udp(socketserver.DatagramRequestHandler):
            def handle(self):
                self.wfile.write(outer.soa(self.packet))

        self.servers = [socketserver.ThreadingTCPServer(("127.0.0.1", 0), Tcp)]
        self.port = self.servers[0].server_address[1]
        self.servers.append(socketserver.ThreadingUDPServer(("127.0.0.1", self.port), Udp))
        for it in self.servers:
            it.daemon_threads = True
            threading.Thread(target=it.serve_forever, daemon=True).start()

    def soa(self, query):
        """The answer with the SOA: the query's ID and question, and the first record of the stream."""
        soa, end = answers_in(self.messages[0])[0], name_at(query, 12)[1] + 4
        head = struct.pack(">HHHHHH", int.from_bytes(query[:2], "big"), 0x8400, 1, 1, 0, 0)
        return head + query[12:end] + soa.owner + struct.pack(">HHIH", soa.type, soa.cls, soa.ttl, len(soa.data)) + soa.data

    def answers(self, query):
        """The messages that answer a query."""
        asked = struct.unpack_from(">H", query, name_at(query, 12)[1])[0]
        return [query[:2] + it[2:] for it in self.messages] if asked in (AXFR, IXFR) else [self.soa(query)]

    def close(self):
        for it in self.servers:
            it.shutdown()
            it.server_close()


def bind_settings(room, port, primary):
    """The settings of named. Without the port of a primary the server is the primary of the file `zone`."""
    kind = f"type secondary; primaries {{ 127.0.0.1 port {primary}; }}; request-ixfr no" if primary else "type primary; check-integrity no; check-names ignore"
    return f"""options {{
  directory "{room}"; managed-keys-directory "{room}"; pid-file none; listen-on port {port} {{ 127.0.0.1; }}; listen-on-v6 {{ none; }};
  recursion no; notify no; allow-transfer {{ any; }}; dnssec-validation no; transfers-per-ns 10;
}};
controls {{ }};
zone "{APEX}" {{ {kind}; file "zone"; }};
"""


def nsd_settings(room, port, primary):
    """The settings of nsd, as those of named."""
    fetch = f"request-xfr: AXFR 127.0.0.1@{primary} NOKEY" if primary else ""
    return f"""server:
  ip-address: 127.0.0.1@{port}
  username: ""
  zonesdir: "{room}"
  database: ""
  pidfile: "{room}/pid"
  xfrdfile: "{room}/xfrd"
  xfrdir: "{room}"
  zonelistfile: "{room}/list"
  xfrd-reload-timeout: 0
  server-count: 1
remote-control:
  control-enable: no
zone:
  name: {APEX}
  zonefile: zone
  provide-xfr: 127.0.0.1 NOKEY
  {fetch}
"""


def knot_settings(room, port, primary):
    """The settings of knotd, as those of named."""
    remote = f"remote:\n  - id: primary\n    address: 127.0.0.1@{primary}\n" if primary else ""
    return f"""server:
    rundir: {room}
    listen: 127.0.0.1@{port}
    udp-workers: 1
    tcp-workers: 1
    background-workers: 1
database:
    storage: {room}
log:
  - target: stderr
    any: warning
{remote}acl:
  - id: all
    address: 127.0.0.1
    action: transfer
zone:
  - domain: {APEX}
    storage: {room}
    file: zone
    acl: all
    semantic-checks: off
    {"master: primary" if primary else ""}
"""


# A server's program, its words before the path of its settings, and its settings.
SERVERS = {
    "BIND": ("named", ["-f", "-n", "1", "-c"], bind_settings),
    "Knot": ("knotd", ["-c"], knot_settings),
    "NSD": ("nsd", ["-d", "-c"], nsd_settings),
}


def free_port():
    with socket.socket() as it:
        it.bind(("127.0.0.1", 0))
        return it.getsockname()[1]


def fetched(port, query):
    """The stream that answers a query for a zone, up to its second SOA. Fails if the server does not answer with one."""
    stream, soas = b"", 0
    try:
        with socket.create_connection(("127.0.0.1", port), timeout=READ_SECONDS) as talk, talk.makefile("rb") as answers:
            talk.sendall(query)
            while soas < 2:
                length = answers.read(2)
                message = answers.read(int.from_bytes(length, "big"))
                if len(message) < 12:
                    raise Failure("the transfer ends early")
                soas += sum(record.type == SOA for record in answers_in(message))
                stream += length + message
    except OSError as error:
        raise Failure(str(error)) from error
    return stream


@contextmanager
def serving(name, query, text=None, primary=None):
    """Runs a server of a zone's text, or a secondary of the primary at a port, and returns its port and what it sends for the query."""
    program, words, settings = SERVERS[name]
    with tempfile.TemporaryDirectory(prefix="real-") as room, open(Path(room) / "said", "w+b") as said:
        port, file = free_port(), Path(room) / "settings"
        file.write_text(settings(room, port, primary))
        if text is not None:
            (Path(room) / "zone").write_bytes(text)
        with subprocess.Popen([found(program), *words, file], cwd=room, stdout=said, stderr=said) as process:
            try:
                yield port, first_stream(name, process, port, query, said)
            finally:
                process.terminate()


def first_stream(name, process, port, query, said):
    """What a server sends as soon as it has its zone."""
    until = time.monotonic() + START_SECONDS
    while True:
        try:
            return fetched(port, query)
        except Failure as fault:
            if process.poll() is not None or time.monotonic() > until:
                said.seek(0)
                raise Failure(f"{name}: {fault}: {said.read().decode(errors='replace').strip()[-600:]}") from fault
            time.sleep(0.05)


# -- What each tool reads in a text.


def read_by_bind(text, _):
    """The records as BIND reads them: those of its raw file."""
    with tempfile.TemporaryDirectory(prefix="real-") as room:
        file, raw = Path(room) / "zone", Path(room) / "raw"
        file.write_bytes(text)
        ran([found("named-compilezone"), "-i", "none", "-k", "ignore", "-F", "raw", "-o", raw, APEX, file])
        return records_of_raw(raw.read_bytes())


def read_by_ldns(text, _):
    """The records as ldns reads them. `-U NULL` has it print every other type in the general form."""
    return records_of_general(ran_on(text, ["ldns-read-zone", "-U", "NULL"]))


def read_by_server(name):
    """The records that a server sends as the primary of a text."""

    def read(text, query):
        with serving(name, query, text=text) as (_, stream):
            return records_of_stream(stream)

    return read


# The program of each tool that reads a text, and how it does. The first two need no server.
QUICK = ("BIND", "ldns")
READERS = {
    "BIND": ("named-compilezone", read_by_bind),
    "ldns": ("ldns-read-zone", read_by_ldns),
    "Knot": ("knotd", read_by_server("Knot")),
    "NSD": ("nsd", read_by_server("NSD")),
}


# -- Signed zones.

# The zone that is signed: two delegations, one of which is signed, names without records, wildcards, and types that all signers read.
PLAIN = b"""$TTL 3600
@ IN SOA ns1 hostmaster 2026112901 7200 3600 1209600 300
@ IN NS ns1
@ IN NS ns2.example.net.
@ IN MX 10 Mail
@ IN TXT "v=spf1 -all" "a \\"quoted\\" string; and \\200"
@ IN CAA 0 issue "ca.example.net"
ns1 IN A 192.0.2.1
ns1 IN AAAA 2001:db8::1
mail 300 IN A 192.0.2.2
*.wild IN TXT "wild"
a.b.c.deep IN A 192.0.2.3
www IN CNAME mail
alias IN DNAME example.net.
_sip._tcp IN SRV 0 5 5060 Mail
_25._tcp.mail IN TLSA 3 1 1 d2abde240d7cd3ee6b4b28c54df034b97983a1d16e8a410e4561cb106618e971
host IN SSHFP 4 2 123456789abcdef67890123456789abcdef67890123456789abcdef123456789
host IN NAPTR 100 10 "u" "E2U+sip" "!^.*$!sip:info@example.com!" .
host IN TYPE65280 \\# 4 0a0b0c0d
signed IN NS ns.signed
signed IN DS 60485 13 2 d4b7d520e7bb5f0f67674a0cceb1e3e0614b93c4f9e99b8383f6a1e4469da50a
ns.signed IN A 192.0.2.4
unsigned1 IN NS ns1
unsigned2 IN NS ns1
"""
SALT = "aabbccdd"


def bind_keys(room, algorithm):
    """Two keys in the folder, one of which signs the other."""
    for more in ([], ["-f", "KSK"]):
        ran([found("dnssec-keygen"), "-q", "-K", room, "-a", algorithm, *more, APEX])


def signed_by_bind(room, algorithm, options):
    """dnssec-signzone takes the keys that are in the folder."""
    bind_keys(room, algorithm)
    (room / "plain").write_bytes(PLAIN)
    ran([found("dnssec-signzone"), "-q", "-S", "-K", room, "-P", "-o", APEX, *options, "-f", room / "signed", room / "plain"], cwd=room)


def signed_by_ldns(room, algorithm, options):
    """ldns reads no SOA without an origin before it."""
    keys = [ran([found("ldns-keygen"), "-a", algorithm, *more, APEX], cwd=room).decode().strip() for more in ([], ["-k"])]
    (room / "plain").write_bytes(f"$ORIGIN {APEX}.\n".encode() + PLAIN)
    ran([found("ldns-signzone"), *options, "-o", APEX, "-f", room / "signed", room / "plain", *keys], cwd=room)


def signed_by_knot(room, algorithm, options):
    """Knot signs with keys that it makes, as its policy says."""
    (room / f"{APEX}.zone").write_bytes(f"$ORIGIN {APEX}.\n".encode() + PLAIN)
    policy = "".join(f"    {it}\n" for it in [f"algorithm: {algorithm}", "single-type-signing: on", *options])
    zone = f"  - domain: {APEX}\n    storage: {room}\n    file: {APEX}.zone\n    dnssec-signing: on\n    dnssec-policy: chosen\n"
    (room / "settings").write_text(f"database:\n    storage: {room}\npolicy:\n  - id: chosen\n{policy}zone:\n{zone}")
    (room / "out").mkdir()
    ran([found("kzonesign"), "-c", room / "settings", "-o", room / "out", APEX], cwd=room)
    (room / "out" / f"{APEX}.zone").rename(room / "signed")


# Each signed zone: its title, the signer and the programs that it takes, the algorithm, and the options.
BIND_PROGRAMS, LDNS_PROGRAMS, KNOT_PROGRAMS = ("dnssec-keygen", "dnssec-signzone"), ("ldns-keygen", "ldns-signzone"), ("kzonesign",)
SIGNED = [
    ("dnssec-signzone, NSEC", signed_by_bind, BIND_PROGRAMS, "ECDSAP256SHA256", []),
    ("dnssec-signzone, NSEC, RSA", signed_by_bind, BIND_PROGRAMS, "RSASHA256", ["-O", "full"]),
    ("dnssec-signzone, NSEC3 without salt", signed_by_bind, BIND_PROGRAMS, "ECDSAP256SHA256", ["-3", "-", "-H", "0"]),
    ("dnssec-signzone, NSEC3 with salt", signed_by_bind, BIND_PROGRAMS, "ECDSAP384SHA384", ["-3", SALT, "-H", "10"]),
    ("dnssec-signzone, NSEC3, opt-out", signed_by_bind, BIND_PROGRAMS, "ED25519", ["-3", SALT, "-H", "1", "-A"]),
    ("dnssec-signzone, past 2038", signed_by_bind, BIND_PROGRAMS, "ECDSAP256SHA256", ["-e", "20500101000000"]),
    ("ldns-signzone, NSEC", signed_by_ldns, LDNS_PROGRAMS, "ECDSAP256SHA256", []),
    ("ldns-signzone, NSEC, ZONEMD, comments", signed_by_ldns, LDNS_PROGRAMS, "RSASHA256", ["-b", "-z", "simple:sha384", "-z", "1:2"]),
    ("ldns-signzone, NSEC3 with salt", signed_by_ldns, LDNS_PROGRAMS, "ECDSAP256SHA256", ["-n", "-s", SALT, "-t", "10"]),
    ("ldns-signzone, NSEC3, opt-out", signed_by_ldns, LDNS_PROGRAMS, "ED25519", ["-n", "-t", "0", "-p"]),
    ("kzonesign, NSEC", signed_by_knot, KNOT_PROGRAMS, "ecdsap256sha256", ["cds-cdnskey-publish: always"]),
    ("kzonesign, NSEC3", signed_by_knot, KNOT_PROGRAMS, "ecdsap256sha256", ["nsec3: on", "nsec3-iterations: 0", "nsec3-salt-length: 0"]),
    ("kzonesign, NSEC3, opt-out", signed_by_knot, KNOT_PROGRAMS, "ed25519", ["nsec3: on", "nsec3-opt-out: on", "nsec3-salt-length: 8"]),
]


# -- Comparisons.


def text_for(name, text):
    """A text without the blocks that are not for a tool. An empty line is between two blocks."""
    blocks = text.decode("latin1").split("\n\n")
    marks = [re.match(r"; not ([A-Za-z, ]*):", it) for it in blocks]
    return "\n\n".join(it for it, mark in zip(blocks, marks) if not mark or name not in mark[1].split(", ")).encode("latin1")


class Report:
    """What was compared, a line each."""

    def __init__(self):
        self.same = self.differing = 0

    def passed(self, title, holds, notes=()):
        """Counts a comparison, and says what came of it, with notes if it does not hold."""
        self.same, self.differing = self.same + bool(holds), self.differing + (not holds)
        print(f"{'same' if holds else 'DIFFERS'}: {title}", flush=True)
        for it in notes if not holds else ():
            print(f"    {it}", flush=True)

    def records(self, title, wanted, given):
        """Compares two sets of records. A `-` is before each record that only the first has, a `+` before each that only the second has."""
        notes = [f"{mark} {shown(it)}" for mark, some in (("-", wanted - given), ("+", given - wanted)) for it in sorted(some)[:SHOWN]]
        self.passed(f"{title}: {len(wanted)} records", wanted == given and wanted, notes)

    @contextmanager
    def attempt(self, title):
        """A failure of a program or a server within is a difference."""
        try:
            yield
        except (Failure, subprocess.TimeoutExpired, struct.error, IndexError) as fault:
            self.passed(title, False, [str(fault)])


def one_form(text):
    """The records of a text with one on each line, of the types whose text has one form: owner, TTL, class, type and the data without white space."""
    rows = [line.split() for line in text.decode("latin1").splitlines() if line and line[0] not in ";"]
    return {(owner.lower(), ttl, cls, rtype, "".join(data)) for owner, ttl, cls, rtype, *data in rows if rtype in ONE_FORM}


# The commands that print a transfer, and their words before the port.
CLIENTS = (
    ["dig", "+onesoa", "+noall", "+answer", "+tcp"],
    ["dig", "+onesoa", "+noall", "+answer", "+multiline", "+tcp"],
    ["dig", "+onesoa", "+noall", "+answer", "+unknownformat", "+tcp"],
    ["kdig"],
    ["drill"],
)


def printed_by(words, port):
    """What a client prints of the transfer from a port, without the SOA at its end."""
    printed = ran([found(words[0]), *words[1:], "-p", port, "@127.0.0.1", APEX, "AXFR"])
    lines = printed.splitlines(keepends=True)
    soas = [at for at, line in enumerate(lines) if line.split()[3:4] == [b"SOA"] and line[:1] != b";"]
    return b"".join(line for at, line in enumerate(lines) if len(soas) < 2 or at != soas[-1])


def compare_clients(report, ours, title, port, text):
    """Compares a text with what `dig` prints of a server's transfer, and with what `general` and `send` make of what each client prints."""
    if found("dig"):
        one, other = one_form(printed_by(CLIENTS[0], port)), one_form(text)
        notes = [f"{mark} {' '.join(it)}" for mark, some in (("-", one - other), ("+", other - one)) for it in sorted(some)[:SHOWN]]
        report.passed(f"{title}, receive and present, as dig prints it: {len(one)} lines", one == other and one, notes)
    for words in CLIENTS:
        if found(words[0]):
            with report.attempt(f"{title}, {' '.join(words)}"):
                report.records(f"{title}, {' '.join(words)}, general and send", ours.read(text), ours.read(printed_by(words, port)))


# The commands that check the signatures of a text.
VERIFIERS = (["dnssec-verify", "-q", "-z", "-o", APEX], ["ldns-verify-zone"])
# The commands that read a text and write it in a form of their own, and the tool of each.
WRITERS = (
    ("BIND", ["named-compilezone", "-s", "relative", "-q", "-i", "none", "-k", "ignore", "-o", "-", APEX]),
    ("BIND", ["named-compilezone", "-s", "full", "-q", "-i", "none", "-k", "ignore", "-o", "-", APEX]),
    ("ldns", ["ldns-read-zone", "-b"]),
    ("NSD", ["nsd-checkzone", "-p", APEX]),
)


def compare_written(report, ours, title, text):
    """Compares the records of a text with what `general` and `send` make of the texts that other tools write of it."""
    for name, words in WRITERS:
        if found(words[0]):
            with report.attempt(f"{title}, {' '.join(words[:3])}"):
                given = text_for("written", text_for(name, text))
                report.records(f"{title}, {' '.join(words[:3])}, general and send", ours.read(given), ours.read(ran_on(given, words)))


def is_good(words, text):
    """Whether a command finds the signatures of a text good."""
    try:
        ran_on(text, words)
    except Failure:
        return False
    return True


def compare_signatures(report, title, text, given):
    """Compares what is found of the signatures of a signer's text, and of another text of the same zone."""
    for words in VERIFIERS:
        if found(words[0]):
            verdict = is_good(words, text)
            report.passed(f"{title}, signatures {'good' if verdict else 'not good'} by {words[0]}", is_good(words, given) == verdict)


def compare_primary(report, ours, title, name, text):
    """Compares what a server sends of a text, and what `receive` and `present` make of that, and returns the latter in the last layout."""
    title, wanted = f"{title}, {name} as primary", ours.read(text)
    with serving(name, ours.query(), text=text) as (port, stream):
        report.records(title, wanted, records_of_stream(stream))
        texts = {layout: ours.received(stream, layout) for layout in LAYOUTS}
        for layout, given in texts.items():
            for reader, (program, read) in READERS.items():
                if found(program) and reader in QUICK:
                    report.records(f"{title}, receive and present {layout}, {reader}", wanted, read(given, b""))
        compare_clients(report, ours, title, port, texts["simple"])
    return texts[LAYOUTS[-1]]


def compare_secondary(report, ours, title, name, text):
    """Compares what a server sends of a zone that it fetched as `general` and `send` make it of a text."""
    primary = Primary(ours.send(ours.general(text)))
    try:
        with serving(name, ours.query(), primary=primary.port) as (_, stream):
            report.records(f"{title}, general and send, {name} as secondary", ours.read(text), records_of_stream(stream))
    finally:
        primary.close()


def compare_signed(report, ours, title, text):
    """Compares what is sent of a signed zone's text with what others read there, and with what secondaries and primaries serve."""
    for name in QUICK:
        program, read = READERS[name]
        if found(program):
            with report.attempt(f"{title}, {name}"):
                report.records(f"{title}, general and send, {name}", read(text, b""), ours.read(text))
    compare_written(report, ours, title, text)
    for name in servers():
        with report.attempt(f"{title}, {name}"):
            compare_secondary(report, ours, title, name, text)
            given = compare_primary(report, ours, title, name, text)
            compare_signatures(report, f"{title}, {name} as primary, receive and present {LAYOUTS[-1]}", text, given)


def servers():
    """The servers that are installed."""
    return [name for name, (program, *_) in SERVERS.items() if found(program)]


def compare_forms(report, ours, text):
    """Compares what each tool reads in the text of further types, in the general form, and in what `present` makes of that."""
    general, query = ours.general(text), ours.query()
    texts = {"as it is": text, "general": general}
    texts |= {f"present {it}": ran([ours.zonetool, "present", "--layout", it, "-"], general) for it in LAYOUTS}
    for form, given in texts.items():
        with report.attempt(f"further types, {form}"):
            report.records(f"further types, {form}, general and send", ours.read(text), ours.read(given))
        for name, (program, read) in READERS.items():
            if found(program):
                with report.attempt(f"further types, {form}, {name}"):
                    report.records(f"further types, {form}, {name}", ours.read(text_for(name, text)), read(text_for(name, given), query))


def compare_further(report, ours, text):
    """Compares all that becomes of the text of further types."""
    compare_forms(report, ours, text)
    compare_written(report, ours, "further types", text)
    for name in servers():
        with report.attempt(f"further types, {name}"):
            compare_secondary(report, ours, "further types", name, text_for(name, text))
            left = text
            for mark in (name, "BIND", "ldns", "written", "dig"):
                left = text_for(mark, left)
            compare_primary(report, ours, "further types", name, left)


def main():
    parser = argparse.ArgumentParser(description=__doc__, formatter_class=argparse.RawDescriptionHelpFormatter)
    parser.add_argument("--zonewire", type=Path, default=ROOT / "build" / "zonewire", help="the program zonewire")
    parser.add_argument("--zonetool", type=Path, default=ROOT / "build" / "zonetool", help="the program zonetool")
    parser.add_argument("--only", default="", metavar="TEXT", help="only the zones whose titles have this text")
    arguments = parser.parse_args()
    ours, report = Ours(arguments.zonewire.resolve(), arguments.zonetool.resolve()), Report()
    if missing := [it for it in (ours.zonewire, ours.zonetool) if not os.access(it, os.X_OK)]:
        print(f"not there: {', '.join(map(str, missing))}", file=sys.stderr)
        return 2
    signal.signal(signal.SIGTERM, lambda *_: sys.exit(1))  # servers end with the run
    for it in missing_tools():
        print(f"not installed, so left out: {it}", flush=True)
    for title, sign, programs, algorithm, options in SIGNED:
        if arguments.only in title and all(map(found, programs)):
            with report.attempt(title), tempfile.TemporaryDirectory(prefix="real-") as room:
                sign(Path(room), algorithm, options)
                compare_signed(report, ours, title, (Path(room) / "signed").read_bytes())
    if arguments.only in "further types":
        with report.attempt("further types"):
            compare_further(report, ours, text_for("zonetool", FURTHER.read_bytes()))
    print(f"{report.same} the same, {report.differing} differ")
    return 1 if report.differing else 0


def missing_tools():
    """The tools that are not installed."""
    signers = [it for _, _, programs, *_ in SIGNED for it in programs]
    named = [*signers, *(it[0] for it in (*READERS.values(), *SERVERS.values(), *CLIENTS, *VERIFIERS)), *(it[0] for _, it in WRITERS)]
    return [it for it in dict.fromkeys(named) if not found(it)]


if __name__ == "__main__":
    sys.exit(main())
