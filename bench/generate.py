#!/usr/bin/env python3
"""Writes the text of a zone to standard output: the same zone for the same arguments.

The zone is example.com: its SOA, and after it so many other records, each of a host of its own. A plain zone has address records
as they are printed (owner, TTL, class, type and data on one line, names with their last dot). A mixed one has an NS record and
records of many types, relative and absolute names, escapes, comments, parentheses, and TTLs and classes that are left out."""
import argparse
import sys

APEX = "example.com."
ROWS_AT_ONCE = 10_000
# A step that is prime to every power of two: the hosts' numbers are scattered, and none comes twice.
STEP = 0x9E3779B1


def soa():
    return f"{APEX} 3600 IN SOA ns.{APEX} hostmaster.{APEX} 2026010101 7200 900 1209600 3600\n"


def name_server():
    return f"{APEX} 3600 IN NS host-{STEP:08x}.{APEX}\n"


def scatter(number):
    return number * STEP % 2**32


def address_of(scattered):
    return ".".join(str(scattered >> shift & 255) for shift in (24, 16, 8, 0))


def address_row(number):
    scattered = scatter(number)
    return f"host-{scattered:08x}.{APEX} 300 IN A {address_of(scattered)}\n"


MIXED = [
    lambda host, number: f"{host} 300 IN A {address_of(number)}\n",
    lambda host, number: f"{host}.{APEX} IN AAAA 2001:db8::{number >> 16:x}:{number & 0xffff:x}\n",
    lambda host, number: f"{host} NS ns ; a delegation\n",
    lambda host, number: f"{host} 300 CNAME www\n",
    lambda host, number: f"{host} MX 10 mail\n",
    lambda host, number: f'{host} TXT "some text" "and more \\" of it"\n',
    lambda host, number: f"{host} IN 60 SRV ( 0 5 ; priority and weight\n\t5060 sip.{APEX} )\n",
    lambda host, number: f'{host} CAA 0 issue "ca.example.net"\n',
    lambda host, number: f"{host} HINFO cpu os\n",
    lambda host, number: f"{host} PTR {host}.example.net.\n",
    lambda host, number: f"{host} RP admin .\n",
    lambda host, number: f"{host} TYPE65280 \\# 4 {number >> 16:04X} {number & 0xffff:04X}\n",
    lambda host, number: f"a\\.b.{host} A {address_of(number)}\n",
]


def mixed_row(number):
    scattered = scatter(number)
    return MIXED[number % len(MIXED)](f"host-{scattered:08x}", scattered)


def write_rows(out, row, first, records):
    for first in range(first, records, ROWS_AT_ONCE):
        out.write("".join(map(row, range(first, min(first + ROWS_AT_ONCE, records)))))


def write_zone(out, records):
    """A plain zone. The SOA counts as the first of the records."""
    out.write(soa())
    write_rows(out, address_row, 1, records)


def write_mixed_zone(out, records):
    """A mixed zone. The SOA and the NS record count as two of the records."""
    out.write(f"$ORIGIN {APEX}\n$TTL 3600\n{soa()}{name_server()}")
    write_rows(out, mixed_row, 2, records)


def main():
    parser = argparse.ArgumentParser(description=__doc__)
    parser.add_argument("records", type=int, help="how many records, the SOA counted")
    parser.add_argument("--mixed", action="store_true", help="write a mixed zone")
    arguments = parser.parse_args()
    (write_mixed_zone if arguments.mixed else write_zone)(sys.stdout, arguments.records)


if __name__ == "__main__":
    main()
