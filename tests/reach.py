#!/usr/bin/env python3
"""Where an address leads, as a slow program over the rows of IANA's registries of special-purpose addresses. It doesn't call the library.

    reach.py rows [COUNT [SEED]]      prints rows for tests/components/reach.rt.txt: the addresses at both ends of each block, their neighbours
                                      and some that embed an IPv4 address; then as many random ones
    reach.py compare [COUNT [SEED]]   compares the same addresses with the module `ipaddress`, and prints each kind of difference with its
                                      number and an example. Python from 3.13 on has the current blocks"""
from __future__ import annotations

import ipaddress
import random
import sys
from typing import Dict, Iterator, List, Tuple, Union

Address = Union[ipaddress.IPv4Address, ipaddress.IPv6Address]
Network = Union[ipaddress.IPv4Network, ipaddress.IPv6Network]

# https://www.iana.org/assignments/iana-ipv4-special-registry, the blocks that are not globally reachable and those within them that are, and
# RFC 5771
IPV4 = """
0.0.0.0/8            Reserved
0.0.0.0/32           Unspecified
10.0.0.0/8           Private
100.64.0.0/10        Shared
127.0.0.0/8          Loopback
169.254.0.0/16       LinkLocal
172.16.0.0/12        Private
192.0.0.0/24         Reserved
192.0.0.9/32         Global
192.0.0.10/32        Global
192.0.2.0/24         Documentation
192.168.0.0/16       Private
198.18.0.0/15        Benchmarking
198.51.100.0/24      Documentation
203.0.113.0/24       Documentation
224.0.0.0/4          Multicast
240.0.0.0/4          Reserved
255.255.255.255/32   Broadcast
"""

# https://www.iana.org/assignments/iana-ipv6-special-registry, and RFC 4291. `embedded N` is the IPv4 address in bits N to N + 31.
IPV6 = """
::/96                embedded 96
::/128               Unspecified
::1/128              Loopback
::ffff:0:0/96        embedded 96
64:ff9b::/96         embedded 96
64:ff9b:1::/48       Private
100::/64             Reserved
100:0:0:1::/64       Reserved
2001::/23            Reserved
2001::/32            teredo
2001:1::1/128        Global
2001:1::2/128        Global
2001:1::3/128        Global
2001:2::/48          Benchmarking
2001:3::/32          Global
2001:4:112::/48      Global
2001:20::/28         Global
2001:30::/28         Global
2001:db8::/32        Documentation
2002::/16            embedded 16
3fff::/20            Documentation
5f00::/16            Reserved
fc00::/7             UniqueLocal
fe80::/10            LinkLocal
fec0::/10            Reserved
ff00::/8             Multicast
"""

# 65.54.227.120 and 192.0.2.45 are the example of RFC 4380, section 4.
MORE = """
8.8.8.8 169.254.169.254 192.31.196.1 192.88.99.1 192.175.48.1 2606:4700:4700::1111 2620:4f:8000::1 ::ffff:10.0.0.1 ::ffff:8.8.8.8
::ffff:169.254.169.254 ::127.0.0.1 ::8.8.8.8 64:ff9b::10.0.0.1 64:ff9b::8.8.8.8 2002:7f00:1:: 2002:808:808::1 2002:c0a8:101::808:808
2001:0:4136:e378:8000:63bf:3fff:fdd2 2001:0:4136:e378:8000:63bf:f7f7:f7f7 2001:0:a00:1:8000:63bf:f7f7:f7f7
2001:0:a00:1:8000:63bf:80ff:fffe 2001:10::1 ::ffff:0:10.0.0.1
"""


def table(text: str) -> List[Tuple[Network, str]]:
    return [(ipaddress.ip_network(line.split()[0]), line.split(None, 1)[1].strip()) for line in text.split("\n") if line]


TABLES = {4: table(IPV4), 6: table(IPV6)}


def ipv4_at(address: Address, bit: int) -> ipaddress.IPv4Address:
    return ipaddress.IPv4Address(int(address) >> (96 - bit) & 0xFFFFFFFF)


def reach(address: Address) -> str:
    found = [row for row in TABLES[address.version] if address in row[0]]
    if not found:
        return "Global"
    leads = max(found, key=lambda row: row[0].prefixlen)[1]
    if leads.startswith("embedded"):
        return reach(ipv4_at(address, int(leads.split()[1])))
    if leads == "teredo":
        client = reach(ipaddress.IPv4Address(int(ipv4_at(address, 96)) ^ 0xFFFFFFFF))
        return reach(ipv4_at(address, 32)) if client == "Global" else client
    return leads


def chosen() -> Iterator[Address]:
    """The ends of each block, their neighbours, and the addresses of MORE."""
    for network, _ in TABLES[4] + TABLES[6]:
        first, last = int(network.network_address), int(network.broadcast_address)
        for number in (first - 1, first, last, last + 1):
            if 0 <= number < 1 << network.max_prefixlen:
                yield type(network.network_address)(number)
    yield from map(ipaddress.ip_address, MORE.split())


def drawn(count: int, seed: int) -> Iterator[Address]:
    """Random addresses: a third of IPv4, the others of IPv6, of which most begin as a block does."""
    source = random.Random(seed)
    for at in range(count):
        if at % 3 == 0:
            yield ipaddress.IPv4Address(source.getrandbits(32))
        elif at % 9 == 1:
            yield ipaddress.IPv6Address(source.getrandbits(128))
        else:
            network = source.choice(TABLES[6])[0]
            kept = max(0, network.prefixlen - source.choice((0, 0, 0, 1, 2, 8)))
            low = (1 << (128 - kept)) - 1
            yield ipaddress.IPv6Address(int(network.network_address) & ~low | source.getrandbits(128) & low)


def addresses(count: int, seed: int) -> List[Address]:
    return list(dict.fromkeys([*chosen(), *drawn(count, seed)]))


def kind(address: Address, leads: str) -> str:
    """Which of Python's properties differ, and for which block."""
    pairs = (
        ("is_global", address.is_global, leads == "Global"),
        ("is_loopback", address.is_loopback, leads == "Loopback"),
        ("is_link_local", address.is_link_local, leads == "LinkLocal"),
        ("is_multicast", address.is_multicast, leads == "Multicast"),
        ("is_unspecified", address.is_unspecified, leads == "Unspecified"),
    )
    differ = [f"{name} {theirs}" for name, theirs, ours in pairs if theirs != ours]
    if not differ:
        return ""
    rows = [row for row in TABLES[address.version] if address in row[0]]
    block = str(max(rows, key=lambda row: row[0].prefixlen)[0]) if rows else f"other IPv{address.version}"
    return f"{block} {leads}: {', '.join(differ)}"


def compare(count: int, seed: int) -> None:
    all_of_them = addresses(count, seed)
    kinds: Dict[str, List[Address]] = {}
    for address in all_of_them:
        kinds.setdefault(kind(address, reach(address)), []).append(address)
    print(f"{len(all_of_them)} addresses, {len(kinds.pop('', []))} as Python {sys.version.split()[0]} says")
    for name, members in sorted(kinds.items()):
        print(f"{len(members):6} {name}: {members[0]}")


def main(words: List[str]) -> int:
    if not words or words[0] not in ("rows", "compare") or len(words) > 3:
        print(__doc__, file=sys.stderr)
        return 2
    count, seed = [int(word) for word in words[1:]] + [0, 1][len(words) - 1 :]
    if words[0] == "compare":
        compare(count, seed)
    else:
        for address in addresses(count, seed):
            print(f"reach {address} -> {reach(address)}")
    return 0


if __name__ == "__main__":
    sys.exit(main(sys.argv[1:]))
