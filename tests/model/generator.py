"""The capture that `load` makes."""
import functools
import ipaddress

from captures import header, record, tcp, udp

CLIENT, SERVER = int(ipaddress.ip_address("10.0.0.1")), "10.128.0.1"
BEGIN = 1_700_000_000 * 1_000_000
# A frame's form, the end that sends it, and its flags.
FORMS = [
    ("tcp", "client", 0x02), ("tcp", "server", 0x12), ("tcp", "client", 0x10), ("tcp", "client", 0x10),
    ("tcp", "server", 0x10), ("tcp", "client", 0x18), ("tcp", "server", 0x18), ("tcp", "client", 0x11),
    ("tcp", "server", 0x11), ("tcp", "client", 0x10), ("tcp", "server", 0x04), ("udp", "client", None),
    ("udp", "server", None), ("udp", "client", None), ("tcp", "client", 0x02), ("tcp", "server", 0x10),
]


@functools.lru_cache(maxsize=None)
def frame(host, form):
    protocol, sender, flags = FORMS[form]
    client, port = str(ipaddress.ip_address(CLIENT + host)), 80 if protocol == "tcp" else 53
    ends = (client, SERVER, (40_000, port)) if sender == "client" else (SERVER, client, (port, 40_000))
    return tcp(*ends, flags) if protocol == "tcp" else udp(*ends)


@functools.lru_cache(maxsize=4)
def capture(start, frames, hosts):
    x, parts = start, [header()]
    for number in range(1, frames + 1):
        x = (x * 6_364_136_223_846_793_005 + 1_442_695_040_888_963_407) % 2**64
        value = x // 2**32
        time = BEGIN + 100 * number
        parts.append(record(frame(value % hosts, value // hosts % 16), time // 1_000_000, time % 1_000_000))
    return b"".join(parts)
