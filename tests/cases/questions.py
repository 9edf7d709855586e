"""The scripts of examples/, which answer questions from a report and what tcpdump tells of the same capture."""
import os
import shutil
import subprocess
import tempfile

from captures import capture, ipv4, tcp, udp, udp6

from .known import ACK, RST, SYN, SYN_ACK, timed

TOP = os.path.dirname(os.path.dirname(os.path.dirname(os.path.realpath(__file__))))
FLOOD = f"{TOP}/examples/flood.pcap"
SECOND = "2023-11-14 22:13:20"
CLIENT, SERVER = "10.0.0.1", "10.0.0.2"
HEAD = "delivered kept PASS DROP OTHER"


def called(program, script, *words):
    """The status of a script, and its lines, each as its words."""
    done = subprocess.run([f"{TOP}/examples/{script}", *words], env={**os.environ, "SCR": program, "TZ": "UTC"},
                          stdin=subprocess.DEVNULL, stdout=subprocess.PIPE, stderr=subprocess.DEVNULL, text=True)
    return done.returncode, [line.split() for line in done.stdout.splitlines()]


def differs(found, status, lines, of_each=None):
    """What is wrong with a script's outcome; of each line only so many words count, where that is said."""
    found = found[0], [" ".join(line[:of_each]) for line in found[1]]
    return None if found == (status, lines) else f"wanted: {status} {lines}\ncame:   {found[0]} {found[1]}"


def asked(program, script, data, *words):
    """The same over a capture that is made here, which stands where a word is CAPTURE."""
    with tempfile.NamedTemporaryFile() as file:
        file.write(data)
        file.flush()
        return called(program, script, *(file.name if word == "CAPTURE" else word for word in words))


def dropped(program):
    if not shutil.which("tcpdump"):
        return
    words = ["DROP", FLOOD, "plain", "program=ddos", "threshold=11"]
    yield "who is dropped", differs(called(program, "who", *words), 0, [
        f"{number} {SECOND}.{micros} IP 10.0.0.66.{port} > 192.0.2.10.80:"
        for number, micros, port in ((19, "810000", 1108), (21, "900000", 1115), (22, "945000", 1122))], of_each=7)
    yield "which source is dropped", differs(called(program, "tally", "source", *words), 0, [
        f"3 10.0.0.66 from {SECOND}.810000 to {SECOND}.945000"])
    yield "nobody is dropped", differs(called(program, "who", "DROP", FLOOD, "plain", "program=ddos"), 0, [])


def ends(program):
    """Ends with ports and without, over IPv4 and IPv6; the most frequent first."""
    if not shutil.which("tcpdump"):
        return
    ping = ipv4(CLIENT, SERVER, 1, bytes([8, 0, 0, 0, 0, 0, 0, 0]))
    data = timed([udp(CLIENT), ping, udp6("2001:db8::1"), udp(CLIENT, ports=(40001, 53)), udp6("2001:db8::1"), udp("10.0.0.9")],
                 range(6))
    epoch, words = "1970-01-01 00:00:00.00000", ["PASS", "CAPTURE", "plain", "program=ddos"]
    yield "sources", differs(asked(program, "tally", data, "source", *words), 0, [
        f"3 10.0.0.1 from {epoch}0 to {epoch}3", f"2 2001:db8::1 from {epoch}2 to {epoch}4", f"1 10.0.0.9 from {epoch}5 to {epoch}5"])
    yield "flows", differs(asked(program, "tally", data, "flow", *words), 0, [
        f"2 2001:db8::1.40000 > 2001:db8::2.53 from {epoch}2 to {epoch}4",
        f"1 10.0.0.1 > 10.0.0.2 from {epoch}1 to {epoch}1",
        f"1 10.0.0.1.40000 > 10.0.0.2.53 from {epoch}0 to {epoch}0",
        f"1 10.0.0.1.40001 > 10.0.0.2.53 from {epoch}3 to {epoch}3",
        f"1 10.0.0.9.40000 > 10.0.0.2.53 from {epoch}5 to {epoch}5"])


def resets_and_doors(program):
    if not shutil.which("tcpdump"):
        return
    forth, back = (CLIENT, SERVER, (40000, 80)), (SERVER, CLIENT, (80, 40000))
    talk = timed([tcp(*forth, SYN), tcp(*back, SYN_ACK), tcp(*forth, ACK), tcp(*back, RST)], range(4))
    yield "which connection was reset", differs(asked(program, "who", talk, "CLOSED", "CAPTURE", "plain", "program=conn"), 0, [
        "4 1970-01-01 00:00:00.000003 IP 10.0.0.2.80 > 10.0.0.1.40000:"], of_each=7)
    knocks = [udp(CLIENT, ports=(40000, port)) for port in (7000, 8000, 9000, 22, 23)]
    door = timed([*knocks, udp("10.0.0.9", ports=(40000, 22))], range(6))
    yield "who opened the door", differs(asked(program, "tally", door, "source", "PASS", "CAPTURE", "plain", "program=knock"), 0, [
        "2 10.0.0.1 from 1970-01-01 00:00:00.000003 to 1970-01-01 00:00:00.000004"])


def loss(program):
    words = [FLOOD, "4-22/5", "program=ddos", "threshold=5", "cores=3"]
    yield "how much loss changes", differs(called(program, "loss", *words), 0, [
        HEAD, "plain 22 22 11 9 2", "history 0 18 18 10 7 1",
        *(f"history {history} 18 22 9 8 1" for history in (1, 2, 3))])


def refused(program):
    """A script ends with the program's status, and then tells nothing."""
    cut = capture([udp(CLIENT)])[:-1]
    for script, words in (("who", []), ("tally", ["source"])):
        yield f"{script}, words", differs(called(program, script, *words, "DROP", FLOOD, "plain", "program=dns"), 1, [])
        yield f"{script}, a cut capture", differs(asked(program, script, cut, *words, "PASS", "CAPTURE", "plain", "program=ddos"), 2, [])
        yield f"{script}, no file", differs(called(program, script, *words, "PASS", "/nowhere/none", "plain", "program=ddos"), 66, [])
        yield f"{script}, no words", differs(called(program, script), 64, [])
    yield "loss, words", differs(called(program, "loss", FLOOD, "4", "program=dns"), 1, [])
    yield "loss, a drop list", differs(called(program, "loss", FLOOD, "0", "program=ddos"), 1, [HEAD, "plain 22 22 20 0 2"])
