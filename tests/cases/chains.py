"""Chains of two programs: what the first one stops, the second doesn't see."""
from captures import arp, capture, header, ipv4, tcp, udp
from model.reading import header as header_of, records
from running import compare, difference, outcome
from traffic import PAIRS, capture as random_capture, dealt, settings

from .agreement import again
from .known import ACK, FOUR, HEAVY, PASSING, RST, SOURCE, STATES, SYN, SYN_ACK, one_core, plain, timed, whole

STOPPING = {"ddos": "DROP", "heavy": "HEAVY", "bucket": "DROP", "knock": "DROP"}


def behind(names):
    """The names of a chain's verdicts, with these of its second program."""
    return (*names, "STOPPED")


def chains(program):
    """Chains that were followed by hand."""
    words, verdicts = "run program=chain first=ddos second=heavy threshold=3 bytes=60", "PASS PASS HEAVY STOPPED"
    yield "a flood before heavy flows", compare(program, words, FOUR, one_core(verdicts, 2, behind(HEAVY)))
    four = whole(verdicts, (4, 4, 4), [(1, 4 - 3 + core, 3 - core, 0) for core in range(4)], 2, behind(HEAVY))
    yield "the same on four cores", compare(program, f"{words} cores=4", FOUR, four)
    yield "the same, plain", compare(program, words.replace("run", "plain"), FOUR, plain(verdicts, 2, behind(HEAVY)))
    lost = whole([(1, "PASS"), (2, "PASS"), (4, "HEAVY")], (4, 3, 3), [(3, 3, 0, 1)], 2, behind(HEAVY))
    yield "a lost packet is counted by neither", compare(program, f"{words} drop=3", FOUR, lost)
    known = one_core("STOPPED OTHER", 1, behind(PASSING))
    yield "OTHER passes", compare(program, "run program=chain first=knock second=ddos", capture([SOURCE, arp()]), known)
    # The flow has 28 bytes, and 56 and 84 at its next packets that the bucket lets pass.
    missed = timed([SOURCE] * 4, [0, 0, 1_000_000, 2_000_000])
    yield "the second doesn't count what is stopped", compare(
        program, "run program=chain first=bucket second=heavy rate=1 burst=1 bytes=60", missed,
        one_core("PASS STOPPED PASS HEAVY", 2, behind(HEAVY)))
    knocks = [udp("10.0.0.1", ports=(40_000, port)) for port in (7_000, 8_000, 9_000)]
    yield "the first steps over what it stops", compare(
        program, "run program=chain first=knock second=ddos threshold=1", capture([*knocks, SOURCE, SOURCE]),
        one_core("STOPPED STOPPED STOPPED PASS DROP", 2, behind(PASSING)))
    syn, other = tcp("10.0.0.1", flags=SYN), udp("10.0.0.1")
    yield "HEAVY doesn't pass", compare(
        program, "run program=chain first=heavy second=conn bytes=80", capture([syn, syn, other]),
        one_core("SYN_SENT STOPPED OTHER", 3, behind(STATES)))
    ping = ipv4("10.0.0.1", "10.0.0.2", 1, bytes(8))
    yield "what the first doesn't look at goes on", compare(
        program, "run program=chain first=knock second=ddos threshold=1", capture([ping, ping, SOURCE]),
        one_core("PASS DROP STOPPED", 2, behind(PASSING)))
    talk = [syn, tcp("10.0.0.2", "10.0.0.1", (80, 40_000), SYN_ACK), tcp("10.0.0.1", flags=ACK), tcp("10.0.0.1", flags=RST)]
    yield "a tracker behind a door, which the server can't pass", compare(
        program, "run program=chain first=knock second=conn", capture(knocks + talk),
        one_core("STOPPED STOPPED STOPPED SYN_SENT STOPPED INVALID CLOSED", 3, behind(STATES)))
    turns = capture([SOURCE, udp("10.0.0.3")] * 2)
    words = "run program=chain first=ddos second=heavy threshold=1 flows=1"
    yield "each table has so many entries", compare(program, words, turns, one_core("PASS " * 4, 2, behind(HEAVY)))
    yield "no frames", compare(program, "plain program=chain first=bucket second=conn", header(), plain("", 0, behind(STATES)))


def all_pairs(program):
    """All sixteen pairs over random captures, with random cores, histories and links."""
    for seed, pair in enumerate(PAIRS * 4, 7_000):
        data, words = dealt(seed)
        words = ["run", "program=chain", *settings(seed, "chain", pair).split(), *words]
        yield f"{'+'.join(pair)}, seed {seed}", compare(program, words, data)
    for seed, pair in enumerate(PAIRS, 7_100):
        words = f"load program=chain {settings(seed, 'chain', pair)} frames={300 + seed} cores={1 + seed % 3} start={seed}"
        yield f"load {'+'.join(pair)}", compare(program, words)


def two_calls(program):
    """A chain is two calls: one of the first program, and one of the second over a capture of what it let pass."""
    for seed, pair in enumerate(PAIRS, 7_200):
        data = random_capture(seed, 300)
        words = dict(word.split("=") for word in settings(seed, "chain", pair).split())
        own = {"ddos": ["threshold"], "heavy": ["bytes"], "bucket": ["rate", "burst"], "knock": ["ports"], "conn": ["idle"]}
        calls = [["plain", f"program={name}", *(f"{key}={words[key]}" for key in [*own[name], "flows"] if key in words)]
                 for name in pair]
        of_first = outcome(program, calls[0], data)
        passed = [verdict != STOPPING[pair[0]] for verdict in verdicts_of(of_first)]
        order, unit = header_of(data)
        fewer = header(unit, order="<" if order == "little" else ">")
        fewer += b"".join(again(found, order, unit) for found, passes in zip(records(data), passed) if passes)
        of_second = outcome(program, calls[1], fewer)
        rest = iter(verdicts_of(of_second))
        flows = sum(int(line.split()[1]) for it in (of_first, of_second) for line in it.out.decode().splitlines()
                    if line.startswith("flows"))
        wanted = plain(" ".join(next(rest) if passes else "STOPPED" for passes in passed), flows, names_in(of_second))
        call = ["plain", "program=chain", *(f"{key}={value}" for key, value in words.items())]
        yield f"{'+'.join(pair)}, seed {seed}", difference(outcome(program, call, data), wanted, call)


def verdicts_of(found):
    return [line.split()[1] for line in found.out.decode().splitlines() if line[0].isdigit()]


def names_in(found):
    """The names of a chain, by the report of its second program."""
    return behind([line.split()[1] for line in found.out.decode().splitlines() if line.startswith("verdict ")])
