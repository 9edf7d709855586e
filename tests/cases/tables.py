"""Tables of rules: texts that are refused, what each match holds of, and tables over captures."""
import random

from captures import arp, capture, header, ipv4, tcp, udp, udp6
from model import fault
from running import compare, difference, outcome
from traffic import capture as random_capture, dealt, drop_list, settings, tcp6

from .known import ACK, RST, SOURCE, SYN, SYN_ACK, one_core, plain, whole

# The tables of the guide: three knocks open a door; three resets lock a source out; UDP and then TCP let it in.
DOOR = "0:d7000>1/D,0:*>0/D,1:d8000>2/D,1:d7000>1/D,1:*>0/D,2:d9000>3/D,2:d7000>1/D,2:*>0/D,3:*>3/P"
LOCK_OUT = "0:f4>1/P,0:*>0/P,1:f4>2/P,1:*>1/P,2:f4>3/D,2:*>2/P,3:*>3/D"
LET_IN = "0:u>1/D,0:*>0/D,1:t>2/D,1:*>1/D,2:*>2/P"
GOOD, MANY = "0:*>0/P", ",".join(["0:*>0/P"] * 256)

# Texts that aren't of the form of a rule, and numbers out of range.
FORMLESS = """x 0 0: 0:* 0:*> 0:*>0 0:*>0/ 0:*>0/p 0:*>0/d 0:*>0/PP 0:*>0/P/D 0:*>0/X 0:*>0//P 0:*>>0/P 0::*>0/P :*>0/P
    0:>0/P 0:*>/P 0:**>0/P 0:t1>0/P 0:u1>0/P 0:*1>0/P 0:d>0/P 0:f>0/P 0:d-1>0/P 0:d+1>0/P 0:dx>0/P 0:d0x50>0/P 0:x1>0/P 0:1>0/P
    0:T>0/P 0:D1>0/P -1:*>0/P +1:*>0/P 0:*>-1/P x:*>0/P 0:*>x/P 0;*>0/P 0:*<0/P 0:*>0\\P 0:td1>0/P 0:d1t>0/P 0:d1-2>0/P
    0:*>0/P; é:*>0/P 0:é>0/P ٢:*>0/P
    16:x>0/P 0:d65536>0/Q 0:f256>/P 0:t>0/P:1 /P>0:* 0:*=0/P""".split()
OUTSIDE = ["16:*>0/P", "0:*>16/P", "0:d65536>0/P", "0:f256>0/P", "16:*>16/P", "15:t>99999999999999999999/D",
           f"0:d{'9' * 40}>0/P", f"{2**64}:*>0/P", f"{2**32}:u>0/P", f"0:*>{2**16}/P", f"0:f{2**8 + 4}>0/P", "0:*>00000000000000000000000016/P"]
LACKING = [("0:d7>1/P", 0), ("1:*>0/P", 0), ("0:t>0/P", 0), ("0:d7>1/P,1:*>0/P", 0), ("0:*>1/P", 1), ("0:*>15/P,15:t>15/P", 15),
           ("0:*>15/P,0:t>3/D,3:t>3/P", 3), ("0:*>0/P,7:t>9/P", 9), ("0:*>0/P,7:*>9/P", 9), ("15:*>14/P,14:*>13/P,13:*>0/P", 0),
           ("0:*>1/P,1:*>2/P,2:t>0/P,2:u>0/P,2:f0>0/P", 2), ("0:*>9/P,9:*>10/P", 10)]


def refused_tables(program):
    """Each cause, at the first rule, behind good ones and at the end; the place counts bytes, or is a state."""
    cases = [("", "Empty at 0"), (",", "Empty at 0"), (f",{GOOD}", "Empty at 0"), (f"{GOOD},", "Empty at 8"),
             (f"{GOOD},,x", "Empty at 8"), (f"{GOOD},{GOOD},", "Empty at 16"), (f"{GOOD},1:d00007>1/D,", "Empty at 21")]
    cases += [(text, "Form at 0") for text in [*FORMLESS, " ", f" {GOOD}", f"{GOOD} ", "0:* >0/P", f"{GOOD};{GOOD}"]]
    cases += [(f"{GOOD},{text},", "Form at 8") for text in FORMLESS[::9]]
    cases += [(text, "Range at 0") for text in OUTSIDE] + [(f"{GOOD},{GOOD},{text},x", "Range at 16") for text in OUTSIDE[::4]]
    cases += [(text, f"NoAny at {state}") for text, state in LACKING]
    cases += [(f"{MANY},{GOOD}", "Rules at 2048"), (f"{MANY},{GOOD},x", "Rules at 2048"), (f"{MANY},", "Empty at 2048"),
              (f"{MANY},x", "Form at 2048"), (f"{MANY},16:*>0/P", "Range at 2048"), (f"{MANY[:-1]}D,0:*>1/P", "Rules at 2048"),
              (f"{MANY[:-7]}0:*>1/P", "NoAny at 1"),
              # Two faulty rules: the first tells, whatever its cause is; and a missing rule only where no rule is faulty.
              ("16:*>0/P,x", "Range at 0"), ("x,16:*>0/P", "Form at 0"), ("0:d7>1/P,x", "Form at 9"),
              ("0:d7>1/P,", "Empty at 9"), ("0:d7>1/P,16:*>0/P", "Range at 9")]
    for text, cause in cases:
        name = text[:60] if len(text) < 300 else f"{text.count(',') + 1} rules, {cause}"
        yield name, compare(program, ["run", "program=table", f"table={text}"], b"", fault(1, f"word 3: Table {cause}"))


PING, FRAGMENT = ipv4("10.0.0.1", "10.0.0.2", 1, bytes(8)), ipv4("10.0.0.1", "10.0.0.2", 6, b"")
# Packets of one source: any IP, UDP to 53 and to 0, TCP to 80 with SYN and with RST and ACK, no IP.
MIXED = [PING, SOURCE, udp("10.0.0.1", ports=(53, 0)), tcp("10.0.0.1", flags=SYN), tcp("10.0.0.1", flags=0x14), FRAGMENT, arp()]
MATCHES = [("*", "PPPPPP"), ("t", "DDDPPD"), ("u", "DPPDDD"), ("d53", "DPDDDD"), ("d0", "DDPDDD"), ("d80", "DDDPPD"),
           ("d40000", "DDDDDD"), ("f0", "DDDPPD"), ("f2", "DDDPDD"), ("f4", "DDDDPD"), ("f16", "DDDDPD"), ("f20", "DDDDPD"),
           ("f18", "DDDDDD"), ("f255", "DDDDDD"), ("d000080", "DDDPPD"),
           ("f" + "0" * 40 + "20", "DDDDPD"), ("d65535", "DDDDDD")]


def matches(program):
    """What each match holds of."""
    data = capture(MIXED)
    for match, letters in MATCHES:
        verdicts = " ".join({"P": "PASS", "D": "DROP"}[letter] for letter in letters) + " OTHER"
        yield match, compare(program, ["run", "program=table", f"table=0:{match}>0/P,0:*>0/D"], data, one_core(verdicts, 1))
    six = capture([udp6("2001:db8::1", ports=(1, 9)), tcp6("2001:db8::1", "2001:db8::2", (1, 9), 0xFF), udp("10.0.0.1")])
    words = ["plain", "program=table", "table=0:f255>0/P,0:d9>0/P,0:*>0/D"]
    yield "IPv6", compare(program, words, six, plain("PASS PASS DROP", 2))


def knocks(*ports, make=udp, source="10.0.0.1"):
    return [make(source, ports=(40_000, port)) for port in ports]


def rules(program):
    """The order of rules, states, sources, and how many of each there may be."""
    three = capture([SOURCE] * 3)
    for name, text, verdicts in (
            ("the first rule that holds", "0:u>0/P,0:*>0/D,0:u>1/D,1:*>1/D", "PASS PASS PASS"),
            ("a rule behind one for any packet", "0:*>0/D,0:u>0/P", "DROP DROP DROP"),
            ("a rule of another state", "1:u>1/P,0:*>0/D,1:*>1/P", "DROP DROP DROP"),
            ("the verdict is that of the state before", "0:*>1/P,1:*>2/D,2:*>2/P", "PASS DROP PASS"),
            ("states may be passed over", "0:*>15/P,15:*>7/D,7:*>0/P", "PASS DROP PASS"),
            ("a state without a rule that is never reached", "0:*>0/P,9:t>0/D", "PASS PASS PASS"),
            ("zeros in front of numbers", f"{'0' * 40}0:*>{'0' * 40}15/P,015:d0053>00/D,15:*>15/D", "PASS DROP PASS"),
            ("256 rules", f"{MANY[:-1]}D", "PASS PASS PASS")):
        yield name, compare(program, ["run", "program=table", f"table={text}"], three, one_core(verdicts, 1))
    toggle = "table=0:*>1/P,1:*>0/D"
    for name, frames, more, verdicts, flows in (
            ("two sources", [SOURCE, udp("10.0.0.3")] * 2, "", "PASS PASS DROP DROP", 2),
            ("one number in two families", [SOURCE, udp6("::10.0.0.1")] * 2, "", "PASS PASS DROP DROP", 2),
            ("other destinations and ports", [SOURCE, udp("10.0.0.1", "10.9.9.9", (7, 8)), PING], "", "PASS DROP PASS", 1),
            ("no packet between", [SOURCE, arp(), SOURCE, arp(), SOURCE], "", "PASS OTHER DROP OTHER PASS", 1),
            ("one flow", [SOURCE, udp("10.0.0.3")] * 2, "flows=1", "PASS PASS PASS PASS", 1),
            ("a source that is used stays", [udp(f"10.0.0.{host}") for host in (1, 3, 1, 4, 1, 3)], "flows=2",
             "PASS PASS DROP PASS PASS PASS", 2)):
        words = ["run", "program=table", toggle, *more.split()]
        yield name, compare(program, words, capture(frames), one_core(verdicts, flows))
    yield "no frames", compare(program, ["run", "program=table", toggle], header(), one_core("", 0))


def guide_tables(program):
    """The tables of the guide."""
    data, verdicts = capture(knocks(7_000, 7_000, 8_000, 9_000, 22)), "DROP DROP DROP DROP PASS"
    door = ["run", "program=table", f"table={DOOR}"]
    yield "the door", compare(program, door, data, one_core(verdicts, 1))
    cores = whole(verdicts, (5, 5, 5), [(2, 4, 1, 0), (2, 5, 0, 0), (1, 3, 2, 0)], 1)
    yield "the door, three cores", compare(program, [*door, "cores=3"], data, cores)
    wrong = capture(knocks(7_000, 9_000, 8_000, 9_000, 22))
    yield "the door, knocking wrong", compare(program, door, wrong, one_core("DROP " * 5, 1))
    flags = [SYN, RST, ACK, 0x14, RST, SYN]
    resets = [tcp("10.0.0.1", flags=it) for it in flags] + [SOURCE, PING, arp(), tcp("10.0.0.3", flags=RST)]
    known = one_core("PASS PASS PASS PASS DROP DROP DROP DROP OTHER PASS", 2)
    yield "three resets", compare(program, ["run", "program=table", f"table={LOCK_OUT}"], capture(resets), known)
    enters = [tcp("10.0.0.1"), SOURCE, PING, SOURCE, tcp("10.0.0.1"), tcp("10.0.0.1"), SOURCE, PING, tcp("10.0.0.3"), arp()]
    known = one_core("DROP DROP DROP DROP DROP PASS PASS PASS DROP OTHER", 2)
    yield "UDP and then TCP", compare(program, ["run", "program=table", f"table={LET_IN}"], capture(enters), known)


def random_tables(program):
    """Random tables over random captures, with random cores, histories and links."""
    for seed in range(8_000, 8_050):
        data, words = dealt(seed)
        yield f"seed {seed}", compare(program, ["run", "program=table", *settings(seed, "table").split(), *words], data)
    for seed in range(8_100, 8_110):
        words = f"program=table {settings(seed, 'table')}"
        yield f"plain, seed {seed}", compare(program, f"plain {words}", random_capture(seed, 200))
        words = f"load {words} frames={seed % 1_000} cores={1 + seed % 3} start={seed}"
        yield f"load, seed {seed}", compare(program, words)


def like_knock(program):
    """Over TCP and UDP the table of the door gives what the door gives."""
    for seed in range(8_200, 8_206):
        dice = random.Random(seed)
        turns, frames = [0] * 6, []
        for _ in range(400):
            which = dice.randrange(6)
            port = dice.choice([(7_000, 8_000, 9_000)[turns[which] % 3]] * 9 + [7_000, 80])
            turns[which] += 1
            frames += knocks(port, make=dice.choice([tcp, udp]), source=f"10.0.0.{which}")
        more, data = f"cores={1 + seed % 4} flows={1 + seed % 7} drop={drop_list(seed, 400)}".split(), capture(frames)
        wanted = outcome(program, ["run", "program=knock", *more], data)
        words = ["run", "program=table", f"table={DOOR}", *more]
        yield f"seed {seed}", difference(outcome(program, words, data), wanted, words)
