"""Sends random packets to `rv gdb`, sound and damaged ones, and looks at each answer.

usage: compare.py gdb_packets [--first SEED] [--count N] [--rv RV]

It sends 100,000 packets by default, of which some have wrong checksums, bytes in place of others, no end, or more bytes
than fit, with noise and acknowledgements between them, in pieces of random sizes:

  answers    each packet that came whole is answered by '+' and one packet with the right checksum, each other one by
             '-', and nothing else is said; a wish to hear an answer again is met by the same bytes
  states     in the first half the registers after a number of instructions are the same, however the run came there, by
             steps on and back
  writes     in the second half registers and memory are written, points are set, and the program goes on and back; what
             was written is read again
  memory     the process keeps below 64 MiB
  waiting    a question that came twice before its answer is answered once, and an interrupt is heard behind a packet

The last line is 'differs=0' where nothing is wrong, and only then the status is 0.
"""

import argparse
import random
import re
import subprocess
import tempfile
from pathlib import Path

PROGRAM = """.option norvc
.globl _start
_start: lui s0, 0x11
loop: addi t0, t0, 1
sd t0, 0(s0)
add t1, t1, t0
slli t2, t1, 3
xor t3, t3, t2
addi s1, s1, 8
andi s1, s1, 64
j loop
.data
.zero 128
"""
LIMIT = 16384
SPECIAL = b"#$}*"
PACKET = re.compile(rb"\$([^#]*)#([0-9a-f]{2})", re.DOTALL)
MEMORY = 64 << 10
# so much is sent, and so many answers are open, before answers are read
BYTES, OPEN = 24 << 10, 32
# no program goes further than this, and no step of the first half comes there
SOME_LIMIT = b"qRcmd," + b"limit 30000".hex().encode()
QUERIES = [
    b"?",
    b"g",
    b"p20",
    b"p1f",
    b"p21",
    b"qC",
    b"qfThreadInfo",
    b"qsThreadInfo",
    b"qAttached",
    b"vCont?",
    b"H g0",
]
QUERIES += [
    b"qSupported:multiprocess+",
    b"vMustReplyEmpty",
    b"Hg0",
    b"T1",
    b"qXfer:features:read:target.xml:0,fff",
    b"!",
]
QUERIES += [
    b"m10000,40",
    b"m11000,80",
    b"m0,4",
    b"mffffffffffffffff,10",
    b"m10000,ffffffffffffffff",
    b"qRcmd,7374617473",
]
QUERIES += [b"qRcmd,zz", SOME_LIMIT, b"Z0,ffff0000,4", b"z0,ffff0000,4", b"Z9,0,4", b"Z0,"]
QUERIES += [
    b"P5",
    b"P99=0000000000000000",
    b"G00",
    b"M0,4:00000000",
    b"X0,4:abcd",
    b"M10000,2:0",
    b"vCont;q",
    b"b",
    b"bx",
]
QUERIES += [
    b"z3,12345,8",
    b"m10000,10000000000000000",
    b"Xffffffffffffffff,ffffffffffffffff:",
    b"qXfer:features:read:x:0,1",
]
# Steps on and back; which of both is told by the state.
STEPS = [b"s", b"vCont;s:1;c", b"bs", b"S05"]
# A program that writes anywhere may stop anyhow, or at the limit.
GOES = [b"c", b"bc", b"vCont;c", b"bs", b"s", b"C05"]
DATA = 0x11000


def escaped(content):
    return b"".join(bytes([0x7D, byte ^ 0x20]) if byte in SPECIAL else bytes([byte]) for byte in content)


def framed(content):
    body = escaped(content)
    return b"$" + body + b"#%02x" % (sum(body) % 256)


def damaged(draw, content):
    """A packet that does not come whole."""
    body = escaped(content)
    kind = draw.randrange(4)
    if kind == 0:
        return b"$" + body + b"#%02x" % ((sum(body) + draw.randint(1, 255)) % 256)
    if kind == 1:
        return b"$" + body + b"#" + draw.choice([b"zz", b"g0", b"0-", b"  "])
    if kind == 2:
        body += b"}"
        return b"$" + body + b"#%02x" % (sum(body) % 256)
    body += b"a" * (LIMIT + 1)
    return b"$" + body + b"#%02x" % (sum(body) % 256)


def random_content(draw):
    """A query, or one with changes, or any bytes."""
    kind = draw.random()
    content = bytearray(draw.choice(QUERIES))
    if kind < 0.6:
        return bytes(content)
    if kind < 0.9:
        for _ in range(draw.randint(1, 4)):
            at = draw.randrange(len(content))
            content[at : at + draw.randint(0, 2)] = draw.randbytes(draw.randint(0, 2))
            content = content or bytearray(b"?")
    else:
        content = bytearray(draw.randbytes(draw.randint(1, 64)))
    # a packet that has the program go without end, or ends the session, is another matter
    if content[:1] in b"cCkDvbSsPGMX" or content.startswith(b"qRcmd,6c"):
        return b"?"
    return bytes(content)


class Session:
    """A process of `rv gdb`, what was sent to it, and what has to come."""

    def __init__(self, rv, folder, draw):
        (folder / "prog.s").write_text(PROGRAM)
        words = [rv, "gdb", "prog.s"]
        self.process = subprocess.Popen(words, cwd=folder, stdin=subprocess.PIPE, stdout=subprocess.PIPE, bufsize=0)
        self.draw = draw
        self.out = b""
        self.came = b""
        self.open = []
        self.latest = b""
        self.asked = b""
        self.count = 0
        self.states = {}
        self.faults = []

    def say(self, text):
        self.faults.append(text)

    def put(self, data, check):
        """Has bytes sent, and an answer looked at when it comes."""
        self.out += data
        self.open.append(check)
        if len(self.out) > BYTES or len(self.open) >= OPEN:
            self.settle()

    def settle(self):
        """Sends what is to be sent, sometimes in pieces, and looks at all answers."""
        data, self.out = self.out, b""
        while data:
            size = len(data) if self.draw.random() < 0.9 else self.draw.randint(1, len(data))
            self.process.stdin.write(data[:size])
            data = data[size:]
        checks, self.open = self.open, []
        for check in checks:
            check()
        if self.came:
            self.say(f"more was said: {self.came[:40]}")

    def more(self):
        came = self.process.stdout.read(1 << 16)
        if not came:
            raise SystemExit("the process has ended")
        self.came += came

    def take(self, size):
        """The next bytes."""
        while len(self.came) < size:
            self.more()
        taken, self.came = self.came[:size], self.came[size:]
        return taken

    def packet(self):
        """The content of the packet that comes next; None where it is no packet."""
        while b"#" not in self.came and len(self.came) < 4 * LIMIT:
            self.more()
        came = self.latest = self.take(self.came.find(b"#") + 3)
        found = PACKET.fullmatch(came)
        if not found or sum(found[1]) % 256 != int(found[2], 16):
            return None
        return re.sub(rb"\}(.)", lambda pair: bytes([pair[1][0] ^ 0x20]), found[1], flags=re.DOTALL)

    def ask(self, content, use=lambda answer: None):
        """Sends a packet, and gives its answer to a function."""
        # (one of this kind that comes twice before its answer is answered once: `waiting`)
        if content.startswith(b"qSupported") and content == self.asked:
            content = b"?"
        self.asked = content

        def check():
            if self.take(1) != b"+":
                self.say(f"{content}: not received")
            answer = self.packet()
            if answer is None:
                self.say(f"{content}: {self.latest}")
            use(answer)

        self.put(framed(content), check)

    def step(self, content):
        if content == b"bs":
            begins = self.count == 0
            self.ask(content, lambda answer: self.is_begin(answer, begins))
            self.count = max(0, self.count - 1)
        else:
            self.ask(content)
            self.count += 1
        at = self.count
        self.ask(b"g", lambda state: self.is_state(at, state))

    def is_begin(self, answer, begins):
        if (answer == b"T05thread:1;replaylog:begin;") != begins:
            self.say(f"bs, at the begin {begins}: {answer}")

    def is_state(self, at, state):
        if self.states.setdefault(at, state) != state:
            self.say(f"another state after {at}")

    def wants(self, content, wanted):
        def use(answer):
            if answer != wanted:
                self.say(f"{content}: {answer}, and not {wanted}")

        self.ask(content, use)

    def write(self):
        """Writes a register or memory, and reads it again."""
        draw = self.draw
        if draw.random() < 0.5:
            number, value = draw.randint(1, 31), draw.randbytes(8).hex().encode()
            self.wants(b"P%x=%s" % (number, value), b"OK")
            self.wants(b"p%x" % number, value)
            return
        at, value = DATA + draw.randrange(120), draw.randbytes(draw.randint(1, 8))
        if draw.random() < 0.5:
            self.wants(b"M%x,%x:%s" % (at, len(value), value.hex().encode()), b"OK")
        else:
            self.wants(b"X%x,%x:%s" % (at, len(value), value), b"OK")
        self.wants(b"m%x,%x" % (at, len(value)), value.hex().encode())

    def go(self):
        """Sets or removes a point, or goes on or back, and begins at the start now and then."""
        draw = self.draw
        if draw.random() < 0.3:
            letter, kind = draw.choice([b"Z", b"z"]), draw.randrange(5)
            at = 0x10000 + 4 * draw.randrange(9) if kind < 2 else DATA + draw.randrange(128)
            self.ask(b"%s%d,%x,%x" % (letter, kind, at, draw.choice([0, 1, 4, 8, 1 << 63])))
        elif draw.random() < 0.1:
            self.wants(b"P20=0000010000000000", b"OK")
        else:
            self.ask(draw.choice(GOES))

    def damage(self):
        def check():
            if self.take(1) != b"-":
                self.say("a damaged packet was not refused")

        self.put(damaged(self.draw, random_content(self.draw)), check)

    def again(self):
        def check():
            before = self.latest
            self.packet()
            if self.latest != before:
                self.say("another answer came again")

        self.put(b"-", check)

    def noise(self):
        """What is no packet is passed over."""
        some = bytes(byte for byte in self.draw.randbytes(9) if byte not in b"$-\x03")
        self.out += b"+" + some
        if self.draw.random() < 0.2:
            # a packet that begins anew counts from there
            self.out += b"$" + bytes(byte for byte in some if byte not in b"#}")
            self.ask(b"?")

    def one(self, writes):
        kind = self.draw.random()
        if kind < 0.1:
            self.damage()
        elif kind < 0.15:
            self.noise()
        elif kind < 0.2:
            self.again()
        elif kind < 0.5:
            if writes:
                self.draw.choice([self.write, self.go])()
            else:
                self.step(self.draw.choice(STEPS))
        else:
            self.ask(random_content(self.draw))


def said_to(rv, folder, given):
    """What a process says to bytes that come at once."""
    words = [rv, "gdb", "prog.s"]
    try:
        return subprocess.run(words, cwd=folder, input=given, stdout=subprocess.PIPE, timeout=60).stdout
    except subprocess.TimeoutExpired:
        return b"nothing in 60 seconds"


def waiting(rv, folder):
    """The faults of what comes before it can be answered."""
    question, end = framed(b"qSupported:swbreak+"), framed(b"k")
    twice = said_to(rv, folder, question + question + end)
    behind = said_to(rv, folder, framed(b"vCont;c") + framed(b"?") + b"\x03++++" + end)
    faults = [] if twice.count(b"$PacketSize=4000;") == 1 else [f"asked twice: {twice}"]
    return faults if behind.count(framed(b"T02thread:1;")) == 2 else [*faults, f"interrupted: {behind}"]


def main():
    parser = argparse.ArgumentParser(description=__doc__, formatter_class=argparse.RawDescriptionHelpFormatter)
    parser.add_argument("--first", type=int, default=1)
    parser.add_argument("--count", type=int, default=100_000)
    parser.add_argument("--rv", default=str(Path(__file__).resolve().parents[2] / "rv"))
    words = parser.parse_args()
    with tempfile.TemporaryDirectory() as name:
        session = Session(words.rv, Path(name), random.Random(words.first))
        session.faults += waiting(words.rv, Path(name))
        session.ask(b"?")
        for turn in range(words.count):
            if turn == words.count // 2:
                session.ask(SOME_LIMIT)
            session.one(turn >= words.count // 2)
            if len(session.faults) > 20:
                break
        session.wants(b"qC", b"QC1")
        session.settle()
        memory = int(re.search(r"VmHWM:\s+(\d+)", Path(f"/proc/{session.process.pid}/status").read_text())[1])
        if memory > MEMORY:
            session.say(f"{memory} KiB of memory")
        session.process.stdin.write(framed(b"k"))
        if session.process.wait(timeout=60) != 0:
            session.say("another status")
    for fault in session.faults:
        print(fault)
    print(f"packets={words.count} states={len(session.states)} differs={len(session.faults)}")
    return int(bool(session.faults))
