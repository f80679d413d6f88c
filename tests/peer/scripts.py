"""Random step scripts that both `vchan step` and libxenvchan can play."""
from dataclasses import dataclass, field

COUNTS = 1 << 32
# A script may have no more bytes than this in all its BYTES, and `rt try` shows no longer output.
MOST_WRITTEN = 8 << 20
MOST_PRINTED = 400_000
SMALL_ORDERS = [(10, 11), (11, 10), (10, 12), (12, 10), (11, 12), (12, 11), (12, 12)]
CALLS = ["write"] * 4 + ["send"] * 3 + ["read"] * 4 + ["recv"] * 3 + ["ready", "space", "event", "event"]
OTHER_FIELDS = ["left_order", "right_order", "cli_live", "srv_live", "cli_notify", "srv_notify"]
EDGES_OF_WIDTHS = [0, 1, 2, 3, 255, 256, 257, 65_535, 65_536, COUNTS - 1, COUNTS, (1 << 64) - 1]


@dataclass
class Ring:
    """A ring's indices as the page has them, so that numbers can be drawn near its edges."""

    name: str
    size: int
    prod: int
    cons: int

    def ready(self):
        waiting = (self.prod - self.cons) % COUNTS
        return waiting if waiting <= self.size else 0

    def room(self):
        room = (self.size - (self.prod - self.cons)) % COUNTS
        return room if room <= self.size else 0


@dataclass
class End:
    name: str
    short: str
    # The ring that it writes and the one that it reads.
    out: Ring
    into: Ring
    is_live: bool = True
    # Whether it may still make calls, and whether it may be told to store what it likes.
    is_open: bool = True
    is_turned: bool = False


@dataclass
class Draw:
    """A script that is being drawn."""

    rng: object
    ends: list = field(default_factory=list)
    lines: list = field(default_factory=list)
    written: int = 0
    printed: int = 0

    def chance(self, one_of):
        return self.rng.randrange(one_of) == 0

    def opening(self):
        left, right = self.orders()
        start = self.rng.choice([0, 0, COUNTS - self.rng.randint(1, 3000), self.rng.randrange(COUNTS)])
        self.lines.append(f"open {left} {right}")
        if start:
            self.lines.append(f"start {start}")
        rings = Ring("left", 1 << left, start, start), Ring("right", 1 << right, start, start)
        self.ends = [End("client", "cli", rings[0], rings[1]), End("server", "srv", rings[1], rings[0])]

    def orders(self):
        if not self.chance(8):
            return self.rng.choice(SMALL_ORDERS)
        greatest = self.rng.choice([13, 14, 16, 20])
        while True:
            left, right = self.rng.randint(10, greatest), self.rng.randint(10, greatest)
            if left != right or left > 11:
                return left, right

    def length(self, edge, size):
        """A number of bytes: small, near what a ring has now, or beyond it."""
        drawn = self.rng.randrange(12)
        if drawn < 1:
            return 0
        if drawn < 6:
            return self.rng.randint(1, 20)
        if drawn < 9:
            return max(0, edge + self.rng.randint(-1, 1))
        return self.rng.choice([size - 1, size, size + 1, self.rng.randint(0, 2 * size)])

    def payload(self, count):
        if count == 0:
            return "-"
        if count <= 64 or count <= 1000 and self.chance(6):
            return self.rng.randbytes(count).hex()
        return f"{self.rng.randrange(256):02x}*{count}"

    def put(self, end, peer, call):
        count = min(self.length(end.out.room(), end.out.size), MOST_WRITTEN - self.written)
        self.written += count
        self.lines.append(f"{end.name} {call} {self.payload(count)}")
        moved = min(count, end.out.room())
        if peer.is_live and (call == "write" or moved == count):
            end.out.prod = (end.out.prod + moved) % COUNTS

    def take(self, end, call):
        waiting = end.into.ready()
        count = self.length(waiting, end.into.size)
        if self.chance(40):
            count = self.rng.choice([COUNTS // 2 - 1, 1 << 20])
        if self.printed + min(count, waiting) > MOST_PRINTED:
            count = 1
        self.printed += min(count, waiting)
        self.lines.append(f"{end.name} {call} {count}")
        moved = min(count, waiting)
        if call == "read" or moved == count:
            end.into.cons = (end.into.cons + moved) % COUNTS

    def call(self, end, peer):
        call = "close" if self.chance(60) else self.rng.choice(CALLS)
        if call in ("write", "send"):
            self.put(end, peer, call)
        elif call in ("read", "recv"):
            self.take(end, call)
        else:
            self.lines.append(f"{end.name} {call}")
            if call == "close":
                end.is_open = end.is_live = False

    def index(self, end, peer):
        """A store to an index that the peer loads: not one of the peer's own."""
        apart = self.rng.choice([0, 1, 2, -1, self.rng.randrange(COUNTS)])
        if self.chance(2):
            value = (peer.into.cons + self.rng.choice([0, peer.into.size]) + apart) % COUNTS
            peer.into.prod = value
            return f"{peer.into.name}_prod", value
        value = (peer.out.prod - self.rng.choice([0, peer.out.size]) + apart) % COUNTS
        peer.out.cons = value
        return f"{peer.out.name}_cons", value

    def place(self, ring):
        """A byte near one that will be read, or anywhere."""
        near = ring.cons + self.rng.randrange(8) if self.chance(2) else self.rng.randrange(ring.size)
        return f"{ring.name}[{near % ring.size}]"

    def poke(self, end, peer):
        end.is_turned, end.is_open = True, False
        drawn = self.rng.randrange(10)
        if drawn == 0:
            self.lines.append(f"{end.name} signal")
            return
        if drawn < 5:
            word, value = self.index(end, peer)
        elif drawn < 7:
            word, value = self.place(peer.into if self.chance(2) else peer.out), self.rng.getrandbits(64)
        else:
            word = self.rng.choice(OTHER_FIELDS)
            value = self.rng.choice(EDGES_OF_WIDTHS + [self.rng.getrandbits(64)])
            for it in self.ends:
                if word == f"{it.short}_live":
                    it.is_live = value % 256 != 0
        self.lines.append(f"{end.name} poke {word} {value}")

    def line(self, turns):
        end, peer = self.rng.sample(self.ends, 2)
        if self.chance(12):
            self.lines.append(self.rng.choice(["head", "head", "image"]))
        elif end.is_turned or turns and self.chance(20):
            self.poke(end, peer)
        elif end.is_open:
            self.call(end, peer)

    def ending(self):
        """Shows all that can be shown: the signals, and the page."""
        self.lines += [f"{end.name} event" for end in self.ends if end.is_open]
        self.lines += ["image"]


def script(rng):
    """The lines of a random script."""
    draw = Draw(rng)
    draw.opening()
    turns = draw.chance(2)
    for _ in range(rng.randint(1, 60)):
        draw.line(turns)
    draw.ending()
    return draw.lines
