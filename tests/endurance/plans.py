"""Commands at random: two sides with their partners, flags and options."""
import os

from crowds import Crowd, Words
from partners import Appetite, Caller, Child, Datagrams, Echo, File, Gift, NamedPipe, Reply, Server, Standard

# How many times longer a slow machine or program takes, and the times within which what is calm passes all its bytes.
PATIENCE = int(os.environ.get("PATIENCE", 1))
CLOSING, INACTIVE = f"-t{10 * PATIENCE}", f"-T{10 * PATIENCE}"
BLOCKS = (1, 2, 3, 7, 16, 64, 511, 512, 513, 1000, 4096, 8191, 8192, 8193, 65536, 1048576)


class Side:
    """One address of a command, and who stands behind each half of it."""

    def __init__(self, inward, outward):
        self.inward, self.outward = inward, outward
        self.dual = inward is not outward and inward is not None and outward is not None

    def partners(self):
        return [it for it in {id(it): it for it in (self.inward, self.outward) if it}.values()]

    def address(self):
        return "!!".join(it.address() for it in self.partners())

    def place(self, session, letter, way):
        """How a journal names this half; way is I or O."""
        part = way if self.dual or self.inward is not self.outward else "B"
        return f"{session}{letter}{part}-"


class Plan:
    """`calm` says that nothing fails and nobody leaves early, so that all bytes come through; `noisy` that a child may
    write to standard error; `silent` that standard error is closed."""

    def __init__(self):
        self.flags = []
        self.left = self.right = None
        self.ways = "both"
        self.block = None
        self.calm = True
        self.signals = []
        self.crowd = None
        self.noisy = False
        self.silent = False

    def words(self):
        flags = [part for flag in self.flags for part in flag.split(" ")]
        return [*flags, self.left.address(), self.right.address()]

    def partners(self):
        return [] if self.crowd else self.left.partners() + self.right.partners()

    def has(self, flag):
        return any(word.startswith(flag) for word in self.flags)


# --- bytes


def some_bytes(dice, most):
    size = dice.choice((0, 1, 2, 10, 100, 511, 512, 513, 1024, 5000, most))
    how = dice.randrange(4)
    if how == 0:
        return dice.randbytes(size)
    if how == 1:
        lines = b"".join(b"line %d of it\r\n" % number for number in range(size // 12 + 1))
        return lines[:size]
    if how == 2:
        lines = b"".join(b"%d\n" % dice.randrange(10**6) for _ in range(size // 6 + 1))
        return lines[:size]
    return bytes(dice.choice(b"\r\n\x00ab\xff") for _ in range(min(size, 6000)))


def some_gift(dice, hostile=False):
    data = some_bytes(dice, dice.choice((2000, dice.most)))
    pieces = []
    count = dice.choice((1, 1, 1, 2, 3, 6))
    for number in range(count):
        front, data = (data, b"") if number == count - 1 else split_at(data, dice.randrange(len(data) + 1))
        pause = dice.choice((0, 0, 0, 0.01, 0.05, 0.2)) if count > 1 else 0
        pieces.append((front, pause))
    ending = dice.choice(("stay", "leave", "reset")) if hostile else "end"
    return Gift(pieces, ending)


def split_at(data, at):
    return data[:at], data[at:]


def some_appetite(dice, hostile=False):
    if hostile and dice.randrange(2):
        return Appetite(most=dice.choice((0, 1, 10, 1000)))
    if dice.randrange(5) == 0:
        # Slow, but within the closing time.
        return Appetite(size=max(dice.choice((100, 1000, 5000)), dice.most // 100), pause=dice.choice((0.001, 0.01)))
    return Appetite()


# --- one partner of each kind


def standard(dice, room, reads, writes, hostile):
    texts = ["STDIO", "-", "stdio"]
    if reads and not writes:
        texts += ["STDIN", "Stdin"]
    if writes and not reads:
        texts += ["STDOUT"]
    given = dice.choice(("pipe", "pipe", "file", "null"))
    taken = dice.choice(("pipe", "pipe", "file"))
    turn = dice.randrange(5) if hostile else -1
    if turn == 0:
        given = "closed"
    if turn == 1:
        taken = dice.choice(("full", "closed"))
    gift, appetite = some_gift(dice, turn == 2), some_appetite(dice, turn >= 3)
    return Standard(room, reads, writes, gift, appetite, dice.choice(texts), given, taken)


def tcp_caller(dice, room, reads, writes, hostile):
    port = room.port()
    kind = dice.choice(("TCP4-LISTEN", "TCP-LISTEN", "TCP-L", "tcp4-l"))
    host, strangers, options = None, 0, []
    turn = dice.randrange(6)
    if turn == 0:
        options.append("reuseaddr")
    elif turn == 1:
        options.append("bind=127.0.0.1")
    elif turn == 2:
        options.append("range=127.0.0.0/8")
    elif turn == 3:
        host, strangers = "127.0.0.2", dice.choice((0, 1, 2))
        options.append(dice.choice(("range=127.0.0.2/32", "range=127.0.0.2:255.255.255.255")))
    if dice.randrange(4) == 0:
        options.append("nodelay")
    bad = hostile and dice.randrange(3) > 0
    one = Caller(room, reads, writes, some_gift(dice, bad), some_appetite(dice, hostile and not bad),
                 f"{kind}:{port}", "4", ("127.0.0.1", port), host, strangers)
    one.options += options
    return one


def tcp_server(dice, room, reads, writes, hostile):
    port = room.port()
    text = f"{dice.choice(('TCP', 'TCP4', 'TCP-CONNECT', 'tcp'))}:127.0.0.1:{port}"
    late, absent, options = 0, False, []
    turn = dice.randrange(4)
    if turn == 0:
        options.append("nodelay")
    elif turn == 1:
        options.append(dice.choice(("retry=100,interval=0.05", "forever,interval=0.02")))
        late = dice.choice((0, 0.05, 0.3))
    bad = dice.randrange(4) if hostile else -1
    if bad == 0:
        absent, late, options = True, 0, dice.choice(([], ["retry=2,interval=0.05"], ["retry=1,interval=0.001"]))
    one = Server(room, reads, writes, some_gift(dice, bad == 1), some_appetite(dice, bad > 1), text, "4",
                 ("127.0.0.1", port), late, absent)
    one.options += options
    return one


def unix_caller(dice, room, reads, writes, hostile):
    name = room.name("door")
    text = f"{dice.choice(('UNIX-LISTEN', 'UNIX-L', 'unix-listen'))}:{name}"
    return Caller(room, reads, writes, some_gift(dice, hostile), some_appetite(dice, hostile), text, "x",
                  room.path(name))


def unix_server(dice, room, reads, writes, hostile):
    name = room.name("served")
    text = f"{dice.choice(('UNIX-CONNECT', 'GOPEN', 'unix-connect'))}:{name}"
    if dice.randrange(6) == 0:
        text = f"./{name}"
    bad = dice.randrange(3) if hostile else -1
    absent = bad == 0 and text.upper().startswith("UNIX")
    return Server(room, reads, writes, some_gift(dice, bad > 0), some_appetite(dice, bad == 2), text, "x",
                  room.path(name), absent=absent)


def some_datagrams(dice):
    sizes = [size for size in (1, 2, 100, 511, 512, 1000, 1472, 8192) if size < dice.most]
    pieces = [(dice.randbytes(dice.choice(sizes)), dice.choice((0, 0, 0.02))) for _ in range(dice.randrange(1, 12))]
    return Gift(pieces, "stay")


def udp(dice, room, reads, writes, hostile):
    ours, theirs = room.port(True), None
    kind = dice.choice(("UDP", "UDP4", "UDP-SENDTO", "UDP4-SENDTO"))
    text, options = f"{kind}:127.0.0.1:{ours}", []
    if reads and (not writes or dice.randrange(2)):
        theirs = room.port(True)
        options.append(f"bind=127.0.0.1:{theirs}")
    null_end = reads and dice.randrange(2) == 0
    if null_end:
        options.append("null-eof")
    if writes and dice.randrange(3) == 0:
        options.append(dice.choice(("shut-null", "shut-none", "shut-down")))
    one = Datagrams(room, reads, writes, some_datagrams(dice), None, text, ours, theirs, null_end)
    one.options += options
    return one


def udp_listener(dice, room, reads, writes, hostile):
    theirs = room.port(True)
    kinds = ["UDP4-LISTEN", "UDP-LISTEN", "UDP-L", "UDP4-RECVFROM", "UDP-RECVFROM"]
    if reads and not writes:
        kinds += ["UDP-RECV", "UDP4-RECV"]
    kind = dice.choice(kinds)
    options = []
    if dice.randrange(3) == 0:
        options.append("bind=127.0.0.1")
    null_end = dice.randrange(2) == 0
    if null_end:
        options.append("null-eof")
    one = Datagrams(room, reads, writes, some_datagrams(dice), None, f"{kind}:{theirs}", None, theirs, null_end)
    one.options += options
    return one


def files(dice, room, reads, writes, hostile):
    name = room.name("file")
    absent = hostile and dice.randrange(2) == 0
    if reads:
        text = dice.choice((f"OPEN:{name}", f"GOPEN:{name}", f"open:{name},rdonly", f"./{name}"))
        if absent:
            text = f"OPEN:{name}"
        return File(room, True, False, some_gift(dice), text, name, absent=absent)
    old = some_bytes(dice, 3000)
    if absent:
        bad = dice.choice((f"CREATE:none/{name}", f"OPEN:{name}", f"CREATE:{room.name('a')}/b"))
        return File(room, False, True, Gift([]), bad, name, absent=True)
    how = dice.randrange(5)
    if how == 0:
        return File(room, False, True, Gift([]), f"CREATE:{name}", name, dice.choice((None, old)))
    if how == 1:
        return File(room, False, True, Gift([]), f"OPEN:{name},wronly,trunc", name, old)
    if how == 2:
        return File(room, False, True, Gift([]), f"OPEN:{name},wronly,creat,append", name, old, len(old))
    if how == 3:
        return File(room, False, True, Gift([]), f"OPEN:{name},creat,excl", name)
    return File(room, False, True, Gift([]), f"GOPEN:{name}", name, old, len(old))


def named_pipe(dice, room, reads, writes, hostile):
    name = room.name("fifo")
    bad = hostile and reads
    return NamedPipe(room, reads, writes, some_gift(dice, False), some_appetite(dice), f"PIPE:{name}", name)


def echo(dice, room, reads, writes, hostile):
    return Echo(room)


def upper(data):
    return data.upper()


def same(data):
    return data


def counted(data):
    return b"%d\n" % len(data)


def child(dice, room, reads, writes, hostile):
    if reads and writes:
        return child_both(dice, room, hostile)
    if reads:
        many = dice.choice((1, 10, 3000))
        text, data = dice.choice((
            ("EXEC:echo hi", b"hi\n"),
            (f"EXEC:seq {many}", b"".join(b"%d\n" % number for number in range(1, many + 1))),
            (f"SYSTEM:seq {many}; exit 3", b"".join(b"%d\n" % number for number in range(1, many + 1))),
            ("SYSTEM:echo one; sleep 0.1; echo two", b"one\ntwo\n"),
            ("EXEC:true", b""),
        ))
        if hostile:
            text, data = dice.choice((
                ("EXEC:no-such-program-here", b""),
                ("SYSTEM:echo one; kill -9 $$", b"one\n"),
                ("SYSTEM:exec 1>&-; sleep 0.1", b""),
            ))
        one = Child(room, True, False, text, None, text != "EXEC:no-such-program-here")
        one.sent = data
        return one
    if hostile:
        text = dice.choice(("EXEC:true", "SYSTEM:head -c 10 >/dev/null", "SYSTEM:exec <&-; sleep 0.1",
                            "EXEC:no-such-program-here"))
        return Child(room, False, True, text, None, False)
    name = room.name("kept")
    return Child(room, False, True, f"SYSTEM:cat >{name}; touch {name}.done", None, True, name)


def child_both(dice, room, hostile):
    if hostile:
        text, answer = dice.choice((
            ("EXEC:no-such-program-here", None),
            ("SYSTEM:head -c 10", lambda data: data[:10]),
            ("EXEC:true", lambda data: b""),
            ("SYSTEM:kill -9 $$", lambda data: b""),
            ("SYSTEM:exec 1>&-; cat >/dev/null", lambda data: b""),
        ))
        return Child(room, True, True, text, answer, False)
    text, answer = dice.choice((
        ("EXEC:cat", same),
        ("EXEC:cat", same),
        ("EXEC:tr a-z A-Z", upper),
        ("SYSTEM:tr a-z A-Z", upper),
        ("SYSTEM:sleep 0.1; cat", same),
        ("SYSTEM:cat; exit 5", same),
        ("EXEC:wc -c", counted),
        ("SYSTEM:cat >/dev/null; echo over", lambda data: b"over\n"),
        ("EXEC:cat,pipes", same),
    ))
    return Child(room, True, True, text, answer)


GRANTED = b"\x00\x5a\x00\x50\x7f\x00\x00\x01"


def proxy(dice, room, reads, writes, hostile):
    port = room.port()
    kind = dice.choice(("SOCKS4", "SOCKS4A", "PROXY"))
    if kind == "PROXY":
        request = b"CONNECT host.example:80 HTTP/1.0\r\n\r\n"
        good = dice.choice((b"HTTP/1.0 200 Fine\r\n\r\n", b"HTTP/1.1 204 Fine\nVia: me\n\n",
                            b"HTTP/1.0 200 Fine\r\n" + b"X-Field: value\r\n" * dice.randrange(60) + b"\r\n"))
        bad = dice.choice((b"HTTP/1.0 407 No\r\n\r\n", b"SSH-2.0-none\r\n\r\n", b"HTTP/1.0 200", b"", b"x" * 8192))
        text = f"PROXY:127.0.0.1:host.example:80,proxyport={port}"
    else:
        user = dice.choice(("", "me"))
        if kind == "SOCKS4":
            host, request = "127.0.0.1", b"\x04\x01\x00\x50\x7f\x00\x00\x01" + user.encode() + b"\x00"
        else:
            host = "host.example"
            request = b"\x04\x01\x00\x50\x00\x00\x00\x01" + user.encode() + b"\x00host.example\x00"
        good = GRANTED
        bad = dice.choice((b"\x00\x5b" + bytes(6), b"HTTP/1.0 400 Bad", b"\x00\x5a\x00", b"", b"\x05\x5a" + bytes(6)))
        text = f"{kind}:127.0.0.1:{host}:80,socksport={port}" + (f",socksuser={user}" if user else "")
    refused = hostile and dice.randrange(2) == 0
    data = bad if refused else good
    pieces = [(data, 0)]
    if len(data) > 1 and dice.randrange(3) == 0:
        at = dice.randrange(1, len(data))
        pieces = [(data[:at], dice.choice((0, 0.05))), (data[at:], 0)]
    # A server that says nothing at all hangs until the run ends for another reason.
    reply = Reply(request, pieces, not refused)
    gift, appetite = some_gift(dice, hostile and not refused), some_appetite(dice, hostile and not refused)
    one = Server(room, reads, writes, gift, appetite, text, "4", ("127.0.0.1", port), reply=reply)
    one.kind = kind
    one.calm = one.calm and not refused
    return one


STREAMS = [standard, standard, tcp_caller, tcp_caller, tcp_server, tcp_server, unix_caller, unix_server, child, proxy]
ONE_WAY = STREAMS + [files, files, named_pipe]
PACKETS = [udp, udp_listener]


# --- the options of a half


def some_options(dice, one, plan, calm):
    """Options of reading and writing; `model` keeps what they mean."""
    if dice.randrange(2):
        return
    if dice.randrange(3) == 0:
        how = dice.choice(("cr", "crnl"))
        one.options.append(how)
        one.model["lines"] = how
    if one.reads and dice.randrange(5) == 0:
        count = dice.choice((1, 2, 10, 512, 513, 1000, 100000))
        one.options.append(f"readbytes={dice.choice((str(count), hex(count), '0%o' % count))}")
        one.model["most"] = count
    if one.reads and dice.randrange(6) == 0:
        byte = dice.choice((10, 13, 97, 255, 0))
        one.options.append(f"escape={byte}")
        one.model["escape"] = byte
    if one.reads and not calm and dice.randrange(6) == 0:
        one.options.append("ignoreeof")
        one.calm = False
    if one.writes and not one.datagrams and dice.randrange(5) == 0:
        how = dice.choice(("shut-none", "shut-close", "shut-down", "shut-null"))
        one.options.append(how)
        one.calm = one.calm and not (one.answers and how in ("shut-none", "shut-null"))
    # What answers may wait for its answer to be read.
    one.calm = one.calm and not (one.answers and ("most" in one.model or "escape" in one.model))
    if one.kind in ("CREATE", "OPEN") and not calm and dice.randrange(6) == 0:
        one.options.append("unlink-close")
        one.goes = True


# --- whole commands


def some_flags(dice, plan, calm):
    flags = []
    if plan.ways == "right":
        flags.append("-u")
    elif plan.ways == "left":
        flags.append("-U")
    if plan.block:
        flags += dice.choice(([f"-b{plan.block}"], [f"-b {plan.block}"]))
    if calm:
        flags.append(CLOSING)
    elif dice.randrange(2):
        flags.append(dice.choice(("-t0", "-t0.1", "-t1")))
    if not calm or dice.randrange(6) == 0:
        flags.append(INACTIVE if calm else dice.choice(("-T0.4", "-T0.8", "-T 1")))
    if dice.randrange(6) == 0:
        flags.append("-s")
    if dice.randrange(6) == 0:
        flags += dice.choice((["-v"], ["-x"], ["-v", "-x"]))
    if dice.randrange(8) == 0:
        flags.append(dice.choice(("-d", "-dd", "-g")))
    dice.shuffle(flags)
    return flags


def some_plan(dice, room, crowds=False):
    """A command at random; with `crowds` one with `fork`."""
    plan = Plan()
    plan.block = dice.choice(BLOCKS) if dice.randrange(2) else None
    dice.most = 3000 if (plan.block or 8192) < 64 else dice.choice((40000, 40000, 300000))
    shape = dice.random()
    if crowds or shape < 0.12:
        return crowd_plan(dice, room, plan)
    plan.ways = dice.choice(("both", "both", "both", "right", "left"))
    calm = shape < 0.55
    packets = dice.randrange(6) == 0
    if packets:
        calm = False
    one_way = plan.ways != "both"
    kinds = ONE_WAY if one_way else STREAMS
    first = dice.choice(PACKETS) if packets else dice.choice(kinds)
    second = dice.choice(PACKETS) if packets and dice.randrange(3) == 0 else dice.choice(kinds)
    if not one_way and not packets and dice.randrange(6) == 0:
        second = echo
    if first is standard and second is standard and not one_way:
        second = dice.choice((echo, tcp_caller, child))
    if dice.randrange(2):
        first, second = second, first
    worse = dice.choice(("first", "second", "both")) if not calm else ""
    reading, writing = plan.ways in ("both", "right"), plan.ways in ("both", "left")
    plan.left = side(dice, room, first, reading, writing, worse in ("first", "both"), plan, calm)
    plan.right = side(dice, room, second, writing, reading, worse in ("second", "both"), plan, calm)
    for it in plan.partners():
        if not isinstance(it, Echo) or dice.randrange(3) == 0:
            some_options(dice, it, plan, calm)
    plan.flags = some_flags(dice, plan, calm)
    if any(it.kind in ("EXEC", "SYSTEM") and not it.calm for it in plan.partners()):
        plan.noisy = True
    plan.calm = calm and all(it.calm for it in plan.partners()) and any(not it.answers for it in plan.partners())
    if not plan.calm:
        # An end may never come: the run is over where nothing passes.
        plan.flags = ["-T1"] + [flag for flag in plan.flags if flag != INACTIVE]
    # Where there is no standard error a dump fails, and the run goes on.
    plan.silent = dice.randrange(16) == 0
    signals(dice, plan)
    return plan


def side(dice, room, kind, reads, writes, hostile, plan, calm):
    """A side of this kind; both ways it may be a dual address."""
    if reads and writes and kind in (standard, tcp_server, unix_server, child) and dice.randrange(8) == 0:
        inward = dice.choice((kind, files))(dice, room, True, False, hostile)
        outward = dice.choice((files, kind if inward.kind not in ("STDIO",) else files))(dice, room, False, True, False)
        return Side(inward, outward)
    one = kind(dice, room, reads, writes, hostile)
    return Side(one if reads else None, one if writes else None)


def signals(dice, plan):
    turn = dice.randrange(24)
    if turn == 0:
        plan.signals = [(dice.choice((0, 0.02, 0.1, 0.3)), dice.choice(("TERM", "INT", "KILL", "HUP", "USR1")))]
    elif turn == 1:
        plan.signals = [(dice.choice((0.02, 0.1)), "STOP"), (0.15, "CONT")]
    elif turn == 2:
        plan.signals = [(dice.choice((0.02, 0.1)), dice.choice(("WINCH", "CHLD", "CONT")))]


# --- many clients

# The families of clients that send datagrams; the others are 4 for TCP and x for Unix sockets.
DATAGRAMS = {"u": "UDP4-RECVFROM", "v": "UDP4-LISTEN"}


def crowd_plan(dice, room, plan):
    """A command with `fork`, and clients that come at once."""
    count = dice.randrange(1, 9)
    plan.calm = dice.randrange(3) > 0
    options = ["fork", f"stop-after={count}"]
    if dice.randrange(2):
        options.append(f"max-children={dice.randrange(1, 5)}")
    family = dice.choice("444xuv")
    if family == "x":
        name = room.name("crowd")
        kind, place = f"UNIX-LISTEN:{name}", room.path(name)
    else:
        port = room.port(family in DATAGRAMS)
        kind = f"{DATAGRAMS.get(family) or dice.choice(('TCP4-LISTEN', 'TCP-L'))}:{port}"
        place = ("127.0.0.1", port)
    behind, answer = dice.choice((("PIPE", same), ("EXEC:cat", same), ("EXEC:tr a-z A-Z", upper), ("SYSTEM:cat", same),
                                  ("server", same)))
    endings = ("end",) if plan.calm or family in DATAGRAMS else ("end", "end", "leave", "reset")
    plan.crowd = Crowd(room, family, place, answer)
    for number in range(count):
        packet = family in DATAGRAMS
        data = dice.randbytes(dice.randrange(2000)) if packet else some_bytes(dice, min(8000, dice.most // 4))
        # Each begins with its number, by which a session is known.
        plan.crowd.client(b"%d" % number + data, dice.choice(endings))
    if behind == "server":
        behind = f"TCP4:127.0.0.1:{plan.crowd.serve(room.port())}"
    if family == "v":
        # Who has sent its datagram sends an empty one, which ends its session.
        options.append("null-eof")
    plan.flags = [f"-t{PATIENCE}" if family in DATAGRAMS else CLOSING] if plan.calm else ["-t0.3", "-T2"]
    if plan.block and family not in DATAGRAMS:
        plan.flags.append(f"-b{plan.block}")
    if dice.randrange(5) == 0:
        plan.flags.append("-s")
    if dice.randrange(6) == 0:
        plan.flags.append(dice.choice(("-v", "-x")))
    plan.left = Side(Words(",".join([kind, *options])), None)
    plan.right = Side(Words(behind), None)
    return plan
