"""Where a peer stands: it finds out where a process listens, binds, listens and connects, and then takes its steps."""
import os
import signal
import socket
import sys
import time

from talk import LIMIT, PATIENCE, Datagrams, Stream, say, sized, sum_of

FAMILIES = {"4": socket.AF_INET, "6": socket.AF_INET6, "x": socket.AF_UNIX}
HOSTS = {"4": "127.0.0.1", "6": "::1"}
OPTIONS = ("late", "for", "at", "from", "times", "refused", "knocks")


def is_stream(kind):
    return not kind.startswith("udp")


def new_socket(kind):
    how = socket.SOCK_STREAM if is_stream(kind) else socket.SOCK_DGRAM
    return socket.socket(FAMILIES[kind[-1]], how)


def tell(told, text):
    with open(told + ".new", "w") as out:
        out.write(f"{text}\n")
    os.rename(told + ".new", told)


# --- where a process listens


def inodes_of(pid):
    found = set()
    for fd in os.listdir(f"/proc/{pid}/fd"):
        try:
            name = os.readlink(f"/proc/{pid}/fd/{fd}")
        except OSError:
            continue
        if name.startswith("socket:["):
            found.add(name[8:-1])
    return found


def port_now(kind, pid):
    """The port at which the process listens now, or None."""
    table = {"tcp4": "tcp", "udp4": "udp"}.get(kind, kind)
    wanted = "0A" if is_stream(kind) else "07"
    own = inodes_of(pid)
    with open(f"/proc/net/{table}") as rows:
        for row in list(rows)[1:]:
            parts = row.split()
            if parts[3] == wanted and parts[9] in own:
                return int(parts[1].rpartition(":")[2], 16)
    return None


def path_now(path):
    """The path where a Unix socket listens there (its flags have the bit 0x10000), or None."""
    with open("/proc/net/unix") as rows:
        for row in list(rows)[1:]:
            parts = row.split()
            if len(parts) > 7 and parts[7] == path and int(parts[3], 16) & 0x10000:
                return path
    return None


def waited_for(find, *words):
    end = time.monotonic() + 10 * PATIENCE
    while time.monotonic() < end:
        try:
            found = find(*words)
        except FileNotFoundError:
            found = None
        if found is not None:
            return found
        time.sleep(0.005)
    sys.exit(f"nobody listens: {words}")


def port_in(name):
    with open(name) as lines:
        return int(lines.readline())


def destination(kind, where):
    if kind == "unix":
        return waited_for(path_now, where)
    host, _, port = where.rpartition("/")
    host = host or HOSTS[kind[-1]]
    if port[1:].isdigit() and port.startswith("@"):
        return host, waited_for(port_now, kind, int(port[1:]))
    if port.startswith("@"):
        return host, waited_for(port_in, port[1:])
    return host, int(port)


def take_steps(kind, sock, partner, steps):
    sock.settimeout(LIMIT)
    talk = Stream(sock) if is_stream(kind) else Datagrams(sock)
    if not is_stream(kind):
        talk.partner = partner
    for step in steps:
        name, has_value, value = step.partition("=")
        getattr(talk, name)(*([value] if has_value else []))
    sock.close()


def split_options(words):
    """The options at the front, and the steps behind them."""
    options = {}
    for at, word in enumerate(words):
        name, _, value = word.partition("=")
        if name not in OPTIONS:
            return options, words[at:]
        options[name] = value
    return options, []


def bind_low(sock, host):
    for port in range(1023, 511, -1):
        try:
            return sock.bind((host, port))
        except PermissionError:
            raise
        except OSError:
            continue
    raise PermissionError("no port below 1024 is free")


def bind(sock, place):
    """Binds to HOST, HOST/PORT or HOST/low."""
    host, _, port = place.partition("/")
    if port == "low":
        bind_low(sock, host)
    else:
        sock.bind((host, int(port or 0)))


def listen(kind, told, *words):
    options, steps = split_options(words)
    sock = new_socket(kind)
    if kind == "unix":
        place = options["at"]
        time.sleep(float(options.get("late", 0)))
        sock.bind(place)
    else:
        bind(sock, options.get("at", HOSTS[kind[-1]]))
        place = sock.getsockname()[1]
    if not is_stream(kind):
        sock.setsockopt(socket.SOL_SOCKET, socket.SO_RCVBUF, 4 << 20)
        tell(told, place)
        return take_steps(kind, sock, (), steps)
    if kind != "unix" and "late" in options:
        tell(told, place)
        time.sleep(float(options["late"]))
    sock.listen(64)
    sock.settimeout(float(options.get("for", LIMIT)))
    tell(told, place)
    try:
        for _ in range(int(options.get("times", 1))):
            take_steps(kind, sock.accept()[0], None, steps)
    except socket.timeout:
        say("nobody came")


def knock(kind, place, where, count):
    """Connects so many times, each time from another port, and says how many were closed without a byte."""
    closed = 0
    for _ in range(count):
        sock = new_socket(kind)
        bind(sock, place)
        sock.settimeout(LIMIT)
        sock.connect(where)
        try:
            closed += not sock.recv(1)
        except ConnectionResetError:
            closed += 1
        sock.close()
    say(f"{closed} gone")


def connect(kind, told, where, *words):
    options, steps = split_options(words)
    if "knocks" in options:
        tell(told, 0)
        return knock(kind, options["from"], destination(kind, where), int(options["knocks"]))
    sock = new_socket(kind)
    if "from" in options:
        bind(sock, options["from"])
        tell(told, sock.getsockname()[1])
    try:
        sock.connect(destination(kind, where))
    except ConnectionRefusedError:
        if "refused" not in options:
            raise
        return say("refused")
    if "from" not in options:
        tell(told, 0 if kind == "unix" else sock.getsockname()[1])
    take_steps(kind, sock, None, steps)


def can(kind):
    try:
        if kind == "low":
            bind_low(new_socket("tcp4"), "127.0.0.1")
        else:
            new_socket(kind).bind((HOSTS[kind[-1]], 0))
    except OSError:
        sys.exit(1)


def main(what, *words):
    signal.alarm(LIMIT)
    if what == "port":
        kind, whose = words
        say(waited_for(path_now, whose) if kind == "unix" else waited_for(port_now, kind, int(whose)))
    elif what == "sum":
        say(sum_of(map(sized, words)))
    elif what == "bytes":
        say(b"".join(map(sized, words)))
    else:
        {"listen": listen, "connect": connect, "can": can}[what](*words)
