"""Short connections through `fork`: 64 bytes, an answer and an end. haproxy has one thread."""
import subprocess

from measures import Failed, Server, ended, forwarder, free_port, listening

CLIENTS = (1, 50, 200)
BYTES = 64
SECONDS = 40


def command_of(bench, name, port, back):
    if name == "bare loop":
        return [bench.load, "relay", str(port), str(back)]
    return forwarder(bench, name, port, back, many=True)


def asked(bench, name, back, clients, count):
    """Connections a second until all and until 95 of 100 were answered, the processor time of one, the slowest, and how
    many were refused or lost."""
    port = free_port()
    relay = listening(command_of(bench, name, port, back), port)
    words = [bench.load, "ask", str(port), str(clients), str(BYTES), str(count), str(SECONDS)]
    try:
        said = subprocess.run(words, stdout=subprocess.PIPE, check=True).stdout.split()
    finally:
        spent = ended(relay)
    answered, _refused, _lost, all_of, most_of, slowest = map(int, said)
    if answered == 0:
        raise Failed("no request was answered")
    most = count * 0.95 * 1e6 / most_of if most_of else None
    return answered * 1e6 / all_of, most, spent * 1e6 / answered, slowest / 1000, count - answered


def figures(bench):
    if not bench.load:
        return
    far = Server(bench.load, "serve", str(BYTES))
    for clients in CLIENTS:
        count = bench.size(20000 if clients > 1 else 5000)
        names = bench.chosen("socat", "bare loop", "pen", "haproxy")
        title = f"{clients} client{'s' if clients > 1 else ''}"
        columns = [
            (f"{title}, until all were answered", "/s", False),
            (f"{title}, until 95 of 100 were", "/s", False),
            (f"{title}, processor time of one", "µs", True),
            (f"{title}, the slowest", "ms", True),
            (f"{title}, refused or lost of {count:,}", "", True),
        ]
        yield from bench.figures(columns, names, lambda name, c=clients, n=count: asked(bench, name, far.port, c, n))
    far.end()
