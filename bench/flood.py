"""Streams at once through `fork`: socat has a process for each, the others one thread for all."""
import subprocess

from measures import Failed, Server, ended, forwarder, free_port, listening

STREAMS = (4, 8)


def flow(bench, name, far, part, streams, count):
    """MB/s of all streams, and processor seconds of a GiB."""
    port = free_port()
    relay = listening(forwarder(bench, name, port, far.port, many=True), port)
    words = [bench.flood, "near", part, str(port), str(streams), str(count)]
    try:
        said = subprocess.run(words, stdout=subprocess.PIPE, check=True, timeout=60).stdout.split()
    finally:
        spent = ended(relay)
    passed, micros = map(int, said)
    if passed != streams * count:
        raise Failed(f"only {passed} bytes came")
    return passed / micros, spent * (1 << 30) / passed


def figures(bench):
    if not bench.flood:
        return
    count = bench.size(256 << 20)
    names = bench.chosen("socat", "bare loop", "pen", "haproxy")
    for streams in STREAMS:
        for way, part, other in (("right", "give", "take"), ("left", "take", "give")):
            far = Server(bench.flood, "far", other, str(count))
            columns = [(f"{streams} streams to the {way}", "MB/s", False), ("their processor time", "s/GiB", True)]
            yield from bench.figures(
                columns, names, lambda name, f=far, p=part, s=streams: flow(bench, name, f, p, s, count)
            )
            far.end()
