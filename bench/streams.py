"""Standard streams by themselves."""
import os
import subprocess
import time

from measures import Failed, median

MIB = 1 << 20
BLOCKS = (8192, 65536, MIB)
PIECE = bytes(64)


def command_of(bench, name, *words):
    return [bench.programs[name], *(words if name != "cat" else ())]


def copied(bench, command, count, source=None, target=None):
    """MB/s of a relay from a pipe, or from a file, to another; all bytes have to come out."""
    before = time.perf_counter()
    giver = None if source else subprocess.Popen(["head", "-c", str(count), "/dev/zero"], stdout=subprocess.PIPE)
    came_in = open(source, "rb") if source else giver.stdout
    goes_out = open(target, "wb") if target else subprocess.PIPE
    relay = subprocess.Popen(command, stdin=came_in, stdout=goes_out, stderr=subprocess.DEVNULL)
    came_in.close()
    passed = 0
    if not target:
        counter = subprocess.Popen(["wc", "-c"], stdin=relay.stdout, stdout=subprocess.PIPE)
        relay.stdout.close()
        passed = int(counter.communicate()[0])
    status = relay.wait()
    seconds = time.perf_counter() - before
    if giver:
        giver.wait()
    if target:
        goes_out.close()
        passed = os.path.getsize(target)
        os.unlink(target)
    if status != 0 or passed != count:
        raise Failed(f"{command}: status {status}, {passed} bytes of {count}")
    return count / seconds / 1e6


def pipes(bench, names, block, count):
    words = ("-b", str(block), "-u", "STDIN", "STDOUT")
    return bench.figures(
        [(f"pipe to pipe, blocks of {block // 1024} KiB", "MB/s", False)],
        names,
        lambda name: (copied(bench, command_of(bench, name, *words), count),),
    )


def files(bench, names, block, count):
    words = ("-b", str(block), "-u", "STDIN", "STDOUT")
    return bench.figures(
        [(f"file to file, blocks of {block // 1024} KiB", "MB/s", False)],
        names,
        lambda name: (copied(bench, command_of(bench, name, *words), count, bench.file("zeros"), bench.file("copy")),),
    )


class Talk:
    """A relay between two pipes."""

    def __init__(self, command):
        self.relay = subprocess.Popen(command, stdin=subprocess.PIPE, stdout=subprocess.PIPE, bufsize=0)

    def trip(self):
        """Microseconds of a piece there and back."""
        before = time.perf_counter_ns()
        self.relay.stdin.write(PIECE)
        left = len(PIECE)
        while left > 0:
            got = self.relay.stdout.read(left)
            if not got:
                raise Failed(f"{self.relay.args}: a piece didn't come back")
            left -= len(got)
        return (time.perf_counter_ns() - before) / 1000

    def end(self):
        """Its processor time in milliseconds."""
        self.relay.stdin.close()
        _, _, usage = os.wait4(self.relay.pid, 0)
        self.relay.returncode = 0
        self.relay.stdout.close()
        return (usage.ru_utime + usage.ru_stime) * 1000


def trips(bench, name):
    talk = Talk(command_of(bench, name, "STDIO", "PIPE"))
    times = [talk.trip() for _ in range(bench.size(20000))]
    talk.end()
    return (median(times),)


def starts(bench, name):
    """Milliseconds from the start to the first piece."""
    times = []
    for _ in range(bench.size(160)):
        before = time.perf_counter_ns()
        talk = Talk(command_of(bench, name, "-u", "STDIN", "STDOUT"))
        talk.trip()
        times.append((time.perf_counter_ns() - before) / 1e6)
        talk.end()
    return (median(times),)


def idle(bench, name):
    talk = Talk(command_of(bench, name, "STDIO", "PIPE"))
    time.sleep(bench.size(10))
    return (talk.end(),)


def figures(bench):
    count = bench.size(1024 * MIB)
    with open(bench.file("zeros"), "wb") as out:
        for _ in range(count // MIB):
            out.write(bytes(MIB))
    for block in BLOCKS:
        yield from pipes(bench, bench.chosen("socat", *(["cat"] if block == BLOCKS[0] else [])), block, count)
    for block in BLOCKS:
        yield from files(bench, bench.chosen("socat", *(["cat"] if block == BLOCKS[0] else [])), block, count)
    os.unlink(bench.file("zeros"))
    both = bench.chosen("socat")
    yield from bench.figures(
        [("pipe to pipe through `cat` behind `EXEC`", "MB/s", False)],
        both,
        lambda name: (copied(bench, command_of(bench, name, "-t10", "STDIO", "EXEC:cat"), count),),
    )
    yield from bench.figures([("64 bytes there and back through `PIPE`", "µs", True)], both, lambda name: trips(bench, name))
    yield from bench.figures(
        [("start to the first byte", "ms", True)], bench.chosen("socat", "cat"), lambda name: starts(bench, name)
    )
    yield from bench.figures(
        [(f"processor time of {bench.size(10)} s without a byte", "ms", True)], both, lambda name: idle(bench, name), 1
    )
