"""Runs a program in the background of a terminal: a read of that terminal fails with EIO.

terminal.py PROGRAM WORD..      prints nothing where it ended with status 0 and said nothing, else what it did
"""
import fcntl
import os
import signal
import subprocess
import sys
import termios

LIMIT = 15


def to_background():
    os.setpgid(0, 0)
    signal.signal(signal.SIGTTIN, signal.SIG_IGN)


def lead(words):
    """Begins a session with a terminal of its own, and runs the program in its background."""
    os.setsid()
    ours, theirs = os.openpty()
    fcntl.ioctl(theirs, termios.TIOCSCTTY, 0)
    os.write(ours, b"a line\n")
    run = subprocess.Popen(
        words,
        stdin=subprocess.DEVNULL,
        stdout=subprocess.PIPE,
        stderr=subprocess.PIPE,
        preexec_fn=to_background,
    )
    try:
        out, err = run.communicate(timeout=LIMIT)
    except subprocess.TimeoutExpired:
        run.kill()
        return "it doesn't end"
    if run.returncode != 0 or out or err:
        return f"status {run.returncode}, gave {out!r}, said {err!r}"
    return ""


leader = os.fork()
if leader == 0:
    said = lead(sys.argv[1:])
    if said:
        print(said, flush=True)
    os._exit(0)
os.waitpid(leader, 0)
