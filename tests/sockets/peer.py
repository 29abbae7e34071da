#!/usr/bin/env python3
"""A peer for the tests of sockets: it connects or listens, and then takes its steps one after the other.

peer.py listen KIND TOLD [OPTION=VALUE..] STEP..          tells in the file TOLD where it listens
peer.py connect KIND TOLD WHERE [OPTION=VALUE..] STEP..   tells there from which port it connected
peer.py port KIND PID       waits until the process listens, and prints its port; for unix the PID is a path
peer.py sum LENGTH..        the checksum of the bytes of these lengths, joined
peer.py bytes LENGTH..      these bytes
peer.py can KIND            whether such a socket can be made here; `low` asks for a port below 1024

KIND is tcp4, tcp6, udp4, udp6 or unix. WHERE is a path or HOST/PORT; @PID or @FILE stands for a port that is found
out: the one at which the process listens, or the one that the file will name.
"""
import sys

from stand import main

main(*sys.argv[1:])
