#!/usr/bin/env python3
"""by_socket.py FILE PROGRAM WORD..: runs the program, whose standard input is a socket that gives the file, and ends as it does."""
import socket
import subprocess
import sys

ours, theirs = socket.socketpair()
child = subprocess.Popen(sys.argv[2:], stdin=theirs)
theirs.close()
with open(sys.argv[1], "rb") as source:
    ours.sendall(source.read())
ours.close()
sys.exit(child.wait())
