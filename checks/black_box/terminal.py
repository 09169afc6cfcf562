#!/usr/bin/env python3
"""terminal.py SHOWN PIPE STREAMS PROGRAM WORD..: runs the program where standard error is a terminal, and ends as it does.

What the terminal showed is written to the file SHOWN. Where PIPE isn't empty, it is a pipe that is made here, and what the
program writes to it waits for 1.2 seconds, and is then written to PIPE.taken. Where STREAMS is 2, standard output is the
terminal too. The word TERMINAL stands for the terminal's name; then a line of six bytes is typed there, and the end."""
import os
import pty
import sys
import termios
import threading
import time


def take(pipe, taken):
    with open(pipe, "rb", 0) as source, open(taken, "wb") as target:
        target.write(source.read(1))
        time.sleep(1.2)
        target.write(source.read())


def show(master, shown):
    with open(shown, "wb") as target:
        while True:
            try:
                some = os.read(master, 65536)
            except OSError:
                return
            target.write(some)


def main(shown, pipe, streams, *words):
    master, slave = pty.openpty()
    # A line feed is shown as it is written.
    modes = termios.tcgetattr(slave)
    modes[1] &= ~termios.OPOST
    termios.tcsetattr(slave, termios.TCSANOW, modes)
    if "TERMINAL" in words:
        os.write(master, b"typed\n\x04")
    words = [os.ttyname(slave) if word == "TERMINAL" else word for word in words]
    if pipe:
        os.mkfifo(pipe)
    child = os.fork()
    if child == 0:
        os.close(master)
        os.dup2(slave, 2)
        if streams == "2":
            os.dup2(slave, 1)
        os.execvp(words[0], words)
    os.close(slave)
    taker = threading.Thread(target=take, args=(pipe, f"{pipe}.taken"), daemon=True)
    if pipe:
        taker.start()
    show(master, shown)
    status = os.waitstatus_to_exitcode(os.waitpid(child, 0)[1])
    if pipe:
        # What the program wrote may still be on its way; where it never opened the pipe, nothing comes.
        taker.join(10)
    sys.exit(status)


main(*sys.argv[1:])
