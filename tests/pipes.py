#!/usr/bin/env python3
"""The other end of a command's input and output, for tests/commands: pipes.py HOW COMMAND..

Standard input goes to the command, in three parts with a pause before each, and what it writes to
standard output. The status is the command's, or 128 and the signal that it died of.

plain        pipes
full         the output is a pipe that does not wait, and is read late
drip         the input is a pipe that does not wait
interrupted  sockets with a time limit, on which a stop interrupts a call; the output is read late
signal-N     pipes; once the command has answered it gets signal N, and only then the input ends
program-N    the same of the program that the command runs
"""
import fcntl
import os
import signal
import socket
import struct
import subprocess
import sys
import threading
import time


def unwaiting(descriptor):
    flags = fcntl.fcntl(descriptor, fcntl.F_GETFL)
    fcntl.fcntl(descriptor, fcntl.F_SETFL, flags | os.O_NONBLOCK)


def sockets(option):
    ends = socket.socketpair()
    for end in ends:
        end.setsockopt(socket.SOL_SOCKET, option, struct.pack("ll", 600, 0))
    return [end.detach() for end in ends]


def feed(to, text, done):
    size = len(text) // 3 + 1
    try:
        for at in range(0, len(text), size):
            time.sleep(0.3)
            part = text[at : at + size]
            while part:
                part = part[os.write(to, part) :]
        done.wait()
    except BrokenPipeError:
        pass
    os.close(to)


def program_of(command):
    with open(f"/proc/{command}/task/{command}/children") as file:
        return int(file.read().split()[0])


def disturb(how, run, sink):
    """What happens to the command before its output is read; gives what was read already."""
    if how == "full":
        time.sleep(2)
    elif how == "interrupted":
        for _ in range(20):
            time.sleep(0.1)
            os.killpg(run.pid, signal.SIGSTOP)
            os.killpg(run.pid, signal.SIGCONT)
    elif "-" in how:
        answer = os.read(sink, 1 << 16)
        whom, number = how.split("-")
        os.kill(run.pid if whom == "signal" else program_of(run.pid), int(number))
        run.wait(10)
        return answer
    return b""


def main():
    how, command = sys.argv[1], sys.argv[2:]
    text = sys.stdin.buffer.read()
    if how == "interrupted":
        (source, to), (sink, out) = sockets(socket.SO_RCVTIMEO), sockets(socket.SO_SNDTIMEO)
    else:
        (source, to), (sink, out) = os.pipe(), os.pipe()
    if how == "drip":
        unwaiting(source)
    if how == "full":
        unwaiting(out)
    run = subprocess.Popen(command, stdin=source, stdout=out, start_new_session=True)
    os.close(source)
    os.close(out)

    done = threading.Event()
    if "-" not in how:
        done.set()
    threading.Thread(target=feed, args=(to, text, done)).start()
    try:
        piece = disturb(how, run, sink)
    finally:
        done.set()
    while True:
        sys.stdout.buffer.write(piece)
        piece = os.read(sink, 1 << 16)
        if not piece:
            break
    sys.stdout.buffer.flush()
    status = run.wait()
    sys.exit(status if status >= 0 else 128 - status)


signal.signal(signal.SIGPIPE, signal.SIG_IGN)
main()
