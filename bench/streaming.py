"""Streams over UDP on loopback: `send`, a sender at a rate, and receivers whose output is read."""
import os
import re
import socket
import subprocess
import time

from captures import write_frames
from relaying import address
from timing import Timed, program

SCL = program()
PLAN, PICK, AT_ONCE = ["1400", "split", "96", "1", "0", "0", "3600"], ["96", "any", "64"], "1000000"
SILENCE = 1.5  # seconds after which a receiver ends
START = 0.3  # seconds that a receiver is given to start
TRIES = 3  # runs of a receiver at one rate, at most


class Receiver:
    """A receiver that was started. `tail` reads its output, whose last line says how many datagrams came."""

    def __init__(self, command):
        self.tail = subprocess.Popen(["tail", "-n", "2"], stdin=subprocess.PIPE, stdout=subprocess.PIPE)
        self.timed = Timed(command, output=self.tail.stdin)
        self.tail.stdin.close()
        time.sleep(START)

    def end(self):
        """The number of datagrams that came, and its Run."""
        with self.tail.stdout as output:
            lines = output.read()
        self.tail.wait()
        return int(re.search(rb"(?:in=)?(\d+)\s*$", lines).group(1)), self.timed.end()


def recv(local, most=8_388_607):
    """The command of `recv` at this address."""
    return [SCL, "recv", *PICK, str(most), str(int(SILENCE * 1000)), local]


def sink(plain):
    """The receiving loop of plain_relay.rs: a function from an address to the command."""
    return lambda local: [plain, "sink", local, str(SILENCE)]


def sent(path, peer):
    """Sends the codestreams with `send` to this address, unpaced. Returns the number of datagrams, and its Run."""
    timed = Timed([SCL, "send", *PLAN, AT_ONCE, address(), peer], path, subprocess.PIPE)
    with timed.child.stdout as output:
        told = re.match(rb"SEND datagrams=(\d+) sent=\1 lost=0 failed=0\n$", output.read())
    if told is None:
        raise SystemExit("send lost datagrams")
    return int(told.group(1)), timed.end()


def blast(datagrams, to, rate):
    """Sends the datagrams at this rate, and returns the rate that was reached."""
    host, port = to.split(":")
    with socket.socket(socket.AF_INET, socket.SOCK_DGRAM) as source:
        source.connect((host, int(port)))
        began = time.perf_counter()
        for at, datagram in enumerate(datagrams):
            while time.perf_counter() < began + at / rate:
                pass
            source.send(datagram)
        return len(datagrams) / (time.perf_counter() - began)


def received(command, datagrams, rate):
    """The best of a few runs of a receiver at this rate: the datagrams that came, its Run, and the rate that was reached."""
    best = None
    for _ in range(TRIES):
        local = address()
        receiver = Receiver(command(local))
        reached = blast(datagrams, local, rate)
        count, spent = receiver.end()
        if best is None or count > best[0]:
            best = count, spent, reached
        if count == len(datagrams):
            break
    return best


def compared(datagrams, rate, work):
    """Whether all datagrams came to `recv` at this rate. If they did, it must write what `report` writes of them, or the script ends."""
    capture, lines = os.path.join(work, "given"), os.path.join(work, "lines")
    write_frames(datagrams, capture)
    with open(capture, "rb") as source:
        wanted = subprocess.run([SCL, "report", *PICK], stdin=source, stdout=subprocess.PIPE, check=True).stdout
    last = b"RECV end=max in=%d\n" % len(datagrams)
    for _ in range(TRIES):
        local = address()
        with open(lines, "wb") as out:
            timed = Timed(recv(local, len(datagrams)), output=out)
            time.sleep(START)
            blast(datagrams, local, rate)
            timed.end()
        with open(lines, "rb") as source:
            found = source.read()
        if found.endswith(last):
            if found != wanted + last:
                raise SystemExit("recv writes something else than report")
            return True
    return False
