"""Relays between plain programs on loopback: a source at a rate, the relay, and sinks that count."""
import os
import re
import shutil
import socket
import subprocess
import time
from typing import NamedTuple

from timing import TOP, Timed

SECONDS = 2  # of one run
STOPPED = 124  # status of `timeout` where it stopped the command


class Relayed(NamedTuple):
    """The numbers of datagrams that were sent, that the relay took in and that came out of it; and the relay's Run."""

    sent: int
    taken: int
    came: int
    run: tuple


def address():
    """An address on loopback that nobody has now."""
    with socket.socket(socket.AF_INET, socket.SOCK_DGRAM) as sock:
        sock.bind(("127.0.0.1", 0))
        return "127.0.0.1:%d" % sock.getsockname()[1]


def plain_program(folder):
    """The path of plain_relay.rs, built with `rustc -O`. None where there is no rustc."""
    if shutil.which("rustc") is None:
        return None
    path = os.path.join(folder, "plain_relay")
    subprocess.run(["rustc", "-O", "-o", path, os.path.join(TOP, "bench", "plain_relay.rs")], check=True)
    return path


def counting(program):
    """The command of a relay that has scl's arguments, ends by itself and says what it took in."""
    return lambda local, sinks: [program, "relay", "8388607", "700", local, *(word for to in sinks for word in (to, "7", "4096"))]


def stopped(command):
    """A command that doesn't end by itself."""
    return ["timeout", "-s", "INT", str(SECONDS + 2), *command]


def socat(local, sinks):
    """socat sends to one receiver alone."""
    return stopped(["socat", "-u", "-b", "9001", f"UDP-RECV:{local.split(':')[1]}", f"UDP-SENDTO:{sinks[0]}"])


def multiudpsink(local, sinks):
    return stopped(["gst-launch-1.0", "-q", "udpsrc", f"port={local.split(':')[1]}", "!", "multiudpsink", f"clients={','.join(sinks)}"])


def relayed(relay, plain, count, rate):
    """One run of a relay to this number of receivers, with the plain program as source and sinks."""
    local, sinks = address(), [address() for _ in range(count)]
    ends = [subprocess.Popen([plain, "sink", to, "1.5"], stdout=subprocess.PIPE) for to in sinks]
    total = rate * SECONDS
    timed = Timed(relay(local, sinks), output=subprocess.PIPE)
    time.sleep(0.3)
    subprocess.run([plain, "source", local, str(total), str(rate)], check=True)
    with timed.child.stdout as output:
        told = re.search(rb"in=(\d+)", output.read())
    spent = timed.end(statuses=(0, STOPPED))
    came = sum(int(end.communicate()[0]) for end in ends)
    return Relayed(total, int(told.group(1)) if told else came // count, came, spent)
