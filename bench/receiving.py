"""Timings of commands that receive a capture, beside `cat`.

The first capture is samples/clip.cap, 1,500 times one after another, each copy with the numbers and the timestamps that follow those of
the copy before it: 394,500 datagrams of 60 bytes on average. Where OpenJPH's encoder is installed (Debian's openjph-tools), a picture of
1,920 by 1,080 samples that is made here is encoded without loss, repeated to about 150 MB and packed as datagrams of at most 1,400 bytes,
plain and split by resolution. Each capture is read in order, and with 2 per cent of the datagrams lost and as many exchanged with the
next one. In the same run `cat` reads the same file. Outputs go nowhere. Medians of the processor time are printed, with the bytes read
and written a second, the time a datagram, the ratio to `cat`'s time, and the greatest memory.
"""
import os
import random
import subprocess
import tempfile

from captures import frames_of, moved, write_frames
from pictures import KINDS, encode
from timing import TOP, counted, in_turn, program

SCL = program()
COPIES, SIZE, ROUNDS, SEED = 1500, 150_000_000, 5, 1
STAMPS = 6000  # of one copy: two codestreams, 3,000 apart


def worn(datagrams):
    """The datagrams with 2 per cent lost and 2 per cent exchanged with the next one."""
    draw = random.Random(SEED)
    left = [one for one in datagrams if draw.random() >= 0.02]
    for at in range(len(left) - 1):
        if draw.random() < 0.02:
            left[at], left[at + 1] = left[at + 1], left[at]
    return left


def timed(name, datagrams, work, commands):
    """Prints the lines of one capture."""
    path = os.path.join(work, "capture")
    write_frames(datagrams, path)
    commands = {" ".join(words[:1] + words[3:]): [SCL, *words] for words in commands} | {"cat": ["cat"]}
    found = in_turn(ROUNDS, {what: lambda command=command: counted(command, path) for what, command in commands.items()})
    for what, (_, seconds, memory, size) in found.items():
        print(f"{name:15} {what:13} {seconds:7.3f} s, {os.path.getsize(path) / seconds / 1e6:7.1f} MB/s in, "
              f"{size / seconds / 1e6:7.1f} MB/s out, {seconds / len(datagrams) * 1e9:6.0f} ns a datagram, "
              f"{seconds / found['cat'].processor:6.1f} of cat's time, {memory / 1024:.1f} MiB")


def compare(*commands):
    """Times these commands, each given by its words, on each capture."""
    with open(os.path.join(TOP, "samples", "clip.cap"), "rb") as sample:
        clip = frames_of(sample.read())
    captures = {"small": [moved(one, len(clip) * copy, STAMPS * copy) for copy in range(COPIES) for one in clip]}
    with tempfile.TemporaryDirectory() as work:
        source = encode(work, "lossless", *KINDS["lossless"])
        if source is None:
            print("1,400 bytes: skipped, ojph_compress is not installed")
        else:
            with open(source, "rb") as picture:
                codestream = picture.read()
            codestreams = codestream * (SIZE // len(codestream))
            for mode in ("plain", "split"):
                words = [SCL, "pack", "1400", mode, "96", "1", "0", "0", "3600"]
                captures[mode] = frames_of(subprocess.run(words, input=codestreams, stdout=subprocess.PIPE, check=True).stdout)
        for name, datagrams in captures.items():
            timed(f"{name}, in order", datagrams, work, commands)
            timed(f"{name}, worn", worn(datagrams), work, commands)
