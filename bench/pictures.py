"""A picture made by a script, as a codestream of the profile by OpenJPH's encoder (Debian's openjph-tools)."""
import math
import os
import random
import shutil
import subprocess

WIDTH, HEIGHT, SEED = 1920, 1080, 3


def samples():
    """Three components of eight bits: waves, a slope and a chequerboard, two of them with noise."""
    draw = random.Random(SEED)
    for y in range(HEIGHT):
        for x in range(WIDTH):
            noise = draw.randrange(8)
            yield int(127 + 100 * math.sin(x / 37) * math.cos(y / 53)) + noise
            yield (x * 255 // WIDTH + noise) % 256
            yield 255 if (x // 120 + y // 90) % 2 else 40


def encode(folder, name, *options):
    """The path of the picture's codestream with these options of the encoder. None where there is no encoder."""
    if shutil.which("ojph_compress") is None:
        return None
    picture = os.path.join(folder, "picture.ppm")
    if not os.path.exists(picture):
        with open(picture, "wb") as out:
            out.write(b"P6\n%d %d\n255\n" % (WIDTH, HEIGHT) + bytes(samples()))
    path = os.path.join(folder, name + ".j2c")
    precincts = "{128,128},{256,256}"
    words = ["ojph_compress", "-i", picture, "-o", path, "-prog_order", "PCRL", "-precincts", precincts, *options]
    subprocess.run(words, check=True, stdout=subprocess.DEVNULL)
    return path


def write_repeated(codestream, size, path):
    """Writes as many copies of the codestream as fit the size, and gives the number of bytes."""
    with open(path, "wb") as out:
        for _ in range(size // len(codestream)):
            out.write(codestream)
    return os.path.getsize(path)


# The picture without loss, in code-blocks of 64 by 64, and with loss, in code-blocks of 32 by 32.
KINDS = {
    "lossless": ("-reversible", "true", "-block_size", "{64,64}"),
    "lossy": ("-qstep", "0.01", "-block_size", "{32,32}"),
}
