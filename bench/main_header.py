"""A main header made by a script: an image in components of steps (1, 1), with precincts of one size at each resolution."""
import struct


def segment(marker, content):
    return struct.pack(">HH", marker, len(content) + 2) + content


def header(width, height, components=4, levels=6, exponent=6):
    """A main header, up to and including SOD. Precincts are 2^`exponent` samples each way."""
    area = struct.pack(">8I", width, height, 0, 0, width, height, 0, 0)
    siz = struct.pack(">H", 0x4000) + area + struct.pack(">H", components) + bytes([7, 1, 1]) * components
    cap = struct.pack(">IH", 0x20000, 0)
    sizes = bytes([exponent << 4 | exponent]) * (levels + 1)
    cod = bytes([1, 3, 0, 1, 0, levels, 4, 4, 0x40, 1]) + sizes
    qcd = bytes([0x40]) + bytes([0x48]) * (3 * levels + 1)
    sot = struct.pack(">HIBB", 0, 0, 0, 1)
    parts = [segment(0xFF51, siz), segment(0xFF50, cap), segment(0xFF52, cod), segment(0xFF5C, qcd), segment(0xFF90, sot)]
    return b"\xff\x4f" + b"".join(parts) + b"\xff\x93"
