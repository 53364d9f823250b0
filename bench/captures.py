"""Captures for the timings: their datagrams, read, moved on and written."""
import struct


def frames_of(capture):
    """The datagrams of a capture."""
    at, found = 0, []
    while at < len(capture):
        size, = struct.unpack_from(">H", capture, at)
        found.append(capture[at + 2:at + 2 + size])
        at += 2 + size
    return found


def moved(datagram, numbers, stamps):
    """The datagram with its extended number and its timestamp moved on. Its RTP header has twelve bytes, and ESEQ is byte 15."""
    datagram = bytearray(datagram)
    number = (datagram[15] << 16 | datagram[2] << 8 | datagram[3]) + numbers
    stamp = struct.unpack_from(">I", datagram, 4)[0] + stamps
    struct.pack_into(">HI", datagram, 2, number % 65536, stamp % 2**32)
    datagram[15] = number >> 16 & 255
    return bytes(datagram)


def write_frames(datagrams, path):
    with open(path, "wb") as out:
        for datagram in datagrams:
            out.write(struct.pack(">H", len(datagram)) + datagram)
