"""Frames as a capture file: pcapng, one interface for each port that received."""

import struct
from typing import Iterable

from .texts import Line

_ETHERNET = 1
_DESTINATION = bytes.fromhex("0180c200000e")  # not forwarded by bridges
_ETHERTYPE = bytes.fromhex("88f7")
_LEAST_FRAME = 60  # octets of an Ethernet frame without its check sequence


def capture(frames: Iterable[Line]) -> bytes:
    """The frames in their order, with their answers as comments; interfaces by rising clock and port."""
    received = list(frames)
    ports = sorted({(frame["clock"], frame["port"]) for frame in received})
    number = {port: place for place, port in enumerate(ports)}
    blocks = [_section()]
    blocks += [_interface(f"{clock}/{port}") for clock, port in ports]
    blocks += [_packet(number[frame["clock"], frame["port"]], frame) for frame in received]
    return b"".join(blocks)


def mac_address(clock: bytes) -> bytes:
    """The address of a clock: where it was made of one (octets 3 and 4 are ff-fe), that one; else a local one.

    The local one is 02 and the last five octets of the clock.
    """
    return clock[:3] + clock[5:] if clock[3:5] == b"\xff\xfe" else b"\x02" + clock[3:]


def _ethernet(octets: bytes) -> bytes:
    """The Ethernet frame of a message. Octets too few to name their sender come from the clock of zeros."""
    sender = octets[20:28] if len(octets) >= 28 else bytes(8)
    return (_DESTINATION + mac_address(sender) + _ETHERTYPE + octets).ljust(_LEAST_FRAME, b"\0")


def _padded(octets: bytes) -> bytes:
    """Octets with zeros up to a multiple of four."""
    return octets + bytes(-len(octets) % 4)


def _option(code: int, value: bytes) -> bytes:
    """An option of a block."""
    return struct.pack("<HH", code, len(value)) + _padded(value)


def _block(kind: int, body: bytes, *options: bytes) -> bytes:
    """A block; the options are ended by that of code 0."""
    whole = body + b"".join(options) + bytes(4)
    length = struct.pack("<I", len(whole) + 12)
    return struct.pack("<I", kind) + length + whole + length


def _section() -> bytes:
    """The header of the one section, of no stated length, version 1.0."""
    return _block(0x0A0D0D0A, struct.pack("<IHHq", 0x1A2B3C4D, 1, 0, -1), _option(4, b"gptp_sim tools/planner"))


def _interface(name: str) -> bytes:
    """An interface whose stamps are in ns."""
    return _block(1, struct.pack("<HHI", _ETHERNET, 0, 0), _option(2, name.encode()), _option(9, b"\x09"))


def _packet(interface: int, frame: Line) -> bytes:
    """A frame that an interface received."""
    octets = _ethernet(bytes.fromhex(frame["hex"]))
    high, low = divmod(frame["at"], 2**32)
    body = struct.pack("<IIIII", interface, high, low, len(octets), len(octets)) + _padded(octets)
    return _block(6, body, _option(1, frame["answer"].encode()))
