"""Writes coded sample files, and reads AAC in ADTS frames."""

import struct

# AudioSpecificConfig (ISO/IEC 14496-3, 1.6.2.1): AAC-LC, 48000 Hz, two channels.
CONFIGURATION = b"\x11\x90"
RATE = 48_000
# How many sound samples of each channel a packet holds.
PACKET = 1024


AVC = 1
AAC = 2


def write_coded(path, kind, scale, size, channels, configuration, samples):
    """Writes samples of a kind: each whether it is sync, when it is decoded and shown, in microseconds, and its payload.
    A timescale of 0 is the kind's own; video has a size in pixels, and sound has channels."""
    with open(path, "wb") as file:
        file.write(struct.pack(">4sHHIHHHI", b"SFCS", 1, kind, scale, *size, channels, len(configuration)))
        file.write(configuration)
        for sync, decoded, shown, payload in samples:
            file.write(struct.pack(">BBQQI", 1, sync, decoded, shown, len(payload)))
            file.write(payload)
        file.write(b"\0")


def write_aac(path, samples):
    """Writes sound at 48000 Hz with two channels: samples, each a time in microseconds and a payload. Each is sync, and shown
    when it is decoded."""
    write_coded(path, AAC, 0, (0, 0), 2, CONFIGURATION, ((True, time, time, payload) for time, payload in samples))


def microseconds(packet):
    """When a packet begins, to the nearest microsecond."""
    return (packet * PACKET * 1_000_000 + RATE // 2) // RATE


def payloads(adts):
    """The payloads of ADTS frames (ISO/IEC 14496-3, 1.A.3.2), each of one block of that sound."""
    at = 0
    while at < len(adts):
        head = int.from_bytes(adts[at : at + 7], "big")
        if len(adts) - at < 7 or head >> 44 != 0xFFF or head & 3 != 0:
            raise ValueError(f"no ADTS frame of one block at byte {at}")
        # AAC-LC, the index of 48000 Hz, and two channels.
        if (head >> 38 & 3, head >> 34 & 15, head >> 30 & 7) != (1, 3, 2):
            raise ValueError(f"the frame at byte {at} is no AAC-LC at 48000 Hz with two channels")
        length = head >> 13 & 0x1FFF
        has_checksum = head >> 40 & 1 == 0
        yield adts[at + (9 if has_checksum else 7) : at + length]
        at += length
