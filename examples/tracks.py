"""Makes coded sample files of the tracks of a movie, by what ffprobe says of their packets."""

import json
import subprocess
from pathlib import Path

from coded import AAC, AVC, write_coded

START_CODE = b"\0\0\0\1"
# The name of each track's file, its kind, and how ffprobe calls its stream.
TRACKS = [("video", AVC, "v:0"), ("sound", AAC, "a:0")]


def dumped(text):
    """The bytes of a dump as ffprobe writes it: lines of a place, groups of digits, and the characters."""
    return bytes.fromhex("".join(line[10:49].replace(" ", "") for line in text.strip().splitlines()))


def probed(path, stream):
    """What ffprobe says of a stream and of its packets, edit lists apart, if there is such a stream."""
    words = ["-v", "error", "-ignore_editlist", "1", "-select_streams", stream, "-show_data", "-show_streams", "-show_packets"]
    entries = "stream=time_base,width,height,channels,extradata:packet=pts,dts,size,pos,flags"
    done = subprocess.run(["ffprobe", *words, "-show_entries", entries, "-of", "json", path], stdout=subprocess.PIPE)
    told = json.loads(done.stdout)
    if done.returncode != 0 or not told["streams"]:
        return None
    return told["streams"][0], told["packets"]


def parameter_sets(record):
    """The sequence and picture parameter sets of a configuration record (ISO/IEC 14496-15, 5.3.3), after start codes."""
    units, at = [], 5
    for mask in (31, 255):
        count, at = record[at] & mask, at + 1
        for _ in range(count):
            length = int.from_bytes(record[at : at + 2], "big")
            units.append(record[at + 2 : at + 2 + length])
            at += 2 + length
    return b"".join(START_CODE + unit for unit in units)


def as_stream(stored):
    """Units after start codes, of a sample whose units stand after lengths of four bytes."""
    out, at = [], 0
    while at < len(stored):
        length = int.from_bytes(stored[at : at + 4], "big")
        out.append(START_CODE + stored[at + 4 : at + 4 + length])
        at += 4 + length
    return b"".join(out)


def write_input(path, kind, stream, packets, movie):
    """Writes the coded sample file of a stream of a movie's bytes, whose units stand after lengths of four bytes."""
    ticks, scale = map(int, stream["time_base"].split("/"))
    if ticks != 1:
        raise ValueError(f"the time base {stream['time_base']} is no whole number of ticks a second")
    configuration = dumped(stream["extradata"])

    def us(tick):
        return (int(tick) * 1_000_000 + scale // 2) // scale

    samples = []
    for packet in packets:
        at, size = int(packet["pos"]), int(packet["size"])
        payload = movie[at : at + size]
        if kind == AVC:
            payload = as_stream(payload)
        samples.append((packet["flags"].startswith("K"), us(packet["dts"]), us(packet["pts"]), payload))
    if kind == AVC:
        configuration = parameter_sets(configuration)
    size = (stream.get("width", 0), stream.get("height", 0))
    write_coded(path, kind, scale, size, stream.get("channels", 0), configuration, samples)
