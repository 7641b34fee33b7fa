#!/usr/bin/env python3
"""Reads an evidence volume kept as a folder, and takes every digest of it again: read_volume.py FOLDER [IMAGE].

Written from docs/FORMAT.md alone, by someone who had seen nothing else of this project. With IMAGE it writes the image to
that file. It ends with 1 where a digest differs, and with a traceback where the folder is no whole volume.
"""
import hashlib
import os
import re
import struct
import sys

CHUNK, BEVVY = 32768, 1024 * 32768
PERIOD, PIECE = 14, 14 * 65536  # every symbolic stream repeats after 14 bytes; fill() writes it in pieces
AFF4 = "http://aff4.org/Schema#"
SYMBOLS = {AFF4 + name: letters * ((PIECE + PERIOD) // len(letters)) for name, letters in (
    ("Zero", b"\0"), ("UnknownData", b"UNKNOWN"), ("UnreadableData", b"UNREADABLEDATA"))}
BLOCK_HASHES = ("md5", "sha1", "sha256")
STATEMENT = re.compile(r'<([^>]*)> <([^>]*)> (?:<([^>]*)>|"([^"]*)"\^\^<([^>]*)>) \.\n')


def path_of(folder, urn, name):
    """The path of a segment."""
    return os.path.join(folder, re.sub(r"[^A-Za-z0-9._-]", lambda byte: "%%%02X" % ord(byte[0]), urn), name)


def contents(folder, urn, name):
    """The bytes of a small segment, of an object or (with no URN) of the volume itself."""
    with open(path_of(folder, urn, name), "rb") as file:
        return file.read()


def metadata(folder):
    """The statements as {(subject, predicate): {datatype, or None for an IRI: object}}."""
    facts = {}
    for line in contents(folder, "", "information.turtle").decode().splitlines(True):
        subject, predicate, iri, literal, datatype = STATEMENT.fullmatch(line).groups()
        facts.setdefault((subject, predicate), {})[datatype] = iri or literal
    return facts


def read_stream(folder, urn, stream):
    """Fills `stream` with the stored chunks, each from the place in its bevvy that its point gives."""
    for start in range(0, len(stream), BEVVY):
        name, part = "%08d" % (start // BEVVY), stream[start:start + BEVVY]
        points = struct.iter_unpack("<QI", contents(folder, urn, name + ".index"))
        with open(path_of(folder, urn, name), "rb") as bevvy:
            for at, (offset, length) in zip(range(0, len(part), CHUNK), points, strict=True):
                place = part[at:at + CHUNK]
                bevvy.seek(offset)
                if length not in (CHUNK, len(place)) or bevvy.readinto(place) != len(place):
                    raise ValueError("bevvy %s: the chunk at %d is not whole" % (name, at))


def fill(image, begin, end, symbol, offset):
    """Writes a symbolic stream, from its offset on, over image[begin:end]."""
    for at in range(begin, end, PIECE):
        length = min(PIECE, end - at)
        image[at:at + length] = memoryview(SYMBOLS[symbol])[offset % PERIOD:][:length]


def read_image(image, entries, targets, streams, gap):
    """Fills `image`: the entries in their order, and the gap stream where there is none."""
    end = 0
    for at, length, offset, number in entries:
        if at < end or length == 0 or at + length > len(image):
            raise ValueError("the entry at %d overlaps, is empty or lies outside" % at)
        fill(image, end, at, gap, end)
        end = at + length
        if targets[number] in streams:
            image[at:end] = streams[targets[number]][offset:offset + length]
        else:
            fill(image, at, end, targets[number], offset)
    fill(image, end, len(image), gap, end)


def main(folder, image_path=None):
    """Prints the volume and its digests; gives 1 where one differs, else 0."""
    facts = metadata(folder)
    (image_urn,) = (subject for (subject, _), objects in facts.items() if objects.get(None) == AFF4 + "Map")
    about = {name: objects for (subject, name), objects in facts.items() if subject == image_urn}
    (size,), (urn,), (gap,), (volume,) = (about[AFF4 + name].values() for name in (
        "size", "dependentStream", "mapGapDefaultStream", "stored"))
    (stream_size,) = facts[urn, AFF4 + "size"].values()
    stream, image = memoryview(bytearray(int(stream_size))), memoryview(bytearray(int(size)))
    read_stream(folder, urn, stream)
    places, bevvies = range(0, len(stream), CHUNK), range(-(-len(stream) // BEVVY))
    segments = [b"".join(contents(folder, urn, "%08d.blockHash.%s" % (bevvy, name)) for bevvy in bevvies)
                for name in BLOCK_HASHES] + [contents(folder, image_urn, name) for name in ("map", "idx")]
    entries = struct.iter_unpack("<QQQI", segments[3])
    read_image(image, entries, segments[4].decode().splitlines(), {urn: stream}, gap)

    digests = []
    for name, recorded in zip(BLOCK_HASHES, segments):
        width = hashlib.new(name).digest_size
        blocks = (recorded[at:at + width].hex() for at in range(0, len(recorded), width))
        digests += [("block %d %s" % (at // CHUNK, name), block, hashlib.new(name, stream[at:at + CHUNK]).hexdigest())
                    for at, block in zip(places, blocks, strict=True)]
    digests += [(name, about[AFF4 + "hash"][AFF4 + name.upper()], hashlib.new(name, image).hexdigest())
                for name in BLOCK_HASHES + ("sha512",)]
    block_map = hashlib.sha512(b"".join(hashlib.sha512(part).digest() for part in segments)).hexdigest()
    digests.append(("blockmap", about["urn:aff4-live:blockMapHash"][AFF4 + "SHA512"], block_map))

    print("volume %s\nsize %d\nchunks %d" % (volume, len(image), len(places)))
    for name, recorded, found in digests:
        print(name, "agrees" if recorded == found else "differs: %s %s" % (recorded, found))
    if image_path:
        with open(image_path, "wb") as file:
            file.write(image)
    return int(any(recorded != found for _, recorded, found in digests))


if __name__ == "__main__":
    sys.exit(main(*sys.argv[1:]))
