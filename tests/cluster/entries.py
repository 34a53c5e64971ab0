"""Entries of the agreed log and of a replica's copy, read without the replicas' code:
docs/use/FORMATS.md."""

import hashlib
import struct
import zlib

PLAIN, DEFLATED = b"TBENTRY2", b"TBENTRYZ"
HEAD = struct.Struct("<8s32s16sQQ32sQ32s")  # magic, SHA-256 of what follows, writer, number, claims
COPY = b"TBCOPY1\n"
RECORD = struct.Struct("<QQII")  # position, place, length, CRC-32 of these three and of the entry
PAIRS_MAX = 1 << 20  # bytes of pairs in an entry
MOMENT = struct.Struct("<Q")


def pairs_of(entry):
    """The pairs of an entry, which has to be right."""
    magic, digest = HEAD.unpack_from(entry)[:2]
    rest = magic + entry[40:]
    assert magic in (PLAIN, DEFLATED) and hashlib.sha256(rest).digest() == digest, entry[:8]
    pairs = entry[HEAD.size :]
    return pairs if magic == PLAIN else zlib.decompress(pairs, -zlib.MAX_WBITS)


def entries_of_copy(folder):
    """The entries of a copy, which may be in use, up to the first record that is not whole."""
    with open(f"{folder}/log", "rb") as file:
        assert file.read(len(COPY)) == COPY
        while len(head := file.read(RECORD.size)) == RECORD.size:
            _, _, length, wanted = RECORD.unpack(head)
            entry = file.read(length)
            if len(entry) < length or zlib.crc32(entry, zlib.crc32(head[:20])) != wanted:
                return
            yield entry
