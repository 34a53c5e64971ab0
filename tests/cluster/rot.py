"""Bits that a disk has changed, in what an engine's node and a replica keep of the log."""

import glob
import os

# a byte in each part of an entry of format 2
PARTS = {
    "magic": 2,
    "sum": 20,
    "writer": 44,
    "number": 56,
    "position": 64,
    "hash of the log": 90,
    "answered": 104,
    "hash of replies": 130,
    "moment": 145,
    "client": 155,
    "session": 170,
    "operation": 180,
    "length": 184,
    "amount": 250,
}


def files_of_etcd(cluster, at):
    return [f"{cluster.folder}/etcd{at}/member/snap/db"]


def files_of_postgresql(cluster, at):
    names = ("primary", "standby")
    found = glob.glob(f"{cluster.data}/{names[at]}/base/*/*")
    return [it for it in found if os.path.isfile(it)]


def change(paths, data, at, bit):
    """Changes a bit of an entry wherever files have it. Returns how many places that are."""
    count = 0
    for path in paths:
        with open(path, "r+b") as file:
            kept = file.read()
            place = kept.find(data)
            while place >= 0:
                file.seek(place + at)
                file.write(bytes([kept[place + at] ^ 1 << bit]))
                count += 1
                place = kept.find(data, place + 1)
    return count


def change_entries(paths, script, first, bit):
    """Changes a bit in each part, each in another entry, from one of them on. Returns the parts for
    which that was found in no file."""
    missed, entries = [], iter(script[first:])
    for name, at in PARTS.items():
        data = next(it for it in entries if len(it) > at)
        if not change(paths, data, at, bit):
            missed.append(name)
    return missed


def change_key(paths, data, bit):
    """Changes a bit of the key that etcd has an entry by. It is before the entry, with numbers."""
    count = 0
    for path in paths:
        with open(path, "r+b") as file:
            kept = file.read()
            place = kept.find(data)
            while place >= 0:
                key = kept.rfind(b"bank/log/", 0, place)
                file.seek(key + 5)  # of `log`
                file.write(bytes([kept[key + 5] ^ 1 << bit]))
                count += 1
                place = kept.find(data, place + 1)
    return count


def flip(path, at, bit=0):
    """Changes a bit of a file."""
    with open(path, "r+b") as file:
        file.seek(at)
        byte = file.read(1)
        file.seek(at)
        file.write(bytes([byte[0] ^ 1 << bit]))
