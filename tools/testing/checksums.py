"""CRC-32C, by the library of e2fsprogs if it is there."""
from __future__ import annotations

import ctypes
from typing import Callable

POLYNOMIAL = 0x82F63B78


def _table() -> list[int]:
    found = []
    for byte in range(256):
        for _ in range(8):
            byte = byte >> 1 ^ (POLYNOMIAL if byte & 1 else 0)
        found.append(byte)
    return found


TABLE = _table()


def in_python(data: bytes) -> int:
    crc = 0xFFFFFFFF
    for byte in data:
        crc = crc >> 8 ^ TABLE[(crc ^ byte) & 255]
    return crc ^ 0xFFFFFFFF


def _made() -> Callable[[bytes], int]:
    try:
        call = ctypes.CDLL("libext2fs.so.2").ext2fs_crc32c_le
    except (OSError, AttributeError):
        return in_python
    call.restype, call.argtypes = ctypes.c_uint32, (
        ctypes.c_uint32,
        ctypes.c_char_p,
        ctypes.c_size_t,
    )

    def in_c(data: bytes) -> int:
        return int(call(0xFFFFFFFF, data, len(data))) ^ 0xFFFFFFFF

    return in_c if in_c(b"123456789") == 0xE3069283 else in_python


crc32c = _made()
