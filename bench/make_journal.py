#!/usr/bin/env python3
"""Prints a journal's file of about so many bytes: a node, a scope, an end, and then what that end received."""
import struct
import sys


def string(text):
    return struct.pack("<H", len(text)) + text


def frame(payload):
    return b"\x01" + struct.pack("<I", len(payload)) + payload


def main():
    size, out = int(sys.argv[1]), sys.stdout.buffer
    out.write(b"\x01BAJOURNAL\x01\0\0\0\0\0")
    begin = [
        b"\x01" + struct.pack("<I", 1) + string(b"http://node1"),
        b"\x02" + struct.pack("<Q", 1) + b"\x01\0\0",
        b"\x03" + struct.pack("<QQ", 2, 1) + b"\x01" + string(b"http://127.0.0.1:9000/participant/2") + b"\0",
    ]
    written = 16
    for payload in begin:
        written += out.write(frame(payload))
    one = frame(b"\x07" + struct.pack("<Q", 2) + b"\x08")
    count = max((size - written - 1) // len(one), 0)
    for _ in range(count // 1000):
        out.write(one * 1000)
    out.write(one * (count % 1000))
    out.write(b"\0")


main()
