#!/usr/bin/env python3
"""Writes packed events of about SIZE bytes to FILE: documents of a hundred labels each, every fifth one anchored and then aliased."""
import sys


def event(kind, style=0, flags=0, anchor=b"", tag=b"", value=b""):
    lengths = b"".join(len(t).to_bytes(2, "big") for t in (anchor, tag, value))
    return bytes([kind, style, flags]) + lengths + anchor + tag + value


def main():
    size, path = int(sys.argv[1]), sys.argv[2]
    label = 0
    with open(path, "wb") as out:
        written = out.write(event(1))
        while written < size:
            parts = [event(3, 0, 1), event(7, 1, 1)]
            length = 18
            for j in range(100):
                label += 1
                anchor = b"a%d" % label if j % 5 == 0 else b""
                parts.append(event(6, 1, 1, anchor, b"", b"seam allowance %d mm" % label))
                length += len(parts[-1])
                if j % 5 == 1:
                    parts.append(event(5, 0, 0, b"a%d" % (label - 1)))
                    length += len(parts[-1])
                if written + length > size:
                    break
            parts += [event(8), event(4, 0, 1)]
            written += out.write(b"".join(parts))
        out.write(event(2))


main()
