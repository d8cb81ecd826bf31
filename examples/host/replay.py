#!/usr/bin/env python3
"""replay.py < STREAM > FRAMES: shows the stream of `scene host ..` as picture files, one at each mark."""

import sys

sys.dont_write_bytecode = True
from scene_host import Picture, Records


def replay(stream, write):
    """Writes the picture at each mark of a stream, until that ends. What is cut off at its end changes nothing."""
    records, picture = Records(), Picture()
    while data := stream.read(65536):
        for kind, *record in records.take(data):
            if kind == "S":
                picture = Picture(*record)
            elif kind == "A":
                picture.draw(*record)
            else:
                write(picture.ppm())


if __name__ == "__main__":
    replay(sys.stdin.buffer, sys.stdout.buffer.write)
