#!/usr/bin/env python3
"""controller.py [--turn TURN] [--spi FILE --dc FILE] SCRIPT WIDTH HEIGHT LINES [POOL=COUNT]..

Shows a screen by a display controller that takes commands and data, as over SPI. The file of --spi takes the bytes, as /dev/spidev0.0,
and that of --dc 0 before a command and 1 before data, as a pin. Without them each of both is written to standard output as a line."""

import argparse
import array
import os
import struct
import sys
import time
from pathlib import Path

sys.dont_write_bytecode = True
from scene_host import Ended, Refused, Scene

# Awake, sixteen bits for a pixel, light on, each with its time; then the commands of a window, and of the colours in it.
OPENING, SECONDS = ((0x11,), (0x3A, b"\x55"), (0x29,)), 0.12
COLUMNS, PAGES, COLORS = 0x2A, 0x2B, 0x2C


def tell(name, data):
    """Bytes as a line of text, as `command 2A` and `data 00 01 00 02`."""
    print(name, data.hex(" ").upper())


class Wires:
    """Bytes for a device, with a pin that tells commands from data."""

    def __init__(self, spi, dc):
        self.spi, self.dc = os.open(spi, os.O_WRONLY), os.open(dc, os.O_WRONLY)

    def put(self, name, data):
        os.write(self.dc, b"0" if name == "command" else b"1")
        for at in range(0, len(data), 4096):
            os.write(self.spi, data[at : at + 4096])


class Controller:
    """A panel of these sizes, turned by so many quarters, behind a controller: docs/dcs.md has the places of its pixels."""

    def __init__(self, put, width, height, turn=0):
        self.put, self.width, self.height, self.turn = put, width, height, turn

    def send(self, command, *data):
        self.put("command", bytes([command]))
        for row in data:
            self.put("data", row)

    def open(self):
        for command in OPENING:
            self.send(*command)
            time.sleep(SECONDS)

    def area(self, x, y, width, height, colors):
        """Sends the colours of an area, by rows of the device."""
        pixels = array.array("H", colors)
        across, down = (x, self.width - x - width), (y, self.height - y - height)
        ways = ((across[0], down[0]), (down[1], across[0]), (across[1], down[1]), (down[0], across[1]))
        lines = [pixels[row * width : (row + 1) * width] for row in range(height)]
        rows = [pixels[column::width] for column in range(width)] if self.turn % 2 else lines
        rows = [row[::-1] if self.turn in (1, 2) else row for row in (rows[::-1] if self.turn in (2, 3) else rows)]
        column, page = ways[self.turn]
        self.send(COLUMNS, struct.pack(">2H", column, column + len(rows[0]) - 1))
        self.send(PAGES, struct.pack(">2H", page, page + len(rows) - 1))
        self.send(COLORS, *(row.tobytes() for row in rows))


def main():
    parser = argparse.ArgumentParser(usage=__doc__)
    parser.add_argument("--turn", type=int, choices=range(4), default=0)
    for file in ("--spi", "--dc"):
        parser.add_argument(file)
    parser.add_argument("words", nargs="+")
    given = parser.parse_args()
    script, *words = given.words
    put = Wires(given.spi, given.dc).put if given.spi and given.dc else tell
    panel = Controller(put, int(words[0]), int(words[1]), given.turn)
    try:
        panel.open()
        with Scene(*words, on_area=panel.area) as scene:
            scene.run(Path(script).read_text(encoding="utf-8"))
    except (Ended, Refused) as fault:
        sys.exit(f"controller: {type(fault).__name__}: {fault}")


if __name__ == "__main__":
    main()
