#!/usr/bin/env python3
"""Shows a screen on a framebuffer of Linux with 16 bits for a pixel:

    framebuffer.py FILE SCRIPT WIDTH HEIGHT LINES [POOL=COUNT]..

FILE is the device, as /dev/fb0, or a file that stands for one."""

import os
import sys
from pathlib import Path

sys.dont_write_bytecode = True
from scene_host import Ended, Refused, Scene

SYSTEM = Path("/sys/class/graphics")


class Framebuffer:
    """Lines of `stride` bytes, in which each pixel has two, the low one first. The picture stands in their corner."""

    def __init__(self, file, stride):
        self.file, self.stride = os.open(file, os.O_RDWR), stride

    def area(self, x, y, width, height, colors):
        """Gives the pixels of an area these colours, whose high bytes come first."""
        swapped = bytearray(len(colors))
        swapped[0::2], swapped[1::2] = colors[1::2], colors[0::2]
        for row in range(height):
            os.pwrite(self.file, swapped[2 * width * row : 2 * width * (row + 1)], self.stride * (y + row) + 2 * x)

    def close(self):
        os.close(self.file)


def told(file, name):
    """What the system tells of a device, or None of a file that is none."""
    path = SYSTEM / Path(file).name / name
    return int(path.read_text()) if str(file).startswith("/dev/") and path.is_file() else None


def open_framebuffer(file, width):
    """The framebuffer of a device; a file that is none has lines as long as those of the picture."""
    if told(file, "bits_per_pixel") not in (16, None):
        sys.exit(f"framebuffer: {file} has other than 16 bits for a pixel")
    return Framebuffer(file, told(file, "stride") or 2 * width)


def main():
    if len(sys.argv) < 6:
        sys.exit(__doc__)
    file, script, *words = sys.argv[1:]
    screen = open_framebuffer(file, int(words[0]))
    try:
        with Scene(*words, on_area=screen.area) as scene:
            scene.run(Path(script).read_text(encoding="utf-8"))
    except (Ended, Refused) as fault:
        sys.exit(f"framebuffer: {type(fault).__name__}: {fault}")
    screen.close()


if __name__ == "__main__":
    main()
