#!/usr/bin/env python3
"""Writes each frame of a script as a PPM file, as PREFIX-1.ppm: ppm.py PREFIX SCRIPT WIDTH HEIGHT LINES [POOL=COUNT].."""

import sys
from pathlib import Path

sys.dont_write_bytecode = True
from scene_host import Ended, Refused, Scene


class Files:
    """Files of a prefix and a number, one for each frame of a scene."""

    def __init__(self, prefix, scene):
        self.prefix, self.scene, self.count = prefix, scene, 0
        scene.on_frame = self.frame

    def frame(self):
        self.count += 1
        Path(f"{self.prefix}-{self.count}.ppm").write_bytes(self.scene.picture.ppm())


def main():
    if len(sys.argv) < 6:
        sys.exit(__doc__)
    prefix, script, *words = sys.argv[1:]
    try:
        with Scene(*words) as scene:
            Files(prefix, scene)
            scene.run(Path(script).read_text(encoding="utf-8"))
    except (Ended, Refused) as fault:
        sys.exit(f"ppm: {type(fault).__name__}: {fault}")


if __name__ == "__main__":
    main()
