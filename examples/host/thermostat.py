#!/usr/bin/env python3
"""A thermostat that shows itself by the program `scene`, and is touched by a list of touches: it runs by itself.

Usage: thermostat.py [FRAME] ; the last frame is written to the file FRAME. What it does is printed."""

import sys
from pathlib import Path

sys.dont_write_bytecode = True
from scene_host import Ended, Refused, Scene, text

SCREEN = Path(__file__).resolve().parent / "thermostat.scene"
WORDS = (160, 120, 24, "objects=32")

# The names of the screen's objects.
ROOM_TEXT, ROOM_BAR, WANTED_TEXT, WANTED_BAR = 10, 11, 12, 13
LESS, MORE = 20, 21
FAN_TEXT, FAN = 30, 31
LAMP = 40

BLUE = (33, 150, 247)

# What a hand does: a time in seconds, then where the pointer goes, in steps of 40 ms, until it is lifted.
TOUCHES = [
    (2, [(141, 60)]),  # +
    (3, [(141, 60), (142, 61)]),  # +
    (5, [(110, 58)]),  # -
    (7, [(66, 101), (80, 101), (110, 104), (200, 130)]),  # the slider is dragged beyond its end
    (9, [(66, 101)]),  # and brought back
    (11, [(80, 30)]),  # nothing is there
]
SECONDS = 18


class Thermostat:
    """The numbers of a room, in tenths of a degree and in percent, and the screen that shows them."""

    def __init__(self):
        self.room, self.wanted, self.fan, self.heating = 180, 210, 40, True
        self.scene = Scene(*WORDS, make=SCREEN.read_text())
        self.scene.say(f"value {FAN} {self.fan}")
        self.show()

    def show(self):
        """Brings the numbers to the screen."""
        say = self.scene.say
        say(f"text {ROOM_TEXT} {text(f'Room {self.room / 10:.1f} C')}")
        say(f"value {ROOM_BAR} {self.room}")
        say(f"text {WANTED_TEXT} {text(f'Wanted {self.wanted / 10:.1f} C')}")
        say(f"value {WANTED_BAR} {self.wanted}")
        say(f"text {FAN_TEXT} {text(f'Fan {self.fan} %')}")
        say(f"state {LAMP} user1 {'on' if self.heating else 'off'}")

    def serve(self, events):
        """Does what an event asks for. A handler sets fixed values; steps, limits and texts are the host's."""
        for name, target, _ in events:
            if target == LESS and name == "clicked":
                self.wanted = max(self.wanted - 5, 100)
            elif target == MORE and name == "clicked":
                self.wanted = min(self.wanted + 5, 300)
            elif target == FAN and name == "value_changed":
                self.fan = (self.scene.ask("value", FAN) + 5) // 10 * 10
                self.scene.say(f"value {FAN} {self.fan}")
            print(f"        {name} {target}: wanted {self.wanted / 10:.1f}, fan {self.fan} %")

    def touch(self, way):
        """A press: the pointer goes down, along its way, and up."""
        for x, y in way:
            self.serve(self.scene.say(f"touch {x} {y}"))
            self.serve(self.scene.say("tick 40"))
        self.serve(self.scene.say("release"))

    def pass_second(self):
        """A second passes in the room, and on the screen."""
        self.room += 1 + self.fan // 25 if self.heating else -1
        if self.room < self.wanted - 2:
            self.heating = True
        elif self.room > self.wanted + 2:
            self.heating = False
        self.serve(self.scene.say("tick 1000"))


def columns_of(picture, y, color):
    """How many pixels of a line of the picture have this colour: a bar's value, read from the screen."""
    return sum(picture.color(x, y) == color for x in range(picture.width))


def run():
    """The whole run. Answers its last frame and the program's status."""
    thermostat = Thermostat()
    scene = thermostat.scene
    scene.frame()
    for second in range(1, SECONDS + 1):
        for _, way in (it for it in TOUCHES if it[0] == second):
            print(f"{second:4} s  touch {way[0][0]} {way[0][1]}")
            thermostat.touch(way)
        thermostat.pass_second()
        thermostat.show()
        scene.frame()
        heating = "heating" if thermostat.heating else "off"
        blue = columns_of(scene.picture, 25, BLUE)
        print(f"{second:4} s  room {thermostat.room / 10:.1f}, {heating}; the frame's bar has {blue} blue columns")

    # A run of the program has its end, and the next one goes on where it is. Scene begins it by itself in time.
    frame = scene.picture.ppm()
    scene.renew()
    scene.frame()
    print(f"begun anew: {'the same frame' if scene.picture.ppm() == frame else 'another frame'}")
    return frame, scene.close()


def main():
    try:
        frame, status = run()
    except (Ended, Refused) as fault:
        sys.exit(f"thermostat: {type(fault).__name__}: {fault}")
    for name in sys.argv[1:2]:
        Path(name).write_bytes(frame)
    print(f"the program's status is {status}")
    sys.exit(status)


if __name__ == "__main__":
    main()
