#!/usr/bin/env python3
"""A computer for a ride on a bicycle: it counts the turns of a wheel, and is worked by one knob. A list says what a hand does with it.

Usage: ride.py [FRAME] ; the last frame is written to the file FRAME. What it does is printed."""

import sys
from pathlib import Path

sys.dont_write_bytecode = True
from scene_host import Ended, Refused, Scene, text

SCREEN = Path(__file__).resolve().parent / "ride.scene"
WORDS = (160, 120, 24, "objects=32")
SPEED_TEXT, SPEED, TRIP = 10, 11, 12
LAP, PAUSE = 20, 21
LAPS = range(31, 37)
# The text of a lap has the number of its button, and ten more.
LAP_TEXT = 10
# Of the wheel, in millimetres.
AROUND = 2096
PUSH = ["push down", "tick 60", "push up"]

# How often the wheel turns in a second, and what a hand does with the knob in it.
TURNS = [2, 3, 3, 4, 4, 4, 3, 3, 2, 0, 0, 3, 4, 5, 5, 4, 4, 3, 3, 2, 2, 1, 0, 0]
KNOB = {
    4: PUSH,
    8: PUSH,
    10: ["turn 1", *PUSH],  # a pause
    12: [*PUSH, "turn -1"],  # and its end
    14: PUSH,
    17: PUSH,
    19: ["turn 3"],  # on to the second lap,
    20: ["turn 2"],  # to the fourth one, which is out of sight before,
    21: PUSH,  # which is struck out,
    22: ["turn -2"],  # and back
}


class Ride:
    """What is counted: seconds, turns of the wheel, and the laps, each with its seconds and its turns."""

    def __init__(self):
        self.seconds = self.turns = 0
        self.laps, self.begun = [], (0, 0)
        self.scene = Scene(*WORDS, make=SCREEN.read_text())

    def show(self, turns):
        """Brings the counters to the screen."""
        speed = turns * AROUND * 36 // 1000
        minutes, seconds = divmod(self.seconds, 60)
        self.scene.say(f"text {SPEED_TEXT} {text(f'{speed / 10:.1f} km/h')}")
        self.scene.say(f"value {SPEED} {speed}")
        self.scene.say(f"text {TRIP} {text(f'{metres(self.turns)} m   {minutes}:{seconds:02}')}")

    def serve(self, events):
        """Does what an event asks for."""
        for name, target, _ in events:
            if target == LAP and name == "clicked":
                self.end_lap()
            elif target in LAPS and name == "focused":
                self.scene.scroll_into_view(target)
            elif target in LAPS and name == "clicked":
                self.scene.say(f"state {target} disabled on")
                self.scene.say(f"state {target + LAP_TEXT} disabled on")
            print(f"        {name} {target}{self.seen(target) if name == 'focused' else ''}")

    def end_lap(self):
        """Ends a lap, which is shown in the list; where that is full, no more are."""
        handle = LAPS[0] + len(self.laps)
        if handle not in LAPS:
            return
        seconds, turns = self.seconds - self.begun[0], self.turns - self.begun[1]
        self.laps.append((seconds, turns))
        self.begun = self.seconds, self.turns
        self.scene.say(f"text {handle + LAP_TEXT} {text(f'{len(self.laps)}: {metres(turns)} m in {seconds} s')}")
        self.scene.say(f"flag {handle} hidden off")

    def seen(self, handle):
        """Where something stands and is seen, as a text."""
        left, top, right, bottom = self.scene.ask("visible", handle)
        return f": columns {left} to {right} and lines {top} to {bottom} of it are seen, offset {self.scene.ask('offset', 30)[1]}"

    def pass_second(self, turns):
        """A second passes: it counts where the ride is not interrupted, which the button knows."""
        self.serve(self.scene.say("tick 940"))
        if not self.scene.ask("states", PAUSE) & 1:
            self.seconds += 1
            self.turns += turns


def metres(turns):
    return turns * AROUND // 1000


def run():
    """The whole ride. Answers its last frame and the program's status."""
    ride = Ride()
    scene = ride.scene
    for second, turns in enumerate(TURNS, 1):
        for line in KNOB.get(second, []):
            ride.serve(scene.say(line))
        ride.pass_second(turns)
        ride.show(turns)
        scene.frame()
        print(f"{second:4} s  {scene.ask('text', SPEED_TEXT)}, {scene.ask('text', TRIP)}; {scene.ask('focused', 1)} has the focus")
    return scene.picture.ppm(), scene.close()


def main():
    try:
        frame, status = run()
    except (Ended, Refused) as fault:
        sys.exit(f"ride: {type(fault).__name__}: {fault}")
    for name in sys.argv[1:2]:
        Path(name).write_bytes(frame)
    print(f"the program's status is {status}")
    sys.exit(status)


if __name__ == "__main__":
    main()
