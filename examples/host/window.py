#!/usr/bin/env python3
"""Shows a screen in a window: window.py SCRIPT WIDTH HEIGHT LINES [POOL=COUNT]..

The mouse is the finger, the wheel the encoder, which its button pushes; arrow keys, Tab and Enter are the keypad. Events are printed."""

import sys
import tkinter
from pathlib import Path

sys.dont_write_bytecode = True
from scene_host import Ended, Refused, Scene, rgb

KEYS = {"Up": "up", "Down": "down", "Left": "left", "Right": "right", "Return": "enter", "Tab": "next", "ISO_Left_Tab": "prev"}
EACH_MS = 33


class Window:
    """A scene in a window, with each pixel `zoom` times as wide and as high. `serve` is given the events that come."""

    def __init__(self, scene, serve=print, zoom=2):
        self.scene, self.serve, self.zoom = scene, serve, zoom
        self.root = tkinter.Tk()
        self.image = tkinter.PhotoImage(width=zoom * scene.picture.width, height=zoom * scene.picture.height)
        label = tkinter.Label(self.root, image=self.image, borderwidth=0)
        label.pack()
        for button in ("<Button-1>", "<B1-Motion>"):
            label.bind(button, lambda event: self.say(f"touch {event.x // zoom} {event.y // zoom}"))
        label.bind("<ButtonRelease-1>", lambda event: self.say("release"))
        label.bind("<Button-2>", lambda event: self.say("push down"))
        label.bind("<ButtonRelease-2>", lambda event: self.say("push up"))
        label.bind("<Button-4>", lambda event: self.say("turn -1"))
        label.bind("<Button-5>", lambda event: self.say("turn 1"))
        self.root.bind("<KeyPress>", lambda event: self.key(event, "down"))
        self.root.bind("<KeyRelease>", lambda event: self.key(event, "up"))
        scene.on_area = self.area
        self.step()

    def area(self, x, y, width, height, colors):
        """Draws an area."""
        piece = tkinter.PhotoImage(data=b"P6\n%d %d\n255\n" % (width, height) + rgb(colors), format="ppm")
        zoom = self.zoom
        self.image.tk.call(self.image, "copy", piece, "-to", zoom * x, zoom * y, "-zoom", zoom)

    def say(self, line):
        """Says a line, and serves what comes of it."""
        for event in self.scene.say(line):
            self.serve(event)

    def key(self, event, way):
        if event.keysym in KEYS:
            self.say(f"key {KEYS[event.keysym]} {way}")

    def step(self):
        """Lets time pass, and shows what changed, again and again."""
        for event in self.scene.pass_time():
            self.serve(event)
        self.scene.frame()
        self.root.after(EACH_MS, self.step)


def main():
    if len(sys.argv) < 5:
        sys.exit(__doc__)
    script, *words = sys.argv[1:]
    try:
        with Scene(*words, make=Path(script).read_text(encoding="utf-8")) as scene:
            Window(scene).root.mainloop()
    except (Ended, Refused) as fault:
        sys.exit(f"window: {type(fault).__name__}: {fault}")


if __name__ == "__main__":
    main()
