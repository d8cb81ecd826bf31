"""Runs `scene host` beside a program of one's own: lines and questions go in, and events, answers and the areas that change come out.

    from scene_host import Scene

    with Scene(160, 60, 20, make='new 10 3 slider\\non 10 value_changed say') as scene:
        scene.frame()
        for name, target, current in scene.say("touch 80 5"):
            print(name, scene.ask("value", target))

Everything happens in the calls, and in the thread that makes them: there is no other one."""

import collections
import os
import selectors
import struct
import subprocess
import sys
import time
from pathlib import Path

# The program, where the variable SCENE of the environment names no other one, as ./preview.
PROGRAM = os.environ.get("SCENE") or Path(__file__).resolve().parent.parent.parent / "scene"
# A longer script than this ends the program.
MOST_BYTES = 16_777_216
MOST_IN_LINE = 4096
# The numbers of flags, and of the states that a script gives: the others come with the focus, or while something is pressed.
FLAGS = {"hidden": 1, "clickable": 2, "checkable": 4, "bubble": 8, "scrollable": 16}
STATES = {"checked": 1, "hovered": 16, "disabled": 128, "user1": 4096, "user2": 8192, "user3": 16384, "user4": 32768}
SIDES = ("left", "top", "right", "bottom")
ROOTS = (1, 2, 3)
# The kind of what has been deleted.
GONE = "gone"

# What a byte of a colour gives to a channel of eight bits: the high byte to red, the low one to blue, and both to green.
RED = bytes(high & 0xF8 | high >> 5 for high in range(256))
GREEN_HIGH = bytes((high & 7) << 5 | (high & 7) >> 1 for high in range(256))
GREEN_LOW = bytes((low >> 5) << 2 for low in range(256))
BLUE = bytes((low & 31) << 3 | (low & 31) >> 2 for low in range(256))


class Refused(Exception):
    """A line was refused, or one of the actions that it brought about."""


class Unknown(Exception):
    """A question that the program does not know."""


class Ended(Exception):
    """The program has ended. Its status is the argument."""


# The stream.


def rgb(colors):
    """Three bytes for each colour of sixteen bits, whose high byte comes first."""
    high, low = bytes(colors[0::2]), bytes(colors[1::2])
    green = int.from_bytes(high.translate(GREEN_HIGH), "big") | int.from_bytes(low.translate(GREEN_LOW), "big")
    out = bytearray(3 * len(high))
    out[0::3], out[1::3], out[2::3] = high.translate(RED), green.to_bytes(len(high), "big"), low.translate(BLUE)
    return bytes(out)


def record_at(data, at):
    """The record that begins there, and where it ends; None where it is not whole yet."""
    kind = data[at : at + 1]
    if kind == b"F":
        return ("F",), at + 1
    if kind == b"S" and len(data) >= at + 5:
        return ("S", *struct.unpack_from(">2H", data, at + 1)), at + 5
    if kind == b"A" and len(data) >= at + 9:
        x, y, width, height = struct.unpack_from(">4H", data, at + 1)
        end = at + 9 + 2 * width * height
        return (("A", x, y, width, height, bytes(data[at + 9 : end])), end) if len(data) >= end else None
    if kind not in (b"", b"S", b"A"):
        raise ValueError(f"no record begins with the byte {kind[0]}")
    return None


class Records:
    """Cuts the records out of a stream, in whatever pieces its bytes come."""

    def __init__(self):
        self.rest = bytearray()

    def take(self, data):
        """The records that end with these bytes: ("S", width, height), ("A", x, y, width, height, colors) and ("F",)."""
        self.rest += data
        found, at = [], 0
        while one := record_at(self.rest, at):
            found.append(one[0])
            at = one[1]
        del self.rest[:at]
        return found


class Picture:
    """What a viewer has who follows the records: a colour of two bytes for each pixel, row by row."""

    def __init__(self, width=0, height=0):
        self.width, self.height = width, height
        self.colors = bytearray(2 * width * height)

    def draw(self, x, y, width, height, colors):
        """Gives the pixels of an area these colours."""
        for row in range(height):
            at = 2 * ((y + row) * self.width + x)
            self.colors[at : at + 2 * width] = colors[2 * width * row : 2 * width * (row + 1)]

    def color(self, x, y):
        """The red, green and blue of a pixel, each from 0 to 255."""
        at = 2 * (y * self.width + x)
        return tuple(rgb(self.colors[at : at + 2]))

    def ppm(self):
        """The picture as a PPM file."""
        return f"P6\n{self.width} {self.height}\n255\n".encode() + rgb(self.colors)


# Lines and answers.


def text(words):
    """A text of the script, between quotes."""
    inside = words.replace("\\", "\\\\").replace('"', '\\"').replace("\n", "\\n")
    return f'"{inside}"'


def text_of(quoted):
    """What a text of the script says."""
    parts = quoted[1:-1].split("\\\\")
    return "\\".join(part.replace("\\n", "\n").replace('\\"', '"') for part in parts)


def answer_of(said, question):
    """What is told by the answer to a question: a number, several as a tuple, a text, how many slots of each pool are in use and how many
    it has by the pool's name, or None where there is none."""
    if said == "unknown":
        raise Unknown(question)
    rest = said.partition(" ")[2]
    if rest.startswith('"'):
        return text_of(rest)
    words = rest.split()
    if words == ["none"]:
        return None
    if question == "used":
        return {pool: (int(used), int(slots)) for pool, used, slots in zip(words[0::3], words[1::3], words[2::3])}
    numbers = tuple(int(word) if word.lstrip("-").isdigit() else word for word in words)
    return numbers[0] if len(numbers) == 1 and question != "children" else numbers


def has_reply(line):
    """Whether a line is answered: a command, a question, and one that is too long, but no other comment and no blank line."""
    words = (line[:-1] if line.endswith("\r") else line).lstrip(" ")
    return line.startswith("#?") or words != "" and not words.startswith("#") or len(line.encode(errors="surrogateescape")) > MOST_IN_LINE


def way_back(first, last, start, end):
    """How far what stands from first to last is to be moved back to stand from start to end; by its beginning where it is longer."""
    if first < start or last - first > end - start:
        return first - start
    return max(last - end, 0)


def switched(word, numbers, handle, now, was):
    """The lines that switch flags or states to what they were."""
    return [f"{word} {handle} {name} {'on' if was & number else 'off'}" for name, number in numbers.items() if (now ^ was) & number]


def lines_back(question, now, was):
    """The lines by which a question is answered as it was, in place of what it is now."""
    kind, *handle = question
    if now is None or now == was:
        return []
    if was is None:
        return [f"delete {handle[0]}"] if kind == "flags" else []
    if kind in ("flags", "states"):
        return switched(kind[:-1], FLAGS if kind == "flags" else STATES, handle[0], now, was)
    if kind == "children":
        return [f"front {child}" for child in was]
    lines = {
        "active": "load {0}",
        "focused": "focus {0}",
        "offset": "scroll {handle} {0[0]} {0[1]}",
        "value": "value {handle} {0}",
        "text": "text {handle} {0}",
    }
    return [lines[kind].format(text(was) if kind == "text" else was, handle=handle[0] if handle else "")]


class Scene:
    """A screen that the program `scene host` shows, and the run of it.

    `make` makes it: the lines of a script, or a function that is given the scene and says them. Since a run of the program takes a script
    of 16 MiB at most, the next run is begun before that, between two lines, when nothing is pressed: `make` makes the screen anew, and
    what questions tell of it is brought to it.

    `on_area` is called with x, y, width, height and colours, two bytes each, for each area that changes, `on_frame` when those of a frame
    have come, and `on_log` with each line of the log."""

    def __init__(
        self, width, height, lines, *pools, make="", on_area=None, on_frame=None, on_log=None, program=PROGRAM, most_bytes=MOST_BYTES
    ):
        self.words = [str(program), "host", str(width), str(height), str(lines), *pools]
        self.make = make if callable(make) else lambda scene: scene.run(make)
        self.on_area = on_area or (lambda *area: None)
        self.on_frame = on_frame or (lambda: None)
        self.on_log = on_log or (lambda line: None)
        self.most_bytes, self.runs, self.clock = most_bytes, 0, time.monotonic()
        self.picture = Picture(int(width), int(height))
        self.begin()

    def __enter__(self):
        return self

    def __exit__(self, *_):
        self.close()

    # A run of the program.

    def begin(self):
        """Begins a run, and makes the screen."""
        pipe = subprocess.PIPE
        self.program = subprocess.Popen(self.words, stdin=pipe, stdout=pipe, stderr=pipe, bufsize=0)
        self.outputs = selectors.DefaultSelector()
        self.outputs.register(self.program.stdout, selectors.EVENT_READ, self.show)
        self.outputs.register(self.program.stderr, selectors.EVENT_READ, self.hear)
        self.records, self.said, self.log = Records(), b"", collections.deque()
        self.marks = self.lines = self.bytes = 0
        self.kinds, self.parents, self.groups, self.held = {}, {}, [], set()
        self.runs += 1
        self.busy = True
        try:
            self.make(self)
        except BaseException:
            self.close()
            raise
        self.busy = False

    def close(self):
        """Ends the run. Answers the program's status."""
        try:
            self.program.stdin.close()
        except BrokenPipeError:
            pass
        while self.outputs.get_map():
            self.listen()
        self.outputs.close()
        self.program.stdout.close()
        self.program.stderr.close()
        return self.program.wait()

    def listen(self, timeout=None):
        """Takes what the program has written; waits for something where it has not, for `timeout` seconds at most."""
        for key, _ in self.outputs.select(timeout):
            data = os.read(key.fd, 65536)
            key.data(data)
            if not data:
                self.outputs.unregister(key.fileobj)

    def show(self, data):
        """Takes a piece of the stream."""
        for kind, *record in self.records.take(data):
            if kind == "S":
                self.picture = Picture(*record)
            elif kind == "A":
                self.picture.draw(*record)
                self.on_area(*record)
            else:
                self.marks += 1
                self.on_frame()

    def hear(self, data):
        """Takes a piece of the log. What the program says of itself is passed on."""
        *lines, self.said = (self.said + data).split(b"\n")
        for line in (it.decode(errors="replace") for it in lines):
            if line.startswith(("scene:", "preview:")):
                print(line, file=sys.stderr)
            else:
                self.log.append(line)

    # Lines and their replies.

    def say(self, line):
        """Sends one line and waits for its reply. Answers the events that it brought, as (name, target, current)."""
        if line.split() == ["frame"]:
            self.frame()
        elif has_reply(line):
            return self.exchange(line)[1]
        else:
            self.send(line)
        return []

    def ask(self, question, *words):
        """The answer to a question, as ask("value", 10): a number, several as a tuple, a text, or None."""
        said, _ = self.exchange(" ".join(["#?", question, *map(str, words)]))
        return answer_of(said, question)

    def children(self, handle):
        """The children of an object in their order, or None where it is not there."""
        return self.ask("children", handle)

    def pending(self):
        """How many pixels are to be sent by the next frame."""
        return self.ask("pending")

    def used(self, pool=None):
        """How many slots of a pool are in use, and how many it has; of each pool by its name where none is named."""
        return self.ask("used") if pool is None else self.ask("used", pool)[pool]

    def run(self, script):
        """Says the lines of a script."""
        for line in script.removesuffix("\n").split("\n") if script else []:
            self.say(line)

    def frame(self):
        """Brings what changed to `on_area` and to the picture. False where a transfer failed."""
        marks = self.marks
        done = self.exchange("frame")[0].endswith("done")
        while done and self.marks == marks:
            self.check_runs(self.program.stdout)
            self.listen()
        self.listen(0)
        return done

    def pass_time(self):
        """Lets as much time pass in the scene as has passed by the clock since the last call. Answers the events."""
        passed = min(int(1000 * (time.monotonic() - self.clock)), 60000)
        self.clock = self.clock + passed / 1000 if passed < 60000 else time.monotonic()
        return self.say(f"tick {passed}") if passed else []

    def send(self, line):
        """Sends one line, and waits for nothing."""
        if "\n" in line:
            raise ValueError(f"a line has no newline in it: {line!r}")
        data = line.encode(errors="surrogateescape") + b"\n"
        self.lines += 1
        self.bytes += len(data)
        try:
            self.program.stdin.write(data)
        except BrokenPipeError:
            raise Ended(self.program.wait()) from None

    def exchange(self, line):
        """Sends one line that has a reply. Answers what is said of it, and the events."""
        if self.is_full() and not self.busy:
            self.renew()
        self.send(line)
        events, faults = [], []
        while not (said := self.next_line())[:1].isdigit():
            if said.startswith("event "):
                _, name, target, current = said.split()
                events.append((name, int(target), int(current)))
            else:
                faults.append(said)
        number, said = said.split(" ", 1)
        if int(number) != self.lines:
            raise Refused(f"line {self.lines} was answered as line {number}: {line}")
        if said.startswith("refused") or faults:
            raise Refused(f"line {number}: {', '.join([*faults, said])}{self.in_use(said)}: {line}")
        self.note(line.split())
        return said, events

    def in_use(self, said):
        """How much of a pool that is full is in use."""
        pool = said.removeprefix("refused full ")
        return "" if pool == said else ", {} of {} in use".format(*self.used(pool))

    def next_line(self):
        """The next line of the log."""
        while not self.log:
            self.check_runs(self.program.stderr)
            self.listen()
        self.on_log(self.log[0])
        return self.log.popleft()

    def check_runs(self, output):
        """Ends where the program writes to this output no more."""
        if output not in self.outputs.get_map():
            raise Ended(self.program.wait())

    def note(self, words):
        """Keeps what the questions do not tell: which things there are, where they hang, and what is held."""
        kind, first = words[0], words[1] if len(words) > 1 else ""
        if kind == "new":
            self.kinds[int(first)], self.parents[int(first)] = words[3], int(words[2])
        elif kind == "screen":
            self.kinds[int(first)] = kind
        elif kind == "parent":
            self.parents[int(first)] = int(words[2])
        elif kind == "delete":
            self.forget(int(first))
        elif kind == "group":
            self.groups.append(int(first))
        elif kind == "release" or words[-1] == "up" and kind in ("key", "push"):
            self.held.discard("touch" if kind == "release" else kind)
        elif kind in ("touch", "key", "push"):
            self.held.add(kind)

    def forget(self, handle):
        """Forgets an object and all below it, but for their names: the next run may make them again, and is then to delete them."""
        for child in [it for it, parent in self.parents.items() if parent == handle]:
            self.forget(child)
        self.kinds[handle] = GONE
        self.parents.pop(handle, None)

    # Into view.

    def scroll_into_view(self, handle):
        """Scrolls what stands above an object so that it is seen. A focus that keys or an encoder move does not do so by itself."""
        above = self.parents.get(handle)
        while above is not None:
            if self.ask("flags", above) & FLAGS["scrollable"]:
                self.scroll_to(above, handle)
            above = self.parents.get(above)

    def scroll_to(self, above, handle):
        """Scrolls one object so that another one in it stands in its content area."""
        place, content = self.ask("place", handle), self.content(above)
        across, down = (way_back(place[it], place[it + 2], content[it], content[it + 2]) for it in (0, 1))
        x, y = self.ask("offset", above)
        if across or down:
            self.say(f"scroll {above} {max(x + across, 0)} {max(y + down, 0)}")

    def content(self, handle):
        """The content area of an object, as left, top, right and bottom."""
        border = self.ask("property", handle, "main", "border_width")
        inner = [border + self.ask("property", handle, "main", f"pad_{side}") for side in SIDES]
        place = self.ask("place", handle)
        return place[0] + inner[0], place[1] + inner[1], place[2] - inner[2], place[3] - inner[3]

    # The next run.

    def is_full(self):
        """Whether the next run is to be begun: a sixteenth of the bytes is left, or half of that where something is pressed."""
        return self.bytes > self.most_bytes - self.most_bytes // (32 if self.held else 16)

    def renew(self):
        """Begins the next run, with the screen as it is but for what no question tells: what is pressed, and how far animations are."""
        self.busy = True
        before = self.asked()
        self.close()
        self.begin()
        self.busy = True
        for question, was in before:
            for line in lines_back(question, self.answer(question), was):
                self.try_to_say(line)
        self.busy = False

    def try_to_say(self, line):
        """Says a line that may be refused, since it speaks of what `make` did not make."""
        try:
            self.say(line)
        except Refused:
            pass

    def asked(self):
        """Questions that tell of the screen, with their answers."""
        return [(question, self.answer(question)) for question in self.questions()]

    def questions(self):
        """Questions that tell of a screen. The focus stands first, since events come of it."""
        yield from (("focused", group) for group in self.groups)
        yield ("active",)
        yield from (("children", root) for root in ROOTS)
        for handle, kind in self.kinds.items():
            yield from ((it, handle) for it in ("flags", "children", "states", "value", "text", "offset") if is_told(it, kind))

    def answer(self, question):
        """The answer to a question, or None where the program does not know it."""
        try:
            return self.ask(*question)
        except Unknown:
            return None


def is_told(question, kind):
    """Whether a question tells of objects of a kind what a line can set; of those that are gone it is that they are."""
    if kind == GONE:
        return question == "flags"
    return {"value": kind in ("bar", "slider"), "text": kind in ("label", "checkbox")}.get(question, True)
