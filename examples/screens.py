"""What `live` and `web` know of a screen that is named: its file, its words, and its lines."""

import subprocess
import sys
from pathlib import Path

TOP = Path(__file__).resolve().parent.parent
EXAMPLES = TOP / "examples"
BUILT = TOP / "crates/scene_tool/out/scene_tool"


class Missing(Exception):
    """Why a screen cannot be shown."""


def file_of(name):
    """The file of a script: one that is named, or an example by its name."""
    names = sorted(it.stem for it in EXAMPLES.glob("*.words"))
    if name in names:
        return EXAMPLES / f"{name}.scene"
    if not Path(name).is_file():
        raise Missing(f"there is no file and no example {name}; these are examples: {', '.join(names)}")
    return Path(name)


def words_of(file, given):
    """The words with which a script is run: those given, or those of the file beside it."""
    words = file.with_suffix(".words")
    if not given and not words.is_file():
        raise Missing(f"say the words after the file, as 320 240 24; there is no file {words}")
    words = given or words.read_text(encoding="utf-8").split()
    if len(words) < 2 or not all(word.isdigit() for word in words[:2]):
        raise Missing(f"the words begin with the width and the height of the panel, and not so: {' '.join(words)}")
    return words


def with_numbers(script):
    """A script with numbers in place of its names."""
    if b"@" not in script:
        return script
    ended = subprocess.run([sys.executable, TOP / "tools/names"], input=script, capture_output=True, check=False)
    if ended.returncode:
        raise Missing(ended.stderr.decode(errors="replace").strip())
    return ended.stdout


def lines_of(file):
    """The lines of a script without `frame` and `pump`, whose places are blank, so that the numbers in the log are those of the file; and
    whether it has an encoder. Where it has one and no keypad, the keypad works with the same group."""
    lines = with_numbers(file.read_bytes()).split(b"\n")
    lines = [b"" if line.split() in ([b"frame"], [b"pump"]) else line for line in lines]
    words = [line.split() for line in lines]
    encoder = next((it for it in reversed(words) if len(it) == 2 and it[0] == b"encoder"), None)
    if encoder and not any(it[:1] == [b"keypad"] for it in words):
        lines.append(b"keypad " + encoder[1])
    return lines, encoder is not None


def program_of(given):
    """The program: one that is given, ./scene where it is built, and else ./preview."""
    return given or str(TOP / ("scene" if BUILT.is_file() else "preview"))
