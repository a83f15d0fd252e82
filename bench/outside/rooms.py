"""A folder with files, and what a program answered there."""
import os
import resource
import shutil
import signal
import subprocess
from collections import namedtuple

SECONDS = 60
LINES = {2: "redn: words refused", 3: "redn: read failed", 4: "redn: write failed", 9: "redn: out of memory", 16: "redn: file missing"}
NOBODY = 65534

ECHO = "chain echo { arg k; reply k; }\n"
ECHO_TEXT = "chain echo { arg k ; reply k ; }\n"
KEY = "0=000000000000002a"
ECHO_RUN = "set 0 0 42\nreply 0 42\nend quiet\n"
# An image of two requests of which the first makes a SEND of the second, and the order in which that replies 7.
LISTING = """redn 1
memory 192
region 1 0 code 0 4 0 128
region 2 0 control 0 0 128 64
queue 0 0 ordinary 0 2 2
receive 0 0 0
slot 0 0 write 0 2 1 0 64 8 0 0 1
slot 0 1 noop 0 2 0 8 0 8 0 0 1
data 128 0005000000000000
data 136 0000000000000007
end
"""
STEPS = "f 0 0\ns 0\nl 0 0\nf 0 1\ns 0\nl 0 1\n"
STEPS_RUN = "reply 0 7\nend schedule\n"


def spelled(*pairs):
    """Numbers, each with how many bytes it has."""
    return b"".join(number.to_bytes(size, "big") for number, size in pairs)


def image_bytes():
    """The bytes of LISTING's image."""
    code = spelled((1, 4), (0, 2), (2, 2), (0, 4), (4, 4), (0, 8), (128, 8))
    control = spelled((2, 4), (0, 2), (3, 2), (0, 4), (0, 4), (128, 8), (64, 8))
    queue = spelled((0, 4), (0, 4), (0, 8), (2, 8), (2, 8))
    write = spelled((1, 2), (0, 6), (2, 4), (1, 4), (0, 8), (64, 8), (8, 8), (0, 8), (0, 8), (1, 8))
    noop = spelled((0, 2), (0, 6), (2, 4), (0, 4), (8, 8), (0, 8), (8, 8), (0, 8), (0, 8), (1, 8))
    head = b"REDN" + spelled((1, 4), (2, 4), (1, 4), (1, 4), (0, 4), (192, 8))
    return head + code + control + queue + bytes(16) + write + noop + spelled((5, 2), (0, 6), (7, 8)) + bytes(48)


# What a program answered: its exit code, the first line on standard error, whether more stands there that isn't an explanation,
# and what it printed.
Answer = namedtuple("Answer", "code line strange printed")


def answer(code, line=None, printed=""):
    """What should be answered."""
    return Answer(code, LINES.get(code, "") if line is None else line, False, printed)


def told(seen):
    """What was seen, in a few words."""
    if isinstance(seen, bool):
        return "right" if seen else "wrong"
    if isinstance(seen, list):
        return " and ".join(seen) or "no file changed"
    if isinstance(seen, str):
        return repr(seen)
    if not isinstance(seen, tuple):
        return f"exit {seen}"
    if not isinstance(seen, Answer):
        return ", ".join(told(part) for part in seen)
    shown = seen.printed if len(seen.printed) < 60 else f"{len(seen.printed):,} bytes"
    return f"exit {seen.code}" + (f", {seen.line}" if seen.line else "") + (", more lines" if seen.strange else "") + (
        f", prints {shown!r}" if shown else "")


def limits(file_bytes, memory):
    """What a program is allowed: so many bytes in a file, and so much memory."""

    def allow():
        if file_bytes is not None:
            signal.signal(signal.SIGXFSZ, signal.SIG_IGN)
            resource.setrlimit(resource.RLIMIT_FSIZE, (file_bytes, file_bytes))
        if memory is not None:
            resource.setrlimit(resource.RLIMIT_AS, (memory, memory))

    return allow


def ran(words, place, out=subprocess.PIPE, err=subprocess.PIPE, user=None, file_bytes=None, memory=None):
    """What a command answers in a folder."""
    more = {"user": user, "group": user, "extra_groups": []} if user is not None else {}
    begun = subprocess.Popen(words, cwd=place, stdin=subprocess.DEVNULL, stdout=out, stderr=err, preexec_fn=limits(file_bytes, memory), **more)
    try:
        printed, lines = begun.communicate(timeout=SECONDS)
    except subprocess.TimeoutExpired:
        begun.kill()
        begun.communicate()
        return Answer("none", f"it doesn't end within {SECONDS} seconds", False, "")
    first, *rest = (lines or b"").decode("utf-8", "replace").splitlines() or [""]
    return Answer(begun.returncode, first, not all(line.startswith("  ") for line in rest), (printed or b"").decode("utf-8", "replace"))


class Room:
    """A program, and the folder in which it is called. Each case has a folder of its own there."""

    def __init__(self, program, place):
        self.program, self.place, self.count = program, place, 0

    def fresh(self):
        """The path of a new folder with a source, an image, its listing and a schedule."""
        self.count += 1
        path = os.path.join(self.place, f"case {self.count}")
        os.mkdir(path)
        for name, data in (("echo.redn", ECHO.encode()), ("an.lst", LISTING.encode()), ("an.img", image_bytes()), ("a.steps", STEPS.encode())):
            self.put(path, name, data)
        return path

    def put(self, path, name, data):
        with open(os.path.join(path, name), "wb") as file:
            file.write(data)

    def ran(self, path, *words, **how):
        return ran([self.program, *words], path, **how)

    def under(self, front, path, *words, **how):
        """What it answers where another command begins it."""
        return ran([*front, self.program, *words], path, **how)


def held(path):
    """The names in a folder with what they hold; of what is no file, nothing."""
    names = os.listdir(path)
    return {name: open(os.path.join(path, name), "rb").read() if os.path.isfile(os.path.join(path, name)) else None for name in names}


def changed(before, now):
    """What stands in a folder that didn't stand there before, or not so: names, each with how many bytes it has."""
    names = sorted({*before, *now}, key=str)
    return [f"{name!r} has {len(now[name] or b'')} bytes" if name in now else f"{name!r} is gone" for name in names
            if before.get(name, 0) != now.get(name, 0)]


def has(tool):
    return shutil.which(tool) is not None
