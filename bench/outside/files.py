"""Cases of the store of files and of standard output."""
import os
import socket
import threading
import time

from outside.rooms import ECHO, ECHO_TEXT, KEY, LISTING, NOBODY, answer, changed, has, held, image_bytes

MAX_FILE = 1_048_576
FEW = 100  # bytes of a file, where so many may be written
LONG = "redn: file too long: limit 1048576"
STEPS_MADE = "f 0 0\ns 0\nl 0 0\nc 0\nf 0 1\ns 0\nl 0 1\nc 0\n"
SLOTS = 20_000


def bad_names(path):
    """Names that can't be read: what they are, and the exit code. They are made in a folder."""
    os.mkdir(os.path.join(path, "folder"))
    os.symlink("round", os.path.join(path, "round"))
    os.symlink("nothing", os.path.join(path, "astray"))
    socket.socket(socket.AF_UNIX).bind(os.path.join(path, "socket"))
    os.close(os.open(os.path.join(path, "locked"), os.O_CREAT, 0))
    yield "a folder", "folder", 3
    yield "a name under a file", "echo.redn/x", 3
    yield "links that go round", "round", 3
    yield "a name of 300 bytes", "n" * 300, 3
    yield "a socket", "socket", 3
    yield "a file without rights", "locked", 3
    yield "no such file", "nosuch", 16
    yield "a name in no folder", "no/such", 16
    yield "a link to nothing", "astray", 16


def user_for(name):
    """The user who lacks rights."""
    return NOBODY if name == "locked" and os.geteuid() == 0 else None


def reads(room):
    path = room.fresh()
    for what, name, code in bad_names(path):
        yield f"{what} as FILE", answer(code), room.ran(path, "check", name, user=user_for(name))
        done = room.ran(path, "run", "an.img", "--schedule", name, user=user_for(name))
        yield f"{what} as schedule", answer(code), done


def fed(path, parts, pause):
    """Makes a FIFO, and writes parts into it one after the other while someone reads."""
    os.mkfifo(path)

    def feed():
        with open(path, "wb", buffering=0) as file:
            for part in parts:
                try:
                    file.write(part)
                except BrokenPipeError:
                    return
                time.sleep(pause)

    threading.Thread(target=feed, daemon=True).start()


def pieces(room):
    """Files that come in pieces, that end early or late, and that can't be read to their end."""
    path, source = room.fresh(), ECHO.encode()
    at = lambda name: os.path.join(path, name)
    fed(at("parts"), [source[:5], source[5:9], source[9:]], 0.1)
    yield "FILE comes in three parts", answer(0, printed=ECHO_TEXT), room.ran(path, "check", "parts")
    fed(at("large"), [b"#" + b"x" * 300_000 + b"\n" + source], 0)
    yield "FILE comes through a pipe, 300,000 bytes", answer(0, printed=ECHO_TEXT), room.ran(path, "check", "large")
    room.put(path, "empty", b"")
    yield "FILE is empty", answer(6, "redn: text refused: byte 0"), room.ran(path, "check", "empty")
    room.put(path, "most", b" " * (MAX_FILE - len(source)) + source)
    yield "FILE is as long as it may be", answer(0, printed=ECHO_TEXT), room.ran(path, "check", "most")
    room.put(path, "more", b" " * (MAX_FILE + 1 - len(source)) + source)
    yield "FILE is one byte longer", answer(5, LONG), room.ran(path, "check", "more")
    yield "FILE never ends", answer(5, LONG), room.ran(path, "check", "/dev/zero")
    # What is read there is read in eights of bytes: 1,048,577 can't be read to their end.
    yield "FILE can't be read behind 1,048,576 bytes", answer(3), room.ran(path, "check", "/proc/self/pagemap")
    room.put(path, "source", source + b"#" * 50_000)
    for error, when in (("EIO", 1), ("EIO", 2), ("EINTR", 1)) if has("strace") else ():
        done = injected(room, path, "source", f"read:error={error}:when={when}", "check", "source")
        yield f"FILE can't be read, {error} at read {when}", answer(3), done


def injected(room, path, name, what, *words, **how):
    """What is answered where the system answers a call on a file so."""
    file = os.path.join(os.path.realpath(path), name)
    strace = ["strace", "-f", "-qq", "-o", "/dev/null", "-P", file, "-e", f"trace={what.split(':')[0]}", "-e", f"inject={what}"]
    return room.under(strace, path, *words, **how)


def writers():
    """What writes a file, its words before and behind the name, and the bytes that are written."""
    yield "IMAGE", ("assemble", "an.lst"), image_bytes()
    yield "the record", ("run", "an.img", "--fair", "100", "--record"), STEPS_MADE.encode()


def left(room, path, words, name, **how):
    """What is answered and which files have changed."""
    before = held(path)
    done = room.ran(path, *words, name, **how)
    return done._replace(printed=""), changed(before, held(path))


def bad_places(path):
    os.mkdir(os.path.join(path, "folder"))
    os.symlink("round", os.path.join(path, "round"))
    os.close(os.open(os.path.join(path, "locked"), os.O_CREAT, 0))
    yield "a folder", "folder"
    yield "a name under a file", "echo.redn/x"
    yield "links that go round", "round"
    yield "a name in no folder", "no/such"
    yield "a file without rights", "locked"
    yield "a full device", "/dev/full"


def leaving(path):
    """Makes a FIFO whose reader takes some bytes and leaves."""
    os.mkfifo(path)

    def leave():
        with open(path, "rb", buffering=0) as file:
            file.read(10)

    threading.Thread(target=leave, daemon=True).start()


def writes(room):
    for what, words, data in writers():
        path = room.fresh()
        for kind, name in bad_places(path):
            yield f"{what} is {kind}", (answer(4), []), left(room, path, words, name, user=user_for(name))
        yield f"{what} is new", (answer(0), [f"'new' has {len(data)} bytes"]), left(room, path, words, "new")
        yield f"{what} has the right bytes", True, held(path).get("new") == data
        room.put(path, "old", b"o" * 5_000)
        yield f"{what} stands over 5,000 bytes", (answer(0), [f"'old' has {len(data)} bytes"]), left(room, path, words, "old")
        yield from cut_writes(room, what, words, data)
    path = room.fresh()
    moves = "x = 1; " * 4_000
    room.put(path, "long.redn", f"chain c {{ var x; {moves}reply x; }}".encode())
    leaving(os.path.join(path, "pipe"))
    yield "IMAGE's reader leaves", answer(4), room.ran(path, "compile", "long.redn", "pipe")


def cut_writes(room, what, words, data):
    """Writes that the system takes a part of."""
    path, few = room.fresh(), min(FEW, len(data) // 2)
    yield f"{what}: room for {few} bytes", (answer(4), [f"'cut' has {few} bytes"]), left(room, path, words, "cut", file_bytes=few)
    if has("strace"):
        done = injected(room, path, "none", "write:retval=0:when=1", *words, "none")
        yield f"{what}: a write takes nothing", answer(4), done._replace(printed="")
        done = injected(room, path, "rest", f"write:retval={few}:when=1", *words, "rest")
        seen = done._replace(printed=""), held(path).get("rest") == data[few:]
        yield f"{what}: a write takes {few} bytes, and the rest follows", (answer(0), True), seen


def long_listing():
    """An image of many slots, and its listing."""
    rows = [f"slot 0 {index} noop 0 0 0 0 0 0 0 0 0\n" for index in range(SLOTS)]
    head = f"redn 1\nmemory {64 * SLOTS}\nqueue 0 0 ordinary 0 {SLOTS} 0\nreceive 0 0 0\n"
    counts = b"".join(number.to_bytes(4, "big") for number in (1, 0, 1, 1, 0)) + (64 * SLOTS).to_bytes(8, "big")
    row = bytes(16) + SLOTS.to_bytes(8, "big") + bytes(8)
    return b"REDN" + counts + row + bytes(16) + bytes(64 * SLOTS), head + "".join(rows) + "end\n"


def outputs(room):
    """Standard output that takes all, or a part."""
    path = room.fresh()
    image, listing = long_listing()
    room.put(path, "long.img", image)
    room.put(path, "cut", b"")
    with open("/dev/full", "wb") as full:
        yield "output to a full device", answer(4), room.ran(path, "check", "echo.redn", out=full)
        done = room.ran(path, "go", "echo.redn", "o.img", "--fair", "1000", KEY, out=full)
        yield "go's output to a full device, its IMAGE written", (answer(4), True), (done, "o.img" in held(path))
    with open(os.path.join(path, "cut"), "wb") as file:
        done = room.ran(path, "disasm", "an.img", out=file, file_bytes=FEW)
    yield f"output: room for {FEW} bytes", (answer(4), LISTING[:FEW]), (done, held(path)["cut"].decode())
    yield "output of a listing", answer(0, printed=LISTING), room.ran(path, "disasm", "an.img")
    done = room.ran(path, "disasm", "long.img")
    yield f"output of {len(listing):,} bytes", (0, True), (done.code, done.printed == listing)
    yield "output's reader leaves", answer(4), left_alone(room, path)
    yield "output to a pipe that is full", (answer(4), True), filled(room, path, listing)
    if has("sh"):
        yield "output is closed", answer(4), room.under(["sh", "-c", 'exec "$@" >&-', "sh"], path, "check", "echo.redn")


def left_alone(room, path):
    """What is answered where a reader takes some bytes of a long output and leaves."""
    reader, writer = os.pipe()
    thread = threading.Thread(target=lambda: (os.read(reader, 10), os.close(reader)))
    thread.start()
    done = room.ran(path, "disasm", "long.img", out=writer)
    os.close(writer)
    thread.join()
    return done


def filled(room, path, listing):
    """What is answered where a pipe takes no more and doesn't wait, and whether it then has a front of what was to be printed."""
    reader, writer = os.pipe2(os.O_NONBLOCK)
    done = room.ran(path, "disasm", "long.img", out=writer)
    os.close(writer)
    taken = b""
    while part := os.read(reader, 65_536):
        taken += part
    os.close(reader)
    return done, len(taken) > 0 and listing.encode().startswith(taken)
