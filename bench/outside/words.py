"""Cases of `main` and the launcher: exit codes with their lines, words of all kinds, and ways to call."""
import os

from outside.rooms import ECHO, ECHO_RUN, ECHO_TEXT, KEY, STEPS, STEPS_RUN, answer, changed, held, ran

ALL_MEMORY = 33_554_432
NAMES = ("a b", " a", "a ", "it's", 'a"b', "a\nb", "a\n", "\n", "*", "?", "$HOME", "`id`", "$(id)", "a\\b", "\\", "~", "é", "a;b", "a&b",
         "check", "=", "0=", "a\tb", "#", "!", "[a]", "{a,b}")


def table(room, path):
    """Words, and what should be answered: each exit code that needs no fault of the system."""
    for name, data in (("at.redn", b"@"), ("round.redn", b"chain c { loop { } reply 1; }"), ("short.img", b"REDN"), ("bad.steps", b"x\n"),
                       ("early.steps", b"s 0\n"), ("again.steps", (STEPS + "s 0\n").encode())):
        room.put(path, name, data)
    yield ("check", "echo.redn"), answer(0, printed=ECHO_TEXT)
    yield ("compile", "echo.redn", "o.img"), answer(0)
    yield ("go", "echo.redn", "o.img", "--fair", "1000", KEY), answer(0, printed=ECHO_RUN)
    yield ("run", "an.img", "--schedule", "a.steps"), answer(0, printed=STEPS_RUN)
    yield (), answer(2)
    yield ("check",), answer(2)
    yield ("check", "at.redn"), answer(6, "redn: text refused: byte 0")
    yield ("check", "round.redn"), answer(7, "redn: program refused: rule 7 at byte 10")
    yield ("disasm", "an.lst"), answer(8, "redn: image refused: magic")
    yield ("disasm", "short.img"), answer(8, "redn: image refused: short 32")
    yield ("run", "an.img", "--schedule", "bad.steps"), answer(10, "redn: schedule refused: line 1")
    yield ("run", "an.img", "--schedule", "early.steps"), answer(11, "redn: step not possible: line 1")
    yield ("run", "an.img", "--schedule", "again.steps"), answer(11, "redn: step not possible: line 7", "reply 0 7\n")
    yield ("go", "echo.redn", "o.img", "--fair", "10", "0=2a"), answer(12, "redn: message refused: chain 0 has 1 bytes, wants 8")
    yield ("check", "nosuch"), answer(16)


def statuses(room):
    path = room.fresh()
    for words, wanted in table(room, path):
        yield " ".join(words) or "no words", wanted, room.ran(path, *words)
        unheard = wanted._replace(line="")
        with open("/dev/full", "wb") as full:
            done = room.ran(path, *words, err=full)
        yield f"{' '.join(words) or 'no words'}, and standard error takes nothing", unheard, done
    done = room.under(["sh", "-c", 'exec "$@" 2>&-', "sh"], path, "check", "nosuch")
    yield "check nosuch, and standard error is closed", answer(16, ""), done
    room.put(path, "large.lst", f"redn 1\nmemory {ALL_MEMORY}\nreceive 0 0 0\nend\n".encode())
    done = room.ran(path, "assemble", "large.lst", "large.img", memory=2 * ALL_MEMORY)
    yield "assemble of an image for which memory is wanting", answer(9), done


def names(room):
    for name in NAMES:
        path = room.fresh()
        room.put(path, name, ECHO.encode())
        yield f"check {name!r}", answer(0, printed=ECHO_TEXT), room.ran(path, "check", name)
        os.remove(os.path.join(path, name))
        before = held(path)
        done = room.ran(path, "assemble", "an.lst", name)
        yield f"assemble an.lst {name!r}", (answer(0), [f"{name!r} has 336 bytes"]), (done, changed(before, held(path)))
    path = room.fresh()
    for words in (("check", ""), ("", "check"), ("check", "echo.redn", ""), ("check echo.redn",), ("check", "-x"), ("check", b"\xff"),
                  ("check", "echo.redn", "an.lst"), ("*",), ("check", "echo.redn", "\n"), ("check\n", "echo.redn")):
        yield f"words {words}", answer(2), room.ran(path, *words)
    yield "words ('check', 'echo.redn ')", answer(16), room.ran(path, "check", "echo.redn ")
    yield "words ('check', 'echo.redn an.lst')", answer(16), room.ran(path, "check", "echo.redn an.lst")


def calls(room):
    """Ways to call it."""
    path = room.fresh()
    os.symlink(room.program, os.path.join(path, "a link"))
    wanted = answer(0, printed=ECHO_TEXT)
    yield "called by a link", wanted, ran([os.path.join(path, "a link"), "check", "echo.redn"], path)
    near = os.path.relpath(room.program, os.path.realpath(path))
    yield "called by a path from here", wanted, ran([near, "check", "echo.redn"], path)
    yield "called with a search path for cd", wanted, ran(["env", "CDPATH=/:..", near, "check", "echo.redn"], path)
    yield "called without standard input", wanted, room.under(["sh", "-c", 'exec "$@" <&-', "sh"], path, "check", "echo.redn")
