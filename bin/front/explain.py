#!/usr/bin/env python3
"""Says more of a command of redn that didn't end well: bin/redn runs it behind the program's own line.

usage: explain.py STATUS LINE WORD ..      the exit code, the program's line, and the words of the command
       explain.py --help                   the forms of all commands

What it says goes to standard error, two spaces in front of each line. It reads the files that the words name, the rules from
docs/language.md and docs/formats.md, and of an image its listing.
"""
import os
import re
import subprocess
import sys

sys.dont_write_bytecode = True
from adapter import Image, Run
from words import MOST_WORD, VERBS, files, form, messages, wrong_words

TOP = os.path.dirname(os.path.dirname(os.path.dirname(os.path.realpath(__file__))))
WIDTH = 72  # of a line that is shown
MOST_REPLAYED = 200_000
LIMITS = {"FILE": 1_048_576, "IMAGE": 33_554_432, "LISTING": 268_435_456, "the schedule": 16_777_216}


def read(path):
    with open(path, "rb") as file:
        return file.read()


def doc(name):
    return read(os.path.join(TOP, "docs", name)).decode().splitlines()


def rule_of_language(number):
    """What a rule refuses, and which place is told, from the table of docs/language.md."""
    for line in doc("language.md"):
        cells = [it.strip() for it in line.strip().strip("|").split(" | ")]
        if cells[0] == str(number) and len(cells) == 3:
            return [f"rule {number} refuses {cells[1]}", f"the place is {cells[2]}"]
    return []


def rule_of_images(number):
    lines = doc("formats.md")
    begin = next(k for k, line in enumerate(lines) if line.startswith("## Images"))
    return next((f"rule {number} of images: {line.split('. ', 1)[1]}" for line in lines[begin:] if line.startswith(f"{number}. ")), "")


def shown(line, column):
    """A line of a file, cut where it is long, and a mark under a column, counted from 0."""
    begin = max(0, min(column - WIDTH // 2, len(line) - WIDTH))
    part = line[begin : begin + WIDTH].decode("utf-8", "replace").replace("\t", " ")
    before = line[begin:column].decode("utf-8", "replace")
    return [f"  {part}", f"  {' ' * len(before)}^"]


def place(path, at):
    """Line and column of a byte of a file, that line, and a mark under it."""
    data = read(path)
    if at >= len(data):
        return [f"{path} ends there, at byte {len(data)}"]
    begin = data.rfind(b"\n", 0, at) + 1
    end = (data.find(b"\n", at) + len(data) + 1) % (len(data) + 1)
    number = data.count(b"\n", 0, at) + 1
    return [f"{path}, line {number}, column {at - begin + 1}:", *shown(data[begin:end], at - begin)]


def what_stands(data, at):
    """What a text can't have at a byte."""
    if at >= len(data):
        return "a file can't end there"
    word, front = re.match(rb"[a-z_0-9]*|.", data[at : at + 64], re.S | re.I)[0], re.search(rb"[a-zA-Z_0-9]*\Z", data[:at])[0]
    if word and front:
        return "a letter stands right behind a number" if front[:1].isdigit() else "a name has 32 bytes at most"
    word = (word or data[at : at + 1]).decode("utf-8", "backslashreplace")
    if word[0] in "0123456789":
        return f"{word} can't stand there, or is above {MOST_WORD:,}"
    return f"{word} can't stand there"


def line_of(path, number):
    """A line of a file, counted from 1."""
    lines = read(path).split(b"\n")
    if lines[-1] == b"":
        lines.pop()
    if number > len(lines):
        return [f"{path} has {many(len(lines), 'line')}, and one more should stand there"]
    return [f"{path}, line {number}:", shown(lines[number - 1], 0)[0]]


def many(number, what):
    return f"{number:,} {what}" + "s" * (number != 1)


def numbers(line):
    return [int(it) for it in re.findall(r"[0-9]+", line)]


def of_words(line, words):
    lines = [wrong_words(words)]
    return [*lines, *(form(words[0]) if words and words[0] in VERBS else ["redn --help tells the forms of all commands"])]


def state_of(path):
    """What is the matter with a file that is to be read, as far as can be seen."""
    if not os.path.lexists(path):
        return "isn't there"
    if os.path.isdir(path):
        return "is a directory"
    return "is there" if os.access(path, os.R_OK) else "may not be read"


def of_reads(line, words):
    return [f"{what}, {path}, {state_of(path)}" for what, path in files(words)[0]]


def of_writes(line, words):
    written = files(words)[1]
    wrong = [f"{what}, {path}, is a directory" for what, path in written if os.path.isdir(path)]
    wrong += [f"{what}, {path}, has no directory" for what, path in written if not os.path.isdir(os.path.dirname(path) or ".")]
    return wrong or [*(f"{what} is written to {path}" for what, path in written), "what is printed goes to standard output"]


def size_of(what, path):
    return f"{what}, {path}, has {many(os.path.getsize(path), 'byte')}"


def of_length(line, words):
    reads = [(what, path) for what, path in files(words)[0] if os.path.isfile(path)]
    return [size_of(what, path) for what, path in reads if os.path.getsize(path) > LIMITS[what]]


def of_text(line, words):
    path, number = files(words)[0][0][1], numbers(line)[-1]
    if "line" in line.split(":")[-1]:
        return [*line_of(path, number), "docs/formats.md tells which line of a listing may come next"]
    why = "the brace there opens a 65th nested block" if "nesting" in line else what_stands(read(path), number)
    return [*place(path, number), why]


def of_program(line, words):
    rule, at = numbers(line)
    return [*place(files(words)[0][0][1], at), *rule_of_language(rule)]


def of_image(line, words):
    what, path = files(words)[0][0]
    if "rule" in line:
        rule, row = numbers(line)
        return [rule_of_images(rule), f"the row of number {row}, counted from 0, is the first that breaks it"]
    if "version" in line:
        return [f"{what}, {path}, is of another version than 1"]
    if not read(path).startswith(b"REDN"):
        return [f"{size_of(what, path)} and doesn't begin with REDN", "compile and assemble make images"]
    return [f"{size_of(what, path)}; " + (f"{numbers(line)[0]:,} are needed" if "short" in line else "its header announces fewer")]


def of_schedule(line, words):
    path = dict(files(words)[0])["the schedule"]
    return [*line_of(path, numbers(line)[0]), "a line is `d C`, `f Q I`, `s Q`, `l Q I` or `c Q`, is empty, or begins with #"]


def image_named(words):
    reads, writes = files(words)
    return dict(reads + writes)["IMAGE"]


def listing(words):
    done = subprocess.run([os.path.join(TOP, "bin", "redn"), "disasm", image_named(words)], capture_output=True, text=True)
    return done.stdout.splitlines() if done.returncode == 0 else None


def given(words):
    """The message of each chain that gets one."""
    pairs = (word.split("=", 1) for word in messages(words))
    return {int(chain): bytes.fromhex(hexes) for chain, hexes in pairs}


def of_step(line, words):
    """The line, and which condition of its action fails."""
    path, number = dict(files(words)[0])["the schedule"], numbers(line)[0]
    lines, rows = line_of(path, number), listing(words)
    if number > MOST_REPLAYED or rows is None:
        return lines
    run, actions = Run(Image(rows), given(words)), read(path).decode().split("\n")
    for action in actions[: number - 1]:
        if action and not action.startswith("#"):
            run.make(action)
    return [*lines, run.why_not(actions[number - 1]) or "why isn't known"]


def of_message(line, words):
    chain, rows = numbers(line)[0], listing(words)
    places = [row.split(" ") for row in rows or [] if row.startswith("receive ")]
    if "no chain" in line:
        return [f"{image_named(words)} has {many(len(places), 'chain')}, counted from 0"]
    if "wants" in line:
        want = numbers(line)[2]
        return [f"the message of chain {chain} has {2 * want} digits: 16 for each word", *declared(words, chain)]
    word = [word for word in messages(words) if word.split("=", 1)[0] == str(chain)]
    return [f"{' and '.join(word)}: " + ("a chain gets one message" if "twice" in line else "a byte is two hexadecimal digits")]


def declared(words, chain):
    """The arguments of a chain in the source, where the command has one."""
    if words[0] != "go":
        return []
    chains = re.sub(rb"#[^\n]*", b"", read(files(words)[0][0][1])).split(b"chain ")[1:]
    names = [name.decode() for name in re.findall(rb"\barg\s+(\w+)", chains[chain])]
    return [f"its arguments are {', '.join(names)}"] if names else ["it has no arguments"]


# What is said for each exit code.
TABLE = {2: of_words, 3: of_reads, 4: of_writes, 5: of_length, 6: of_text, 7: of_program, 8: of_image, 10: of_schedule, 11: of_step,
         12: of_message, 16: of_reads}


def printable(line):
    """A line in which what a name has of other characters is spelled."""
    return "".join(it if it.isprintable() else repr(it)[1:-1] for it in line)


def help_lines():
    begin = ["redn compiles chains of RDMA requests and runs their images in any order of an adapter's steps.", ""]
    forms = [line for verb in VERBS for line in form(verb)[:1]]
    return [*begin, *forms, "", form("run")[1], "FILE is a source, C=HEX the message of chain C; docs/formats.md tells all of it",
            "redn-look, redn-picture and redn-schedule stand beside redn"]


def main(words):
    if words == ["--help"]:
        return print("\n".join(help_lines()))
    status, line, *rest = words
    # An explanation that fails says nothing: the program's own line stands, and its exit code.
    try:
        lines = TABLE[int(status)](line, rest) if int(status) in TABLE else []
        sys.stderr.write("".join(f"  {printable(it)}\n" for it in lines if it))
    except (OSError, ValueError, LookupError, StopIteration):
        pass


if __name__ == "__main__":
    main(sys.argv[1:])
