"""The words of the program: which files a command reads and writes, and what of its form words don't meet."""
import re
from collections import namedtuple

# What stands behind a verb, which of it is read and which written, and whether it makes steps.
Verb = namedtuple("Verb", "positions reads writes runs")
VERBS = {
    "check": Verb(("FILE",), ("FILE",), (), False),
    "compile": Verb(("FILE", "IMAGE"), ("FILE",), ("IMAGE",), False),
    "run": Verb(("IMAGE",), ("IMAGE",), (), True),
    "go": Verb(("FILE", "IMAGE"), ("FILE",), ("IMAGE",), True),
    "disasm": Verb(("IMAGE",), ("IMAGE",), (), False),
    "assemble": Verb(("LISTING", "IMAGE"), ("LISTING",), ("IMAGE",), False),
    "gen": Verb(("NUMBER", "IMAGE"), (), ("IMAGE",), False),
}
OPTIONS = {"--schedule": "F", "--fair": "N", "--shuffle": "S", "--steps": "N", "--record": "R"}
PLAN = "--schedule F, or --fair N, or --shuffle S --steps N; with the last two perhaps --record R"
MAX_STEPS, MAX_RECORDED, MOST_CHAIN, MOST_WORD = 4_000_000, 500_000, 2**32 - 1, 2**64 - 1


def form(verb):
    """A verb's words, as lines."""
    given = VERBS[verb]
    line = f"redn {verb} {' '.join(given.positions)}"
    return [f"{line} PLAN [C=HEX ..]", f"PLAN is {PLAN}"] if given.runs else [line]


class Line:
    """Words behind a verb as options, positions and messages, as far as they are right; and the first thing that is wrong."""

    def __init__(self, words):
        self.options, self.positions, self.wrong = {}, [], None
        words = iter(words)
        for word in words:
            if word in OPTIONS:
                self.take(word, next(words, None))
            elif word == "":
                self.say("a word is empty")
            elif word.startswith("-"):
                self.say(unknown(word))
            else:
                self.positions.append(word)

    def say(self, wrong):
        self.wrong = self.wrong or wrong

    def take(self, option, value):
        if value is None:
            self.say(f"{option} has no value behind it")
        elif value == "" or value.startswith("-"):
            self.say(f"the value of {option} is {value!r}: it may not be empty, nor begin with -")
        elif option in self.options:
            self.say(f"{option} stands twice")
        else:
            self.options[option] = value


def unknown(word):
    name, equals, value = word.partition("=")
    if name in OPTIONS and equals:
        return f"{word}: the value is a word of its own, as in {name} {value or OPTIONS[name]}"
    return f"{word} is none of the options {' '.join(OPTIONS)}, and no name begins with -"


def wrong_number(what, word, most):
    """What is wrong with a decimal number, or None."""
    if not re.fullmatch(r"[0-9]+", word, re.ASCII):
        return f"{what} is {word!r}, and a number has decimal digits alone"
    if len(word) > 1 and word[0] == "0":
        return f"{what} is {word}, and a number has no leading zero"
    return f"{what} is {word}, and may be {most:,} at most" if int(word) > most else None


def wrong_plan(options):
    """What is wrong with the options of a run, or None."""
    plans = [it for it in ("--schedule", "--fair", "--shuffle") if it in options]
    if not plans:
        return "PLAN is missing"
    if len(plans) > 1:
        return f"{' and '.join(plans)} don't go together"
    if "--record" in options and plans == ["--schedule"]:
        return "--record doesn't go with --schedule"
    if ("--steps" in options) != (plans == ["--shuffle"]):
        return "--shuffle and --steps go together, and with nothing else"
    most = MAX_RECORDED if "--record" in options else MAX_STEPS
    limits = {"--fair": most, "--steps": most, "--shuffle": MOST_WORD}
    found = (wrong_number(f"the value of {it}", options[it], limits[it]) for it in limits if it in options)
    return next(filter(None, found), None)


def wrong_message(word):
    """What is wrong with a word that should be a message, or None."""
    chain, equals, _ = word.partition("=")
    return wrong_number(f"the chain of {word}", chain, MOST_CHAIN) if equals else f"{word} is no message C=HEX, and no more names are wanted"


def wrong_words(words):
    """What the words of a command don't meet, or None where that isn't known."""
    for word in words:
        if word != word.encode("utf-8", "replace").decode():
            return f"{word!r} isn't UTF-8 text"
    if not words:
        return f"a verb is missing; the verbs are {' '.join(VERBS)}"
    if words[0] not in VERBS:
        return f"{words[0]} is none of the verbs {' '.join(VERBS)}"
    verb, line = VERBS[words[0]], Line(words[1:])
    many = len(verb.positions)
    if line.wrong:
        return line.wrong
    if len(line.positions) < many:
        return f"{verb.positions[len(line.positions)]} is missing"
    if not verb.runs and line.positions[many:]:
        return f"{line.positions[many]} is one word too many"
    if not verb.runs and line.options:
        return f"{words[0]} takes no option, and {next(iter(line.options))} stands there"
    if words[0] == "gen":
        return wrong_number("NUMBER", line.positions[0], MOST_CHAIN)
    messages = filter(None, map(wrong_message, line.positions[many:]))
    return next(messages, None) or (wrong_plan(line.options) if verb.runs else None)


def files(words):
    """The files that a command's words name, as pairs of what they are and their name: those read, in order, and those written."""
    verb, line = VERBS[words[0]], Line(words[1:])
    named = dict(zip(verb.positions, line.positions))
    reads = [(what, named[what]) for what in verb.reads]
    reads += [("the schedule", line.options["--schedule"])] if "--schedule" in line.options else []
    writes = [(what, named[what]) for what in verb.writes]
    writes += [("the record", line.options["--record"])] if "--record" in line.options else []
    return reads, writes


def messages(words):
    """The message words of a command."""
    return Line(words[1:]).positions[len(VERBS[words[0]].positions) :]
