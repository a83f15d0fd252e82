"""What the scripts of bench/ share: where things stand, and how the program and the plain emulator are run."""
import glob
import os
import subprocess

TOP = os.path.dirname(os.path.dirname(os.path.abspath(__file__)))
REDN = os.path.join(TOP, "bin", "redn")
BUILT = os.path.join(TOP, "crates", "redn_cli", "out", "redn_cli")
MAKER = os.path.join(TOP, "bin", "redn-schedule")
PICTURE = os.path.join(TOP, "bin", "redn-picture")
PLAIN = os.path.join(TOP, "bench", "plain_emulator.rs")
SOURCES = sorted(glob.glob(os.path.join(TOP, "examples", "*.redn")))
LISTINGS = sorted(glob.glob(os.path.join(TOP, "examples", "*.lst")))
HEADER, ROW, RECEIVE = 32, 32, 16


def ran(*words):
    """What a command printed, told, and ended with."""
    return subprocess.run(words, stdout=subprocess.PIPE, stderr=subprocess.PIPE, text=True)


def output(*words):
    """What a command prints that has to succeed."""
    done = ran(*words)
    if done.returncode != 0:
        raise SystemExit(f"{' '.join(words)}: {done.stderr.strip()}")
    return done.stdout


def built_plain(room):
    """The path of the plain emulator, which rustc builds in a directory."""
    path = os.path.join(room, "plain_emulator")
    output("rustc", "--edition", "2021", "-O", "-o", path, PLAIN)
    return path


def image_of(path, image):
    """Makes the image of a source file or of a listing."""
    output(REDN, "assemble" if path.endswith(".lst") else "compile", path, image)


def message_lengths(image):
    """Of each chain of an image's file, how many bytes its message has."""
    with open(image, "rb") as file:
        data = file.read()
    regions, queues, chains = (int.from_bytes(data[at : at + 4], "big") for at in (8, 12, 16))
    places = [HEADER + ROW * (regions + queues) + RECEIVE * chain + 8 for chain in range(chains)]
    return [int.from_bytes(data[at : at + 8], "big") for at in places]


def message(chain, *words):
    """A word of a command that gives a chain a message."""
    return f"{chain}=" + "".join(f"{word:016x}" for word in words)
