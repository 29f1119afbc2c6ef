"""What the scripts of this folder share: statuses, kana, and data sets by their manifests (docs/FORMATS.md)."""

import pathlib
import sys

WRONG = 1
MISSING = 3
MOST_KEY_CHARACTERS = 256
CLASSES = {
    "HIRAGANA": [(0x3041, 0x3096)],
    "KATAKANA": [(0x30A1, 0x30FA), (0x30FC, 0x30FC)],
    "DIGIT": [(0x30, 0x39), (0xFF10, 0xFF19)],
    "LETTER": [(0x41, 0x5A), (0x61, 0x7A), (0xFF21, 0xFF3A), (0xFF41, 0xFF5A)],
}
OTHER = "OTHER"
RUNS = ("KATAKANA", "DIGIT", "LETTER")


def say(text):
    """Tells on standard error what is being done."""
    print(f"{pathlib.Path(sys.argv[0]).name}: {text}", file=sys.stderr, flush=True)


def stop(why, status=WRONG):
    """Ends the run with this status."""
    say(why)
    sys.exit(status)


def need(path, package):
    """Returns the path, or ends the run with the status for a missing package."""
    if not pathlib.Path(path).exists():
        stop(f"{path} is missing: install the package {package}", MISSING)
    return pathlib.Path(path)


def hiragana(text):
    """Returns the text with hiragana in place of katakana, as readings of dictionaries have them."""
    return "".join(chr(ord(it) - 0x60) if 0x30A1 <= ord(it) <= 0x30F6 else it for it in text)


def class_of(character):
    """Returns the name of the character's class."""
    code = ord(character)
    for name, ranges in CLASSES.items():
        if any(first <= code <= last for first, last in ranges):
            return name
    return OTHER


def has_run(key):
    """Returns whether two characters of one class that makes runs stand side by side."""
    names = [class_of(it) for it in key]
    return any(left == right and left in RUNS for left, right in zip(names, names[1:]))


def lines_of(path):
    """Yields the number and the text of each line of a file, as the program cuts it."""
    data = pathlib.Path(path).read_bytes().removeprefix(b"\xef\xbb\xbf")
    for number, line in enumerate(data.removesuffix(b"\n").split(b"\n"), 1):
        yield number, line.removesuffix(b"\r").decode()


def files_of(manifest, name):
    """Returns the name of the set, the manifest's first where none is given, and the paths of its files by role."""
    roles = {}
    for _, line in lines_of(manifest):
        fields = line.split("\t")
        if fields[0] == "DATASET" and name is None:
            name = fields[1]
        if fields[0] == "FILE" and fields[1] == name:
            roles.setdefault(fields[2], []).append(manifest.parent / fields[3])
    if not roles:
        stop(f"{manifest} has no set {name}")
    return name, roles


def keys_of(path):
    """Returns the keys of a file, one a line."""
    return [line for _, line in lines_of(path) if line]
