"""The core of an editor that keeps every version of a file, which is opened lazily.

    editor.py FILE < COMMANDS

A command a line: 'i PLACE TEXT' inserts, 'd PLACE COUNT' deletes, 'f TEXT' tells where the text stands first, 'u' takes the
last change back, 'w PLACE' shows the lines around a place, 's PATH' saves under another name.
"""
import re
import sys

from zomtsje import Cord


def window(text, place):
    """The line of the place, with the one before and the one after."""
    start, end = text.rfind(ord("\n"), place) + 1, place
    start = text.rfind(ord("\n"), max(start - 1, 0)) + 1
    for _ in range(2):
        end = text.find(b"\n", end) + 1 or len(text)
    return text[start:end]


def run(versions, command):
    now = versions[-1]
    if found := re.fullmatch(rb"i (\d+) (.+)", command):
        versions.append(now.insert(min(int(found[1]), len(now)), found[2]))
    elif found := re.fullmatch(rb"d (\d+) (\d+)", command):
        start = min(int(found[1]), len(now))
        versions.append(now.remove(start, min(start + int(found[2]), len(now))))
    elif command.startswith(b"f "):
        place = now.find(command[2:])
        print("not found" if place < 0 else place)
    elif found := re.fullmatch(rb"w (\d+)", command):
        sys.stdout.flush()
        window(now, min(int(found[1]), len(now))).write_to(sys.stdout.buffer)
    elif command.startswith(b"s "):
        with open(command[2:], "wb") as file:
            now.write_to(file)
    elif command == b"u" and len(versions) > 1:
        versions.pop()
    else:
        print("?")


def main():
    if len(sys.argv) != 2:
        sys.exit("usage: editor.py FILE")
    versions = [Cord.lazy(sys.argv[1])]
    for line in sys.stdin.buffer:
        run(versions, line.rstrip(b"\n"))


if __name__ == "__main__":
    main()
