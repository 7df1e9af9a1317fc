"""Finds a word in a log, which is opened lazily: the place and the text of each line that has it.

    indexer.py LOG WORD
"""
import os
import sys

from zomtsje import Cord


def main():
    if len(sys.argv) != 3:
        sys.exit("usage: indexer.py LOG WORD")
    log, word = Cord.lazy(sys.argv[1]), os.fsencode(sys.argv[2])
    end = lines = 0
    while (place := log.find(word, end)) >= 0:
        begin = log.rfind(10, place) + 1
        end = log.find(b"\n", place)
        end = len(log) if end < 0 else end
        sys.stdout.buffer.write(b"%d %s\n" % (begin, bytes(log[begin:end])))
        lines += 1
    sys.stdout.buffer.write(b"%d lines\n" % lines)


if __name__ == "__main__":
    main()
