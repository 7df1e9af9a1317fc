"""Times 10,000 edits of 10 MB: by a Cord, and by bytes, of which 200 are timed.

    edits.py
"""
import random
import time

from zomtsje import Cord


def seconds(call):
    begin = time.perf_counter()
    call()
    return time.perf_counter() - begin


def by_cord(text, edits):
    for place, word in edits:
        text = text.replace_range(place, place + 5, word)


def by_bytes(text, edits):
    for place, word in edits:
        text = text[:place] + word + text[place + 5 :]


def main():
    rng = random.Random(1)
    text = bytes(10_000_000)
    edits = [(rng.randrange(9_900_000), b"edit %d" % number) for number in range(10_000)]
    cord, plain = seconds(lambda: by_cord(Cord(text), edits)), seconds(lambda: by_bytes(text, edits[:200])) * 50
    print(f"10,000 edits of 10 MB: Cord {cord:.2f} s, bytes {plain:.0f} s, {plain / cord:.0f} times as long")


if __name__ == "__main__":
    main()
