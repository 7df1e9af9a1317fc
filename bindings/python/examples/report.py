"""Makes a report of a file of lines NAME NUMBER: a table with the total in front.

    report.py FILE
"""
import sys

from zomtsje import Builder, Cord


def row(name, value):
    return f"{name:<12}|{value:>8}\n".encode()


def main():
    if len(sys.argv) != 2:
        sys.exit("usage: report.py FILE")
    rows, total = Builder(), 0
    for line in Cord.from_file(sys.argv[1]).splitlines():
        name, number = line.split(b" ", 1)
        rows += row(name.decode(), int(bytes(number)))
        total += int(bytes(number))
    (row("total", total) + rows.cord()).write_to(sys.stdout.buffer)


if __name__ == "__main__":
    main()
