"""The plan of a script and its text (docs/PLANNER.md), from the paths of its lines."""
from dataclasses import dataclass

from running import blocks_of

MOST_PARTS = 64
MAKERS = ("let", "file", "eager", "lazy", "fn", "balance", "sprintf", "ectocord")
BLOCK_WORDS = ("repeat", "if", "else", "end")


@dataclass(frozen=True)
class Name:
    name: str


@dataclass(frozen=True)
class Operand:
    """The name of a cord operand of the line itself, which may still be replaced."""

    name: str


@dataclass(frozen=True)
class Run:
    byte: object
    count: object


@dataclass(frozen=True)
class Sub:
    whole: object
    start: object
    count: object


@dataclass(frozen=True)
class Cat:
    members: tuple


def defining_expression(statement):
    """The defining expression of a simple statement, or None."""
    word, values = statement.word, statement.values
    if word in ("cat", "catn"):
        return Cat(tuple(map(Operand, values[1:])))
    if word == "catc":
        return Cat((Operand(values[1]), Run(values[2], 1)))
    if word == "chars":
        return Run(values[1], values[2])
    if word == "nul":
        return Run(0, values[1])
    if word == "substr":
        return Sub(Operand(values[1]), values[2], values[3])
    return Operand(values[0]) if word == "put" else None


def parts(expression):
    if isinstance(expression, Cat):
        return sum(map(parts, expression.members))
    return 1 + parts(expression.whole) if isinstance(expression, Sub) else 1


def names(expression):
    """The names of cords and of numbers in an expression."""
    if isinstance(expression, Cat):
        return set().union(*map(names, expression.members))
    if isinstance(expression, Run):
        return {operand for operand in (expression.byte, expression.count) if isinstance(operand, str)}
    if isinstance(expression, Sub):
        return names(expression.whole) | {it for it in (expression.start, expression.count) if isinstance(it, str)}
    return {expression.name}


def mapped(expression, change):
    """The expression with each operand changed, and no cat in a cat."""
    if isinstance(expression, Operand):
        return change(expression)
    if isinstance(expression, Sub):
        return Sub(mapped(expression.whole, change), expression.start, expression.count)
    if not isinstance(expression, Cat):
        return expression
    members = [mapped(member, change) for member in expression.members]
    return Cat(tuple(it for member in members for it in (member.members if isinstance(member, Cat) else (member,))))


def next_places(statements):
    """For each place the places that may come next, whatever counts and conditions say."""
    blocks, after = blocks_of(statements), []
    for place, statement in enumerate(statements):
        following = {place + 1}
        if statement.word == "repeat":
            following.add(blocks[place].end + 1)
        elif statement.word == "end" and statements[blocks[place].begin].word == "repeat":
            following.add(blocks[place].begin + 1)
        elif statement.word == "if":
            middle = blocks[place].middle
            following.add(blocks[place].end if middle is None else middle + 1)
        elif statement.word == "else":
            following = {blocks[place].end}
        after.append({it for it in following if it < len(statements)})
    return after


def reads(statement):
    return [] if statement.word == "len" else statement.cords()


def is_not_live(name, place, statements, after):
    """Whether no path that begins after place comes to a reading of name before an assignment of it."""
    seen, waiting = set(), list(after[place])
    while waiting:
        here = waiting.pop()
        if here in seen:
            continue
        seen.add(here)
        if name in reads(statements[here]):
            return False
        if statements[here].target() != name:
            waiting += after[here]
    return True


def earlier_of(name, place, statements, after, expressions):
    """The place whose expression may stand for the operand at place, or None."""
    statement = statements[place]
    assigned = [it for it in range(place) if statements[it].target() == name]
    if not assigned or assigned[-1] not in expressions or statement.cords().count(name) != 1:
        return None
    earlier, between = assigned[-1], statements[assigned[-1] + 1 : place]
    if any(line.word in BLOCK_WORDS or name in reads(line) for line in between):
        return None
    if statement.target() != name and not is_not_live(name, place, statements, after):
        return None
    changed = {line.target() for line in between} | {name}
    return None if names(expressions[earlier]) & changed else earlier


def replaced(place, statements, after, expressions, measured):
    """The expression of a simple line; each line that is put in the place of its name is measured."""
    expression = defining_expression(statements[place])
    for name in statements[place].cords():
        earlier = earlier_of(name, place, statements, after, expressions)
        if earlier is None:
            continue
        longer = mapped(expression, lambda it: expressions[earlier] if it.name == name else it)
        if parts(longer) <= MOST_PARTS:
            expression = longer
            measured.add(earlier)
    return mapped(expression, lambda it: Name(it.name))


def printed_path(path):
    return "".join(chr(byte) if 32 <= byte <= 126 and byte not in b'"\\' else f"\\x{byte:02x}" for byte in path)


def printed_expression(expression):
    if isinstance(expression, Run):
        return f"run({expression.byte} {expression.count})"
    if isinstance(expression, Sub):
        return f"sub({printed_expression(expression.whole)} {expression.start} {expression.count})"
    if isinstance(expression, Cat):
        return f"cat({' '.join(map(printed_expression, expression.members))})"
    return expression.name


def printed_maker(statement):
    """What a statement makes that is no simple one."""
    word, values = statement.word, statement.values
    if word == "let":
        return f"literal({len(values[1])})"
    if word in ("file", "eager", "lazy"):
        return f'{word}("{printed_path(values[1])}")'
    if word == "sprintf":
        return f"sprintf({' '.join(map(str, [len(values[1]), *values[2:]]))})"
    return f"{word}({' '.join(map(str, values[1:]))})"


def printed_kept(statement):
    """A statement that is kept as it is."""
    word, values = statement.word, statement.values
    if word in BLOCK_WORDS:
        return " ".join(map(str, [word, *values]))
    if word == "ecinit":
        return f"ec {values[0]} init"
    if word == "ecstr":
        return f"ec {values[0]} bytes({len(values[1])})"
    if word in ("ecput", "eccat"):
        return f"ec {values[0]} {'byte' if word == 'ecput' else 'cord'}({values[1]})"
    return f"number {values[0]} {word}({' '.join(map(str, values[1:]))})"


def printed(statements, expressions, measured):
    """The text of the plan with these expressions of simple lines, of which some places are only measured."""
    lines = []
    for place, statement in enumerate(statements):
        if statement.word == "put":
            text = f"write {printed_expression(expressions[place])}"
        elif place in expressions or statement.word in MAKERS:
            made = printed_expression(expressions[place]) if place in expressions else printed_maker(statement)
            text = f"{'measure' if place in measured else 'build'} {statement.target()} {made}"
        else:
            text = printed_kept(statement)
        lines.append(f"{statement.line} {text}\n")
    return "".join(lines).encode()


def printed_trivial(statements):
    own = {place: defining_expression(statement) for place, statement in enumerate(statements)}
    return printed(statements, {place: it for place, it in own.items() if it is not None}, set())


def printed_plan(statements):
    after, expressions, measured = next_places(statements), {}, set()
    for place, statement in enumerate(statements):
        if defining_expression(statement) is not None:
            expressions[place] = replaced(place, statements, after, expressions, measured)
        if statement.target() is not None and is_not_live(statement.target(), place, statements, after):
            measured.add(place)
    return printed(statements, expressions, measured)
