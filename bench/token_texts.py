"""Texts that a tokenizer of Python may be slow on, of any size in bytes: each function gives a str of exactly `size`
ASCII characters. TEXTS names them all. As a program: token_texts.py NAME SIZE writes one, token_texts.py lists the names."""
import sys

MODULE = '''# a module of plain code
from typing import Iterable, Optional


class Account(Base, metaclass=Meta):
    """An account of one owner."""

    limit: int = 1_000

    def __init__(self, owner: str, amount: int = 0) -> None:
        self.owner = owner
        self.amount = amount
        self.log: list[tuple[str, int]] = []

    def deposit(self, amount: int, note: Optional[str] = None) -> int:
        if amount <= 0 or amount > self.limit:
            raise ValueError("amount out of range", amount)
        self.amount += amount
        self.log.append((note or "deposit", amount))
        return self.amount

    def totals(self, rows: Iterable[tuple[str, int]]) -> dict[str, int]:
        found: dict[str, int] = {}
        for name, value in rows:  # sums by name
            found[name] = found.get(name, 0) + value * 2 - 1
        return {name: value for name, value in found.items() if value != 0}


def main(argv: list[str]) -> int:
    accounts = [Account(f"owner {i}", i * 10) for i in range(len(argv))]
    while accounts and not accounts[-1].amount:
        accounts.pop()
    for account in accounts:
        print(account.owner, account.amount, 3.5e-2 * account.amount)
    return 0


'''


def filled(piece, size, end=""):
    """The piece, repeated and cut to the size, with the end as its last characters."""
    room = size - len(end)
    return (piece * (room // len(piece) + 1))[:room] + end


def ordinary_code(size):
    """A module of classes and functions, again and again, cut at a line end and filled up with a comment."""
    whole = MODULE * (size // len(MODULE))
    rest = size - len(whole)
    return whole + ("" if rest == 0 else "#" * (rest - 1) + "\n")


def one_name(size):
    return filled("n", size)


def digits(size):
    """One line, one number."""
    return filled("7", size)


def zeros_then_digits(size):
    """A zero and digits that only a point would make a number, line by line."""
    return filled("0" * 40 + "1" * 40 + "\n", size)


def led_digits(size):
    """One zero, and digits to the end of the text."""
    return filled("1", size).replace("1", "0", 1)


def joined_digits(size):
    return filled("1_", size)


def double_quotes(size):
    """Triple quotes, opened and closed without end."""
    return filled('"', size)


def single_quotes(size):
    """Empty strings, one behind the other."""
    return filled("'' ", size)


def unclosed_quotes(size):
    """A string that doesn't close in each line."""
    return filled("x = 'abc\n", size)


def unclosed_triple(size):
    """A triple quote that doesn't close, and quotes inside."""
    return filled("a''b ", size).replace("a''", "'''", 1)


def mixed_quotes(size):
    return filled("'\"\n", size)


def open_brackets(size):
    return filled("(", size)


def open_brackets_by_line(size):
    """Two brackets open in each line; the 65th is too deep, and then it begins anew."""
    return filled("([\n", size)


def brackets(size):
    return filled("([{}]) ", size)


def backslashes(size):
    return filled("\\", size)


def backslashes_by_line(size):
    """Lines that a backslash joins, without end."""
    return filled("\\\n", size)


def escaped_quotes(size):
    """One string of backslashes that isn't closed."""
    return filled("\\'", size).replace("\\'", "''", 1).replace("''", " '", 1)


def f_braces(size):
    """An f-string of doubled braces."""
    return "f'" + filled("{", size - 2)


def f_fields(size):
    """An f-string of fields, one behind the other."""
    return "f'" + filled("{x}", size - 2)


def f_formats(size):
    return "f'" + filled("{x:{y}>{z}}", size - 2)


def f_nested(size):
    """F-strings inside fields, without end."""
    return filled("f'{", size)


def f_nested_by_line(size):
    """The same in triple quotes, a level a line, so that the 65th is too deep again and again."""
    return filled("f'''{\n", size)


def f_lone_quotes(size):
    """A triple-quoted f-string with pairs of its own quote."""
    return "f'''" + filled("''a", size - 4)


def closing_braces(size):
    return "f'" + filled("}", size - 2)


def blanks(size):
    return filled(" ", size)


def blank_lines(size):
    return filled("\n", size)


def returns(size):
    return filled("\r", size)


def comments(size):
    return filled("# no token\n", size)


def semicolons(size):
    return filled(";", size)


def dots(size):
    return filled(".", size)


def staircase(size):
    """Lines one column further to the right each, and then all blocks at once closed, again and again."""
    lines, at, column = [], 0, 0
    while at < size:
        line = " " * column + "a\n"
        lines.append(line)
        at += len(line)
        column = 0 if column == 900 else column + 1
    return "".join(lines)[:size]


def bad_characters(size):
    return filled("$\n", size)


TEXTS = {f.__name__: f for f in (
    ordinary_code, one_name, digits, zeros_then_digits, led_digits, joined_digits, double_quotes, single_quotes,
    unclosed_quotes, unclosed_triple, mixed_quotes, open_brackets, open_brackets_by_line, brackets, backslashes,
    backslashes_by_line, escaped_quotes, f_braces, f_fields, f_formats, f_nested, f_nested_by_line, f_lone_quotes,
    closing_braces, blanks, blank_lines, returns, comments, semicolons, dots, staircase, bad_characters)}


if __name__ == "__main__":
    if len(sys.argv) == 3:
        sys.stdout.write(TEXTS[sys.argv[1]](int(sys.argv[2])))
    else:
        print("\n".join(TEXTS))
