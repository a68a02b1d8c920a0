"""Texts that the layers behind tokens may be slow on. Each function gives a text of about so much of what its name says."""
import string

import token_texts

LETTERS = string.ascii_lowercase


def short_name(number):
    """A name of four letters, each number another; none is a keyword with a capital in front."""
    letters = ""
    for _ in range(4):
        letters += LETTERS[number % 26]
        number //= 26
    return "N" + letters[1:] + letters[0]


# Lines that are expressions, each alone in its text; by tokens.


def list_line(tokens):
    return "[" + "a," * (tokens // 2 - 1) + "]\n"


def entries_line(tokens):
    return "a," * (tokens // 2) + "\n"


def sum_line(tokens):
    """Above 256 parts a sum has no tree, since it leans to the left: what is timed is the refusal."""
    return "a" + "+a" * ((tokens - 1) // 2) + "\n"


def comparison_line(tokens):
    return "a" + "<a" * ((tokens - 1) // 2) + "\n"


def dict_line(tokens):
    return "{" + "a:1," * (tokens // 4 - 1) + "}\n"


def call_line(tokens):
    """Half of the arguments by keyword."""
    each = tokens // 6
    return "f(" + "a," * each + "a=1," * each + ")\n"


def field_line(tokens):
    return "f'" + "{a}" * (tokens // 3) + "'\n"


def names_line(tokens):
    """All names differ."""
    return "[" + ",".join(short_name(at) for at in range(tokens // 2)) + "]\n"


# Texts that are modules.


def ordinary_code(size):
    return token_texts.ordinary_code(size)


def one_block(size):
    """One block of lines, in bytes."""
    line = "    x = a + 1\n"
    return "def f():\n" + line * ((size - 9) // len(line))


def semicolons(size):
    """One line of statements, in bytes."""
    return "a;" * (size // 2 - 1) + "a\n"


def closed_blocks(count):
    """Blocks that are opened in one another and closed again."""
    return "if a:\n if b:\n  c\n" * (count // 2)


def clauses(count):
    """Blocks with clauses of all kinds."""
    return "try:\n if a:\n  b\n else:\n  c\nexcept A:\n d\nfinally:\n e\n" * (count // 5)


def one_long_chain(count):
    """One `if` with so many `elif`."""
    return "if a:\n b\n" + "elif a:\n b\n" * count


def one_long_try(count):
    """One `try` with so many handlers."""
    return "try:\n b\n" + "except A:\n b\n" * count


def cases(count):
    """Matches of four cases each."""
    return "match a:\n case 1:\n  b\n case 2:\n  b\n case 3:\n  b\n case _:\n  b\n" * (count // 4)


def nonlocals(count):
    """Defs with a nonlocal name in a def inside."""
    return "def f():\n x = 1\n def g():\n  nonlocal x\n  x = 2\n" * count


# Modules with faulty lines, so many of them.


def faulty_lines(count):
    """Every second line has no tree."""
    return "a\n= =\n" * count


def faulty_headers(count):
    """Headers without a tree, each over a block that is passed over."""
    return "while a = 1:\n b\n if c:\n  d\n" * count


def faulty_lines_between_clauses(count):
    """One `try`, and a line without a tree before each handler."""
    return "try:\n b\n" + "= =\nexcept A:\n b\n" * count


def tries_without_clauses(count):
    return "try:\n a\n" * count


def faulty_columns(count):
    """Lines without a tree at columns that rise and fall."""
    return "".join(" " * (at * 7 % 20) + "= =\n" for at in range(count))


def faulty_lines_in_blocks(count):
    """Blocks in one another, the inner one without a line that has a tree."""
    return "if a:\n if b:\n  = =\n else:\n  c\n" * count


# Modules of many names or scopes.


def names_in_one_scope(count):
    """So many names, bound in lines of a hundred, each used once."""
    lines = []
    for start in range(0, count, 100):
        names = ",".join(short_name(at) for at in range(start, start + 100))
        lines.append(f"[{names}]=x\n")
    return "".join(lines)


def sibling_scopes(count):
    return "def f(a):\n b = a\n return b\n" * count


def nested_scopes(count):
    """Defs nested 50 deep, again and again."""
    one = "".join(" " * depth + f"def f(a):\n{' ' * depth} b = a\n" for depth in range(50))
    return one * (count // 50)


# Modules that flow.


def statements(count):
    return "x = f\n" * count


def calls_under_handlers(count):
    """So many calls in one `try` with 20 handlers."""
    return "try:\n" + " f()\n" * count + "except A:\n b\n" * 20


def ifs(count):
    """Pairs of `if`, one in the other."""
    return closed_blocks(count)


def comprehension(count):
    """One comprehension of so many clauses."""
    return "[a" + " for a in b if c" * count + "]\n"
