"""What the scripts expected-* share: records in bytes, the lines of a list of cases, outside vectors, and how what was made is laid down.

A script's own rules, its cases and what a program prints of them, stand in the script; what the documents say stands in document01.py.
"""
import functools
import pathlib
import struct
import sys

ROOT = pathlib.Path(__file__).resolve().parent.parent
VECTORS = ROOT / "tools" / "vectors"


# ---- records in bytes


def record(kind, body, length=None):
    """Its head may tell another length than the body has."""
    return struct.pack("<HH", len(body) if length is None else length, kind) + body


def begun(kind, length, *body):
    """The beginning of a record: its length says more than there is."""
    return record(kind, bytes(body), length)


def records_of(data):
    """Records apart, as far as their lengths say."""
    at = 0
    while at < len(data):
        length = struct.unpack_from("<H", data, at)[0] if at + 2 <= len(data) else 0
        yield data[at:at + 4 + length]
        at += 4 + length


# ---- lines


def quads(*numbers):
    """Four bytes each, of numbers with a sign and without."""
    return b"".join(struct.pack("<i" if number < 0 else "<I", number) for number in numbers)


def in_hex(*parts):
    """A byte of 0, as most are, is a dot."""
    return " ".join("".join(f"{byte:02X}" if byte else "." for byte in part) for part in parts if part)


def given(most, kind, label, numbers, *parts):
    """A line of a list: its numbers in four bytes each, and then what follows them, of which the program has room for so much."""
    assert len(quads(*numbers)) + sum(map(len, parts)) <= most and ":" not in label, label
    return f"{kind} {label}: {in_hex(*map(quads, numbers), *parts)}"


def digest(numbers):
    """It tells numbers in another order apart, as a sum does not."""
    return functools.reduce(lambda found, x: (found * 1_000_003 + x + 1) % 4_294_967_291, numbers, 0)


# ---- outside vectors


def vectors(name):
    """The cases of tools/vectors/NAME.txt: the number of each, and its fields."""
    for number, line in enumerate((VECTORS / f"{name}.txt").read_text().splitlines()):
        yield number, line.split("|")


def numbers_in(field):
    return tuple(map(int, field.split()))


def ask_same(name, number, told, found):
    """A vector's answer is ours, or all ends here."""
    if told != found:
        sys.exit(f"tools/vectors/{name}.txt, case {number}, line {number + 1}: the vector has {told}, document01.py answers {found}")


def left_out(older, later):
    """The cases of older vectors that later ones don't have, by what is given: what stands between a case's number and its answer."""
    given_later = {case[1:-1] for case in later}
    return [case for case in older if case[1:-1] not in given_later]


# ---- laid down


def each_once(cases):
    """The lines that are given and those that are printed, no two with one label."""
    given_lines, printed = zip(*cases)
    labels = [line.split(":")[0] for line in printed]
    assert len(labels) == len(set(labels)), ("two cases with one label", {label for label in labels if labels.count(label) > 1})
    return given_lines, printed


def lay_down(usage, crate, make, most):
    """Writes the lines that are given and those that are printed into a crate's stdin and stdout; with the word `check` says whether they stand
    there. The program takes a list of so many bytes."""
    if sys.argv[1:] not in ([], ["check"]):
        sys.exit(usage)
    for name, lines in zip(("stdin", "stdout"), make()):
        text, file = "".join(line + "\n" for line in lines), ROOT / "crates" / crate / name
        assert name == "stdout" or len(text) <= most, len(text)
        if not sys.argv[1:]:
            file.write_text(text)
        elif file.read_text() != text:
            sys.exit(f"crates/{crate}/{name} is not what tools/{pathlib.Path(sys.argv[0]).name} makes")
