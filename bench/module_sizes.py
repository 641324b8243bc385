"""Sizes of a module's sections."""


def number_at(data, at):
    """Returns the number in LEB128 that stands there, and where it ends."""
    value, shift = 0, 0
    while True:
        byte = data[at]
        value |= (byte & 127) << shift
        at, shift = at + 1, shift + 7
        if byte < 128:
            return value, at


def sections_in(data):
    """Yields the id of each section, and where its content begins and ends."""
    at = 8
    while at < len(data):
        id, (size, start) = data[at], number_at(data, at + 1)
        yield id, start, start + size
        at = start + size


def read(path):
    with open(path, "rb") as file:
        return file.read()


def items_in(path):
    """Returns the number that each section but custom ones begins with, by its id: of its items, mostly."""
    data = read(path)
    return {id: number_at(data, start)[0] for id, start, _ in sections_in(data) if id}


def code_size(path):
    """Returns the bytes of the section of bodies."""
    return sum(end - start for id, start, end in sections_in(read(path)) if id == 10)
