# The image loader of the reference model.
from bus import MEMORY, M32

DIGITS = b"0123456789ABCDEF"


def number(text):
    """The number of upper-case hexadecimal digits, or None."""
    if not text or any(ch not in DIGITS for ch in text):
        return None
    return int(text, 16)


def parse(line):
    """('M', address, bytes), ('E', count) or None; the line without its LF."""
    if line[:2] == b"M," and len(line) >= 11 and line[10:11] == b",":
        address, digits = number(line[2:10]), line[11:]
        if address is None or number(digits) is None or len(digits) % 2 or not 2 <= len(digits) <= 64:
            return None
        return "M", address, bytes(int(digits[i:i + 2], 16) for i in range(0, len(digits), 2))
    if line[:2] == b"E," and len(line) == 10 and number(line[2:]) is not None:
        return "E", number(line[2:])
    return None


def load(bus, image):
    """('count', n) after writing, or ('refused', number, place) with nothing changed."""
    place, todo = 0, []
    while True:
        if place == len(image):
            return "refused", 13, place  # the E line is missing
        end = image.find(b"\n", place)
        got = parse(image[place:end]) if end >= 0 else None
        if got is None:
            return "refused", 11, place
        if got[0] == "E":
            if got[1] != len(todo):
                return "refused", 13, place
            if end + 1 != len(image):
                return "refused", 13, end + 1
            break
        _, address, data = got
        for i in range(len(data)):
            if address + i > M32 or bus.kind(address + i) != MEMORY:
                return "refused", 12, place
        todo.append((address, data))
        place = end + 1
    for address, data in todo:
        for i, byte in enumerate(data):
            bus.write(1, address + i, byte)
    return "count", len(todo)
