"""A model of the small program above the pool: input bytes to output bytes."""

import sys

import pool

# "A pool of 32,768 bytes is created silently."
POOL_BYTES = 32768

# "longer than 200 bytes": the newline isn't counted.
LONGEST_LINE = 200

# "Each input line is a request name (not create or check) and decimal numbers:
# size; or offset; or offset, target, value; recover takes none."  W5 of document 02
# adds a second form of reserve, and W6 adds grow: offset, size.
REQUESTS = ("reserve", "reserve_uncleared", "onactive", "onfree", "withdraw", "activate",
            "free", "grow", "recover")

NUMBERS_WANTED = {name.encode(): pool.NUMBERS_TAKEN[name] for name in REQUESTS}
NUMBERS_WANTED[b"fuse"] = 1
NUMBERS_WANTED[b"walk"] = 0

DIGITS = frozenset(b"0123456789")

BAD_LINE = b"?\n"


# A last line without a newline counts; nothing after the last newline is no line.
def lines_of(data):
    lines = data.split(b"\n")
    if lines[-1] == b"":
        lines.pop()
    return lines


# "Numbers are digits only."  A number is judged by its value, so zeros may lead.
def number_of(field):
    if not field or not DIGITS.issuperset(field):
        return None
    value = int(field)
    return value if value <= pool.LARGEST else None


# "Fields are parted by one space.  Any other line, one with a number above 64
# bits or one longer than 200 bytes, prints `?`."  None stands for such a line.
def parse(line):
    if len(line) > LONGEST_LINE:
        return None
    name, *fields = line.split(b" ")
    if NUMBERS_WANTED.get(name) != len(fields):
        return None
    numbers = [number_of(field) for field in fields]
    return None if None in numbers else (name.decode(), numbers)


# "`walk` prints offset, nbytes and state of each clump."
def walk_lines(image):
    return b"".join(b"%d %d %d\n" % (clump.offset, clump.nbytes, clump.state)
                    for clump in pool.walk(image))


# "A request prints answer, place and stores"
def request_line(given):
    return b"%d %d %d\n" % (given.answer, given.place, given.stores)


class Program:
    def __init__(self):
        self.image = bytearray(POOL_BYTES)
        pool.create(self.image)
        # "otherwise the fuse is the largest 64-bit number"
        self.fuse = pool.LARGEST

    # "`fuse k` holds for the next request line and prints nothing [..].  `walk`
    # and `?` lines use up no fuse; of two fuse lines the later holds."
    def answer_line(self, line):
        parsed = parse(line)
        if parsed is None:
            return BAD_LINE
        name, numbers = parsed
        if name == "fuse":
            self.fuse = numbers[0]
            return b""
        if name == "walk":
            return walk_lines(self.image)
        return self.answer_request(name, numbers)

    # A refused request uses up the fuse too.
    def answer_request(self, name, numbers):
        fuse, self.fuse = self.fuse, pool.LARGEST
        return request_line(pool.ask(self.image, name, numbers, fuse))


def run(data):
    program = Program()
    return b"".join(program.answer_line(line) for line in lines_of(data))


if __name__ == "__main__":
    sys.stdout.buffer.write(run(sys.stdin.buffer.read()))
