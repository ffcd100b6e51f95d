"""Jobs and figures of `rays` (docs/RAYS.md), read strictly and line by line, for the tools beside this file.

Whatever is not of the documented grammar is a Wrong, which says the file, the line and what is wrong there. One
line is held at a time, and the surfaces of a job. Every file is UTF-8; figures have ASCII alone.
"""
import io
import os
import re
import struct
import sys
from typing import NamedTuple

SURFACES = 64
PATHS = 1024
CANDIDATES = 64
IDS = 65536
BOOK_SURFACES = 42  # the most that a book has
BOOK_MAX = 65536  # bytes of a book
WAVELENGTHS = (360, 830)  # nm
TABLES = {95: 5, 471: 1}  # entries of a spectrum from 360 nm on, and how many nm apart they are
LINE_MAX = 32768  # bytes of a job's line without its line feed, and more than a line of figures takes

COMMANDS = ("surface", "book", "start", "bounce", "density", "arrive", "depart", "list")
UNITS = ("per-sr", "probability")

# Why a line is refused, by its number (the table of docs/RAYS.md).
GROUNDS = {
    1: "the roughness is not from 0 to 1",
    2: "eta is not one entry, 95 or 471, each from 0.01 to 100",
    3: "k is not one entry or as many as eta counts, all of them 0 or, on metal, all from 0.000001 to 100",
    4: "a wavelength is not from 360 to 830 nm",
    5: "a direction's squared length is not within 0.000001 of 1",
    6: "u or the disk number is not from 0 to below 1",
    7: "c and s are not a cosine and a sine: their squares do not add up to 1 within 1e-12",
    8: "a filter is not from 0 to 1",
    9: "the density is not finite, or, of an arrival, below 0",
    10: "a power is not from 0 to 1",
    11: "the list is full: 64 candidates are present",
    12: "the id that arrives is present already, or the one that departs is not",
    13: "glass's outer spectrum is not one entry or as many as eta counts, each from 0.01 to 100, and in a book each 1.0",
    14: "the book has another layout, or two equal surfaces; or is too long to be written",
}

# What is wrong with a line that is no command.
FAULTS = {
    "unknown command",
    "a surface's index is from 0 to 63",
    "a path's index is from 0 to 1023",
    "an id is from 0 to 65535",
    "a kind is metal or glass",
    "a flag is 0 or 1",
    "a number is the 16 hexadecimal digits of its bits; a decimal is turned into them by rays-csv to-job",
    "the word eta is missing",
    "the word k is missing",
    "the line ends too soon",
    "the line goes on",
    "the path is not started",
    "the surface is not made",
    "the file cannot be read",
    "the book's surfaces go past the last place",
    f"a line is at most {LINE_MAX} bytes",
}


class Wrong(Exception):
    """What a tool says before it stops with a status other than 0."""
    status = 1


class Misused(Wrong):
    """A command line that a tool doesn't have."""
    status = 2


# ---- numbers

def digits(values):
    """Of each double the 16 hexadecimal digits of its bits."""
    text = struct.pack(f">{len(values)}d", *values).hex()
    return [text[i:i + 16] for i in range(0, len(text), 16)]


def doubles(words):
    return struct.unpack(f">{len(words)}d", bytes.fromhex("".join(words)))


def decimals(words):
    """The shortest decimals that give the doubles with these bits back."""
    return list(map(repr, doubles(words)))


def double(word):
    return doubles([word])[0]


def decimal(word):
    return repr(double(word))


# ---- files

class Source(NamedTuple):
    """A file that is read, and what messages call it."""
    name: str
    stream: io.BufferedIOBase

    def wrong(self, line, what):
        return Wrong(f"{self.name}: line {line}: {what}")


def opened(name, stdin=None):
    """The file of a name; - is standard input."""
    if name != "-":
        try:
            return Source(name, open(name, "rb"))
        except OSError as why:
            raise Wrong(f"{name}: {why.strerror}") from None
    if stdin is not None:
        return Source("standard input", stdin)
    try:
        return Source("standard input", os.fdopen(0, "rb", closefd=False))
    except OSError as why:
        raise Wrong(f"standard input: {why.strerror}") from None


def raw_lines(source, most):
    """Each line's number, its bytes without the line feed, and whether it has one. Of a line of more than `most`
    bytes the beginning is handed out, one byte more or two."""
    for number in range(1, sys.maxsize):
        raw = read_line(source, most + 2)
        if not raw:
            return
        ends = raw.endswith(b"\n")
        if not ends and len(raw) == most + 2:
            yield number, raw, skipped_line(source)
        else:
            yield number, raw[:-1] if ends else raw, ends


def skipped_line(source):
    """Passes over the rest of a line; answers whether it had a line feed."""
    rest = b" "
    while rest and not rest.endswith(b"\n"):
        rest = read_line(source, 1 << 16)
    return bool(rest)


def read_line(source, most):
    try:
        return source.stream.readline(most)
    except OSError as why:
        raise Wrong(f"{source.name}: {why.strerror}") from None


def decoded(source, number, raw, encoding):
    """A line's text. Only a tab is let through of the characters that control a terminal or end a line."""
    if number == 1 and raw[:2] in (b"\xff\xfe", b"\xfe\xff"):
        raise source.wrong(number, "the file is UTF-16; it is to be UTF-8")
    try:
        text = raw.decode(encoding)
    except UnicodeDecodeError as why:
        name = "ASCII" if encoding == "ascii" else "UTF-8"
        raise source.wrong(number, f"byte {why.start + 1} is not {name}") from None
    found = CONTROL.search(text)
    if found:
        raise source.wrong(number, f"character {found.start() + 1} is the control character U+{ord(found[0]):04X}")
    return text


CONTROL = re.compile("[\x00-\x08\x0a-\x1f\x7f-\x9f\u2028\u2029]")


def shown(word):
    """A word in a message: what was written, made short."""
    return repr(word) if len(word) <= 40 else repr(word[:37]) + " .."


# ---- the words of a line

class Words:
    """The words of a line, taken one after the other."""

    def __init__(self, words, wrong):
        self.words = words
        self.at = 0
        self.wrong = wrong  # what is wrong, to a Wrong

    def next(self, *what):
        """The next word; what should stand there is for the message."""
        if self.at == len(self.words):
            raise self.wrong(f"the line ends where {' or '.join(what)} should stand")
        word = self.words[self.at]
        self.at += 1
        return word

    def choice(self, *names):
        word = self.next(*names)
        if word not in names:
            raise self.wrong(f"word {self.at} is {shown(word)} where {' or '.join(names)} should stand")
        return word

    def has(self, word):
        """Takes a word if it is the next; answers whether it is."""
        return self.words[self.at:self.at + 1] == [word] and self.next(word) == word

    def index(self, limit, what):
        return self.below(self.is_index, limit, what)

    def id(self):
        return self.below(self.is_id, IDS, "an id")

    def below(self, is_decimal, limit, what):
        word = self.next(what)
        if not is_decimal(word) or int(word) >= limit:
            raise self.wrong(f"word {self.at} is {shown(word)} where {what}, from 0 to {limit - 1}, should stand")
        return word

    def number(self):
        word = self.next("a number")
        if not self.is_number(word):
            raise self.wrong(f"word {self.at} is {shown(word)} where a number of {self.NUMBER} should stand")
        return word

    def numbers(self, count):
        """So many numbers, looked at together. What is wrong with them is found one by one."""
        words = self.words[self.at:self.at + count]
        if len(words) == count and self.are_numbers(" ".join(words)):
            self.at += count
            return words
        return [self.number() for _ in range(count)]

    def file(self):
        word = self.next("a file")
        if not FILE.fullmatch(word):
            raise self.wrong(f"word {self.at} is {shown(word)} where a file's name, one word of UTF-8, should stand")
        return word

    def end(self):
        if self.at < len(self.words):
            raise self.wrong(f"word {self.at + 1} is {shown(self.words[self.at])} where the line should end")


# a word of UTF-8 without characters that control a terminal or end a line; one that begins with # is a comment
FILE = re.compile("(?!#)[^ \x00-\x1f\x7f-\x9f\u2028\u2029\ud800-\udfff]+")


class JobWords(Words):
    NUMBER = "16 hexadecimal digits"
    is_index = staticmethod(re.compile("[0-9]{1,4}").fullmatch)
    is_id = staticmethod(re.compile("[0-9]{1,5}").fullmatch)
    is_number = staticmethod(re.compile("[0-9a-fA-F]{16}").fullmatch)
    are_numbers = staticmethod(re.compile("[0-9a-fA-F]{16}(?: [0-9a-fA-F]{16})*").fullmatch)

    def surface(self):
        return self.index(SURFACES, "a surface")

    def path(self):
        return self.index(PATHS, "a path")

    def flag(self, what):
        return self.index(2, what)

    def is_entry(self, at):
        """A spectrum ends before a word of one letter or the word outer, as `rays` reads it."""
        return at < len(self.words) and len(self.words[at]) > 1 and self.words[at] != "outer"


class FigureWords(Words):
    NUMBER = "16 lowercase hexadecimal digits"
    is_index = staticmethod(re.compile("0|[1-9][0-9]{0,3}").fullmatch)
    is_id = staticmethod(re.compile("0|[1-9][0-9]{0,4}").fullmatch)
    # of the patterns of a NaN one alone is written
    FORM_OF_NUMBER = "(?:(?!7ff|fff)[0-9a-f]{16}|7ff8000000000000|[7f]ff0000000000000)"
    is_number = staticmethod(re.compile(FORM_OF_NUMBER).fullmatch)
    are_numbers = staticmethod(re.compile(f"{FORM_OF_NUMBER}(?: {FORM_OF_NUMBER})*").fullmatch)

    def finite(self):
        word = self.number()
        if word[:3] in ("7ff", "fff"):
            raise self.wrong(f"word {self.at} is {word} where a density, if it is a number, is finite")
        return word


# ---- jobs

class JobLine(NamedTuple):
    """A line of a job: its words, or a comment if it has nothing else."""
    number: int
    words: list
    comment: str
    long: bool
    ends: bool


def job_words(text):
    """Words stand between blanks, up to a word that begins with #."""
    if not MORE_THAN_WORDS.search(text):
        return text.split()
    words = []
    for word in re.split("[ \t\r]+", text):
        if word.startswith("#"):
            break
        if word:
            words.append(word)
    return words


# a # or a blank other than the space, or what is no ASCII
MORE_THAN_WORDS = re.compile("[^ -\"$-~]")


def job_lines(source):
    """Each line of a job. Words of a line may be anything: `command` says what is wrong with them."""
    for number, raw, ends in raw_lines(source, LINE_MAX):
        if len(raw) > LINE_MAX:
            yield JobLine(number, ["too", "long"], "", True, ends)
            continue
        text = raw.decode("utf-8", "surrogateescape")
        words = job_words(text)
        comment = "" if words else text.strip(" \t\r")
        if comment:
            comment = decoded(source, number, raw.strip(b" \t\r"), "utf-8")
        yield JobLine(number, words, comment, False, ends)


class Command(NamedTuple):
    """A job's command, every word of it looked at. Numbers are digits as they stand."""
    name: str
    index: int = None    # of a candidate its id
    surface: int = None
    kind: str = ""
    two_sided: bool = False
    file: str = ""       # of a book
    flag: str = ""
    numbers: tuple = ()
    eta: tuple = ()
    k: tuple = ()
    outer: tuple = None  # None where the line has none, which stands for ones


def command(source, line):
    """The command of a job's line, which has words."""
    if line.long:
        raise source.wrong(line.number, f"a line is at most {LINE_MAX} bytes")
    words = JobWords(line.words, lambda what: source.wrong(line.number, what))
    name = words.choice(*COMMANDS)
    return READERS[name](words)


def surface_command(words):
    index = int(words.surface())
    kind = words.choice("metal", "glass")
    two_sided = words.has("two-sided")
    roughness = words.number()
    words.choice("eta")
    eta = entries(words)
    words.choice("k")
    k = entries(words)
    outer = tuple(entries(words)) if words.has("outer") else None
    words.end()
    return Command("surface", index, index, kind, two_sided, numbers=(roughness,), eta=tuple(eta), k=tuple(k),
                   outer=outer)


def entries(words):
    end = words.at
    while words.is_entry(end):
        end += 1
    return words.numbers(end - words.at) if end > words.at else []


def book_command(words):
    index = int(words.surface())
    file = words.file()
    words.end()
    return Command("book", index, index, file=file)


def start_command(words):
    index = int(words.path())
    numbers = words.numbers(4)
    words.end()
    return Command("start", index, numbers=tuple(numbers))


def bounce_command(words):
    index = int(words.path())
    surface = int(words.surface())
    flag = words.flag("the backface flag")
    numbers = words.numbers(18)
    words.end()
    return Command("bounce", index, surface, flag=flag, numbers=tuple(numbers))


def density_command(words):
    surface = int(words.surface())
    flag = words.flag("the reflection flag")
    numbers = words.numbers(7)
    words.end()
    return Command("density", surface, surface, flag=flag, numbers=tuple(numbers))


def arrive_command(words):
    index = int(words.id())
    density = words.number()
    words.end()
    return Command("arrive", index, numbers=(density,))


def depart_command(words):
    index = int(words.id())
    words.end()
    return Command("depart", index)


def list_command(words):
    words.end()
    return Command("list")


READERS = {"surface": surface_command, "book": book_command, "start": start_command, "bounce": bounce_command,
           "density": density_command, "arrive": arrive_command, "depart": depart_command, "list": list_command}


# ---- figures

class Listed(NamedTuple):
    """A candidate of a list."""
    id: int
    density: str


class Figure(NamedTuple):
    """A line of figures. Numbers are digits as they stand; what a line doesn't have is empty."""
    line: int            # of the job
    command: str         # or error
    index: int = None    # of a candidate its id
    answer: str = ""     # ok, lost, reflected, passed, refused; of an error what is wrong
    number: int = None   # of a refusal, or of the word of an error
    wi: tuple = ()
    density: str = ""    # digits, or "not finite"
    unit: str = ""
    shares: tuple = ()
    wavelengths: tuple = ()
    powers: tuple = ()
    listed: tuple = ()   # from the top
    count: int = None    # of the surfaces that a book has


class Counts(NamedTuple):
    """The closing line of figures."""
    answers: int
    refusals: int
    errors: int


ERROR = re.compile(r"([1-9][0-9]*) error (?:word ([1-9][0-9]{0,3})|line): (.+)")
CLOSING = re.compile("end (0|[1-9][0-9]{0,18}) answers (0|[1-9][0-9]{0,18}) refusals (0|[1-9][0-9]{0,18}) errors")
LINE = re.compile("[1-9][0-9]{0,18}")


def figures(source):
    """Each line of figures, and last the Counts, which must be those of the lines."""
    last, counts, closing = 0, [0, 0, 0], None
    at = 0
    for at, raw, ends in raw_lines(source, LINE_MAX):
        if closing:
            raise source.wrong(at, "the figures go on behind their closing line")
        if len(raw) > LINE_MAX:
            raise source.wrong(at, f"a line of figures is at most {LINE_MAX} bytes")
        text = decoded(source, at, raw, "ascii")
        if not ends:
            raise source.wrong(at, "the line has no line feed: the figures are cut")
        if text.startswith("end"):
            closing = closing_line(source, at, text, counts)
            continue
        figure = figure_line(source, at, text)
        if figure.line <= last:
            raise source.wrong(at, f"line {figure.line} of the job is answered after line {last}")
        last = figure.line
        counts[2 if figure.command == "error" else figure.answer == "refused"] += 1
        yield figure
    if not closing:
        raise source.wrong(at + 1, "the figures end without their closing line, `end A answers R refusals E errors`: "
                           "they are cut, or the run failed")
    yield closing


def closing_line(source, at, text, counts):
    found = CLOSING.fullmatch(text)
    if not found:
        raise source.wrong(at, "the closing line is not `end A answers R refusals E errors`")
    said = Counts(*map(int, found.groups()))
    if said != tuple(counts):
        raise source.wrong(at, f"the closing line counts {said.answers}, {said.refusals} and {said.errors}, where "
                           f"{counts[0]} answers, {counts[1]} refusals and {counts[2]} errors stand before it")
    return said


def figure_line(source, at, text):
    words = FigureWords(text.split(" "), lambda what: source.wrong(at, what))
    line = words.next("the number of a line")
    if line in COMMANDS or line.startswith("#"):
        raise source.wrong(at, "a line of a job, where figures should stand")
    if not LINE.fullmatch(line):
        raise source.wrong(at, f"word 1 is {shown(line)} where the number of a job's line should stand")
    name = words.choice(*COMMANDS, "error")
    if name == "error":
        return error_line(source, at, text)
    figure = OUTCOMES[name](words, Figure(int(line), name, index_of(words, name)))
    words.end()
    return figure


def index_of(words, name):
    """The index that stands behind a command's name; a list has none."""
    if name == "list":
        return None
    if name in ("arrive", "depart"):
        return int(words.id())
    return int(words.index(PATHS, "a path") if name in ("start", "bounce") else words.index(SURFACES, "a surface"))


def error_line(source, at, text):
    found = ERROR.fullmatch(text)
    if not found or found[3] not in FAULTS:
        raise source.wrong(at, "an error that `rays` doesn't have")
    return Figure(int(found[1]), "error", answer=found[3], number=found[2] and int(found[2]))


def refused(words, figure):
    number = words.next("the number of a refusal")
    if not re.fullmatch("[1-9][0-9]?", number) or int(number) not in GROUNDS:
        raise words.wrong(f"word {words.at} is {shown(number)} where the number of a refusal, from 1 to {max(GROUNDS)}, "
                          "should stand")
    return Figure(*figure[:3], "refused", int(number))


def made(words, figure):
    answer = words.choice("ok", "refused")
    return refused(words, figure) if answer == "refused" else Figure(*figure[:3], answer)


def booked(words, figure):
    """A book's surfaces stand from its index on, none past the last place."""
    answer = words.choice("ok", "refused")
    if answer == "refused":
        return refused(words, figure)
    most = min(BOOK_SURFACES, SURFACES - figure.index)
    return Figure(*figure[:3], answer, count=int(words.index(most + 1, "the number of surfaces")))


def bounced(words, figure):
    answer = words.choice("lost", "reflected", "passed", "refused")
    if answer == "refused":
        return refused(words, figure)
    wi, density, unit = (), "", ""
    if answer != "lost":
        words.choice("wi")
        wi = tuple(words.numbers(3))
        words.choice("density")
        density, unit = density_of(words)
    words.choice("shares")
    shares = shares_of(words)
    words.choice("lambda")
    wavelengths = tuple(words.numbers(4))
    words.choice("power")
    powers = tuple(words.numbers(4))
    return Figure(*figure[:3], answer, None, wi, density, unit, shares, wavelengths, powers)


def density_of(words):
    if words.has("not"):
        words.choice("finite")
        return "not finite", ""
    return words.finite(), words.choice(*UNITS)


def shares_of(words):
    return () if words.has("none") else tuple(words.numbers(2))


def found_density(words, figure):
    if words.has("refused"):
        return refused(words, figure)
    return Figure(*figure[:3], "ok", density=words.finite(), unit=words.choice(*UNITS))


def listed(words, figure):
    """The candidates of a list: as many as it says, each a single time, none with a greater density below it."""
    count = int(words.index(CANDIDATES + 1, "the number of candidates"))
    found, least = {}, float("inf")
    for _ in range(count):
        index, density = int(words.id()), words.finite()
        if index in found:
            raise words.wrong(f"word {words.at - 1} is {index}, which is in the list already")
        if not 0 <= double(density) <= least:
            raise words.wrong(f"word {words.at} is {density}, a density that is below 0 or above the one before it")
        found[index], least = density, double(density)
    return Figure(*figure[:3], "ok", listed=tuple(Listed(*pair) for pair in found.items()))


OUTCOMES = {"surface": made, "book": booked, "start": made, "bounce": bounced, "density": found_density,
            "arrive": made, "depart": made, "list": listed}


# ---- a job beside its figures

class Answered(NamedTuple):
    """A line of a job with its line of figures; a line without words has a comment or nothing."""
    line: JobLine
    figure: Figure = None
    command: Command = None


def answered(job, source):
    """The lines of a job, each with its line of figures, and last the Counts. The two must belong together."""
    rest = figures(source)
    figure = next(rest)
    at = 0
    for line in job_lines(job):
        at = line.number
        if not line.words:
            yield Answered(line)
            continue
        if isinstance(figure, Counts) or figure.line != at:
            raise job.wrong(at, f"has no line of figures in {source.name}: these figures are of another job")
        yield Answered(line, figure, answered_command(job, line, figure))
        figure = next(rest)
    if not isinstance(figure, Counts):
        raise job.wrong(at + 1, f"{source.name} has figures for line {figure.line}, where the job has ended: these "
                        "figures are of another job")
    yield figure


def answered_command(job, line, figure):
    """The line's command, if `rays` took it for one."""
    if figure.command == "error":
        return None
    found = command(job, line)
    if (found.name, found.index) != (figure.command, figure.index):
        raise job.wrong(line.number, f"is {titled(found.name, found.index)}, and its figures are of "
                        f"{titled(figure.command, figure.index)}: these figures are of another job")
    if not can_have(found, figure.number):
        raise job.wrong(line.number, "has numbers that can't have these figures for an answer: these figures are of another job")
    return found


def surfaces_made(figure, command):
    """The surfaces that a line of a job made, each with what is said of it."""
    if figure.answer != "ok":
        return
    if command.name == "surface":
        kind = f"{command.kind}, two-sided" if command.two_sided else command.kind
        yield command.index, f"{kind}, roughness {decimal(command.numbers[0])}"
    if command.name == "book":
        for i in range(figure.count):
            yield command.index + i, f"{i + 1} of {figure.count} in {shown(command.file)}"


def titled(name, index):
    return name if index is None else f"{name} {index}"


def can_have(found, refusal):
    """Whether a command's numbers can be refused by a number, or by none: in an arrival 9 is the limit itself, elsewhere
    it comes behind the limits."""
    if found.name == "arrive":
        return is_within_limits(found) == (refusal != 9)
    return refusal not in (None, 9) or is_within_limits(found)


def is_within_limits(found):
    """Whether a command has numbers with which it can be answered: all but spectra, circle pairs and filters."""
    x = doubles(found.numbers)
    if found.name in ("book", "depart", "list"):
        return True
    if found.name == "arrive":
        return 0 <= x[0] < float("inf")
    if found.name == "surface":
        return 0 <= x[0] <= 1
    if found.name == "start":
        return all(map(is_wavelength, x))
    directions = is_direction(*x[:3]) and is_direction(*x[3:6])
    return directions and (is_wavelength(x[6]) if found.name == "density" else 0 <= x[6] < 1 and 0 <= x[7] < 1)


def is_wavelength(x):
    return WAVELENGTHS[0] <= x <= WAVELENGTHS[1]


def is_direction(x, y, z):
    return 0.999999 <= x * x + y * y + z * z <= 1.000001


# ---- the programs that tools run

def program_of(variable, name):
    """The program that an environment variable names, or else the one of this repository."""
    root = os.path.dirname(os.path.dirname(os.path.abspath(__file__)))
    return os.environ.get(variable, os.path.join(root, "target", "bin", name))


def not_run(program, name, why):
    return Wrong(f"{program}: {why.strerror} (`tools/build {name}` builds it)")


def opened_job(name):
    """The file descriptor of a job, which a program gets as its standard input; - is standard input."""
    try:
        if name == "-":
            os.fstat(0)
            return 0
        if os.path.isdir(name):
            raise Wrong(f"{name}: Is a directory")
        return os.open(name, os.O_RDONLY)
    except OSError as why:
        raise Wrong(f"{'standard input' if name == '-' else name}: {why.strerror}") from None


def is_job(name, job):
    """Whether a file that is to be written is the job itself, which would be lost."""
    return os.path.exists(name) and os.path.samestat(os.stat(name), os.fstat(job))


def ended_well(name, status, said):
    """Whether a program said nothing on standard error: its status is 0 whatever it met."""
    text = " ".join(said.decode("utf-8", "replace").split())
    if status < 0:
        raise Wrong(f"{name} was stopped by signal {-status}")
    if text or status:
        raise Wrong(f"{name} failed: {text or f'status {status}'}")


# ---- how a tool runs

def helped(words, text, out):
    """Whether help was asked for, which is then given."""
    asked = any(word in ("--help", "-h") for word in words)
    if asked:
        out.write(text.strip() + "\n")
    return asked


def usage(text, what):
    """A command line that a tool doesn't have: what is wrong, and how it is called."""
    return Misused(f"{what}\n{text.strip()}")


def run(name, main, words, stdin=None, stdout=None, stderr=None):
    """Runs a tool's main and answers its exit status: 0, 1 for what is wrong, 2 for a wrong command line, 130 for
    Ctrl-C. Whatever is written is written before the status is known."""
    try:
        out = output(stdout)
        try:
            main(words, stdin, out)
        finally:
            flushed(out)
        return 0
    except Wrong as what:
        return failed(name, what, what.status, stderr)
    except BrokenPipeError:
        return failed(name, "the output was closed before all was written", 1, stderr)
    except OSError as why:
        return failed(name, f"the output: {why.strerror}", 1, stderr)
    except KeyboardInterrupt:
        return failed(name, "interrupted", 130, stderr)


def output(stdout):
    """The output as UTF-8 with plain line feeds, whatever the machine's own encoding is."""
    if stdout is None:
        try:
            stdout = os.fdopen(1, "wb", closefd=False)
        except OSError:
            raise Wrong("standard output is closed") from None
    return io.TextIOWrapper(stdout, encoding="utf-8", newline="", write_through=False)


def flushed(out):
    """Writes what is left, so that a full disk or a closed pipe is met here; the stream itself stays open."""
    out.flush()
    out.detach()


def failed(name, what, status, stderr):
    text = f"{name}: {what}\n"
    try:
        (stderr or sys.stderr).write(text)
        (stderr or sys.stderr).flush()
    except (OSError, ValueError, AttributeError):
        pass
    return status


def program(name, main):
    """A tool as a program: runs it and ends with its status."""
    status = run(name, main, sys.argv[1:])
    # what could not be written is given up here: it has been said
    os._exit(status)
