"""What bench/steps and bench/compare share: a run timed, every run written down, and figures as docs/MEASUREMENTS.md has them."""

import glob
import os
import shlex
import statistics
import sys

BENCH = os.path.join(os.path.dirname(os.path.abspath(__file__)), "..", "target", "bench")


def run(command, path):
    """Microseconds of processor time for a run with this file as its input."""
    actions = [(os.POSIX_SPAWN_OPEN, 0, path, os.O_RDONLY, 0), (os.POSIX_SPAWN_OPEN, 1, os.devnull, os.O_WRONLY, 0)]
    child = os.posix_spawnp(command[0], command, os.environ, file_actions=actions)
    _, status, usage = os.wait4(child, 0)
    if status:
        sys.exit("%s ends with %d on %s" % (shlex.join(command), status, path))
    return (usage.ru_utime + usage.ru_stime) * 1e6


def in_turn(commands, path):
    return [run(command, path) for command in commands]


def add_arguments(parser, rounds):
    parser.add_argument("ours")
    parser.add_argument("plain")
    parser.add_argument("books", nargs="*")
    parser.add_argument("--rounds", "--times", type=int, default=rounds)
    parser.add_argument("--runs", metavar="FILE", help="where every run is written down, a line each")


def books_of(arguments):
    books = arguments.books or sorted(glob.glob(os.path.join(BENCH, "books", "*.book")))
    return books or sys.exit("no books: bench/build writes them")


def name_of(book):
    return os.path.basename(book).replace(".book", "")


class Runs:
    """Every run in a file: the book, what was timed, the side, the round from 1, and the microseconds of the run."""

    def __init__(self, path):
        self.file = open(path, "w")
        self.file.write("book\twhat\tside\tround\tmicroseconds\n")

    def write(self, book, what, turn, took):
        for side, microseconds in zip(("ours", "C"), took):
            self.file.write("%s\t%s\t%s\t%d\t%.0f\n" % (book, what, side, turn + 1, microseconds))
        self.file.flush()


def head(*names):
    """The head of a table of books with three columns for each name."""
    columns = ["book"] + ["%s: ours | C | ratio" % name for name in names]
    return "| %s |\n|%s" % (" | ".join(columns), "---|" * (1 + 3 * len(names)))


def row(name, turns):
    """The row of a book; a turn has its figures, a pair of both sides each."""
    return "| %s | %s |" % (name, " | ".join(cells(*zip(*figure)) for figure in zip(*turns)))


def foot(rounds, before):
    return "\nMedians of %d rounds, the least in brackets; load %s at the start and %s at the end." % (rounds, before, load())


def cells(ours, plain):
    """Both sides of a figure, a number for each round: the median and in brackets the least, and the ratio of the medians."""
    places = 1 if min(statistics.median(ours), statistics.median(plain)) < 1000 else 0
    sides = ["{:,.{}f} ({:,.{}f})".format(statistics.median(side), places, min(side), places) for side in (ours, plain)]
    return " | ".join([*sides, "%.2f" % (statistics.median(ours) / statistics.median(plain))])


def load():
    return "%.1f" % os.getloadavg()[0]
