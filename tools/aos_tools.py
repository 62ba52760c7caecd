"""What the scripts beside the program share: they find it, run it, and write schedules for it."""
import os
import subprocess
import sys
import tempfile

TOP = os.path.dirname(os.path.dirname(os.path.realpath(__file__)))
BUILT = os.path.join(TOP, "crates", "aos_main", "out", "aos_main")
MOST_STEPS = 10**9
# the statuses at which a run of a program was made
RAN = (0, 3, 4, 5, 9)
# bytes that are no UTF-8 are passed on as they are
LOOSE = {"encoding": "utf-8", "errors": "surrogateescape"}

_found = []


def program():
    """The path of the program: the variable AOS if it is set, else what ./aos builds, which is built first if need be."""
    if not _found:
        if not os.environ.get("AOS"):
            build()
        _found.append(os.environ.get("AOS") or BUILT)
    return _found[0]


def build():
    """Lets ./aos build the program if it is missing or older than its sources, and passes on what it says of that."""
    launcher = subprocess.Popen([os.path.join(TOP, "aos")], stdin=subprocess.DEVNULL, stdout=subprocess.DEVNULL,
                                stderr=subprocess.PIPE, **LOOSE)
    for line in launcher.stderr:
        if line.startswith("aos: "):
            sys.stderr.write(line)
    if launcher.wait() == 70:
        sys.exit(70)


def begin(main):
    """Runs a script's main function, and ends with its status."""
    for stream in (sys.stdin, sys.stdout, sys.stderr):
        stream.reconfigure(**LOOSE)
    try:
        status = main(sys.argv[1:])
        sys.stdout.flush()
    except BrokenPipeError:
        os.dup2(os.open(os.devnull, os.O_WRONLY), sys.stdout.fileno())
        status = 1
    except KeyboardInterrupt:
        status = 130
    sys.exit(status)


def fail(text, status=2):
    """Ends with a line on err."""
    sys.stderr.write("%s: %s\n" % (os.path.basename(sys.argv[0]), text))
    sys.exit(status)


def read_text(path):
    """The text of a file, a character for each byte, since a column is a byte."""
    try:
        with open(path, encoding="latin-1", newline="\n") as file:
            return file.read()
    except OSError as error:
        fail("%s: %s" % (path, error.strerror))


def plain(text):
    """A text that has a character for each byte, to be shown."""
    return text.encode("latin-1").decode(**LOOSE)


class Seen:
    """What a call of the program showed: its status and the texts on out and on err."""

    def __init__(self, status, out, err):
        self.status, self.out, self.err = status, out, err

    def key(self):
        """Equal for equal outcomes."""
        return (self.status, self.out, self.err)


def call(words):
    """Calls the program with these words."""
    try:
        done = subprocess.run([program()] + words, stdout=subprocess.PIPE, stderr=subprocess.PIPE,
                              stdin=subprocess.DEVNULL)
    except OSError as error:
        fail("%s: %s" % (program(), error.strerror))
    return Seen(done.returncode, done.stdout.decode(**LOOSE), done.stderr.decode(**LOOSE))


class Script:
    """A schedule: so many workers, a budget, and runs, which are ("s", worker, steps) or ("t", worker)."""

    def __init__(self, workers, budget, runs):
        self.workers, self.budget, self.runs = workers, budget, runs

    def lines(self):
        """The run lines, neighbouring steps of one worker joined."""
        joined = []
        for run in self.runs:
            last = joined[-1] if joined else None
            if last and run[0] == "s" == last[0] and run[1] == last[1] and run[2] + last[2] <= MOST_STEPS:
                joined[-1] = ("s", run[1], run[2] + last[2])
            else:
                joined.append(run)
        return [" ".join(str(part) for part in run) for run in joined]

    def text(self):
        """The script as a file's text."""
        head = ["aos-script 1", "workers %d" % self.workers, "budget %d" % self.budget]
        return "\n".join(head + self.lines() + ["end", ""])

    def steps(self):
        """The number of steps and ticks."""
        return sum(run[2] if run[0] == "s" else 1 for run in self.runs)

    def first(self, count):
        """The script of the first so many steps and ticks."""
        runs = []
        for run in self.runs:
            length = run[2] if run[0] == "s" else 1
            if count <= 0:
                break
            runs.append(run if length <= count else ("s", run[1], count))
            count -= length
        return Script(self.workers, self.budget, runs)

    def then(self, runs):
        """The script with further runs behind its own."""
        return Script(self.workers, self.budget, self.runs + runs)


def parse_script(text, name):
    """The script in a text, behind lines that are none of it."""
    lines = text.split("\n")
    try:
        at = lines.index("aos-script 1")
        workers, budget = int(lines[at + 1].split()[1]), int(lines[at + 2].split()[1])
        runs = []
        for line in lines[at + 3:]:
            words = line.split(" ")
            if words == ["end"]:
                return Script(workers, budget, runs)
            runs.append(("s", int(words[1]), int(words[2])) if words[0] == "s" else ("t", int(words[1])))
    except (ValueError, IndexError):
        pass
    fail("%s is no script" % name)


def replay(script, files, watch=False):
    """What a replay of these files by this script shows."""
    handle, path = tempfile.mkstemp(suffix=".script")
    try:
        with os.fdopen(handle, "w") as file:
            file.write(script.text())
        return call(["replay", "--script", path] + (["--watch"] if watch else []) + ["--"] + files)
    finally:
        os.unlink(path)


def run_alone(files, budget):
    """A run by one worker: what it shows, without its log, and its log as a script."""
    seen = call(["run", "--log", "--budget", str(budget), "--"] + files)
    if seen.status not in RAN:
        sys.stderr.write(seen.err)
        sys.exit(seen.status)
    at = ("\n" + seen.err).index("\naos-script 1\n")
    return Seen(seen.status, seen.out, seen.err[:at]), parse_script(seen.err[at:], "the log")
