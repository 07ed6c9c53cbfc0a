"""Runs `pool` as a user may: its arguments, inputs, outputs and exit status. `cases.py PROGRAM`, from the root."""

import os
import pathlib
import pty
import re
import select
import subprocess
import sys
import tempfile

PROGRAM = os.path.abspath(sys.argv[1])
HERE = pathlib.Path(__file__).parent
SESSIONS = pathlib.Path("crates/sessions")
DATA = SESSIONS / "data"
LIMIT = 30768
WAITING = b"pool: reading a session file from standard input; name a file instead, or see pool --help\n"
USAGE = rb"\n\nUsage: pool (?:--help )?\[FILE\]\n\nFor more information, try '--help'\.\n"
WRONG = re.compile(rb"error: .*" + USAGE, re.DOTALL)
ENVIRONMENT = {**os.environ, "LC_ALL": "C"}

done = 0
wrong = 0


def check(name, seen, status, out, err):
    """Counts a case, and says what differs: `seen` is status, output and errors, `err` bytes or a pattern."""
    global done, wrong
    done += 1
    same_err = err.fullmatch(seen[2]) if isinstance(err, re.Pattern) else seen[2] == err
    if seen[:2] != (status, out) or not same_err:
        wrong += 1
        print(f"{name}: seen {seen}, expected {(status, out, err)}", file=sys.stderr)


def run(words, given=b"", redirect=""):
    """Status, output and errors of the program on a pipe, or on `given` as an open file; `redirect` is the shell's."""
    command = ["sh", "-c", f'exec "$0" "$@" {redirect}', PROGRAM, *words]
    source = {"input": given} if isinstance(given, bytes) else {"stdin": given}
    seen = subprocess.run(command, capture_output=True, timeout=60, env=ENVIRONMENT, check=False, **source)
    return seen.returncode, seen.stdout, seen.stderr


def failure(what, error):
    """The line on standard error for a failure that the system names."""
    number = {"missing": 2, "bad": 9, "directory": 21, "full": 28}[error]
    return f"pool: {what}: {os.strerror(number)} (os error {number})\n".encode()


def texts():
    """The text of each stored session under the lists of `pool`: the first of the four that `sessions` prints."""
    lines = (SESSIONS / "stdout").read_bytes().splitlines(keepends=True)
    text, name, found = b"", None, {}
    for line in lines:
        if line.endswith(b":\n"):
            name, text = line[:-2].decode(), b""
            continue
        text += line
        if line.startswith((b"end", b"refused")):
            found.setdefault(name, text)
    return found


def stored_sessions():
    """Each stored session, on standard input and as the named file."""
    expected = texts()
    names = (SESSIONS / "args").read_text().split()
    assert sorted(expected) == sorted(names), "a text for each session"
    for name in names:
        path = DATA / name
        check(f"{name} on a pipe", run([], path.read_bytes()), 0, expected[name], b"")
        with path.open("rb") as file:
            check(f"{name} on standard input", run([], file), 0, expected[name], b"")
        check(f"{name} named", run([str(path)]), 0, expected[name], b"")
    return expected["worked"]


def files(folder, text):
    """Files that can be read, and files that cannot."""
    worked = str(DATA / "worked")
    check("nothing", run([]), 0, b"refused 1\n", b"")
    with open("/dev/null", "rb") as null:
        check("the null device", run([], null), 0, b"refused 1\n", b"")
    check("-", run(["-"], (DATA / "worked").read_bytes()), 0, text, b"")
    check("-- and no file", run(["--"], (DATA / "worked").read_bytes()), 0, text, b"")
    check("-- and a file", run(["--", worked]), 0, text, b"")
    check("a named file leaves the input alone", run([worked], b"no session"), 0, text, b"")
    for name in ("--help", "-x", "two words", "line\nend", "Ünïcode"):
        (folder / name).write_bytes((DATA / "worked").read_bytes())
        check(f"named {name!r} by its path", run([f"{folder}/{name}"]), 0, text, b"")
    os.chdir(folder)
    check("-- --help", run(["--", "--help"]), 0, text, b"")
    check("a name of two words", run(["two words"]), 0, text, b"")
    for size in (LIMIT + 1, 1 << 20):
        (folder / "long").write_bytes(bytes(size))
        check(f"a file of {size} bytes", run(["long"]), 0, b"refused 3\n", b"")
        check(f"an input of {size} bytes", run([], bytes(size)), 0, b"refused 3\n", b"")
    check("a file without an end", run(["/dev/zero"]), 0, b"refused 3\n", b"")
    check("a missing file", run(["missing"]), 1, b"", failure("missing", "missing"))
    check("an empty name", run([""]), 1, b"", failure("", "missing"))
    check("a folder", run(["."]), 1, b"", failure(".", "directory"))
    check("a folder on standard input", run([], redirect="< ."), 1, b"", failure("standard input", "directory"))
    check("no standard input", run([], redirect="<&-"), 1, b"", failure("standard input", "bad"))
    check("a file and no standard input", run(["two words"], redirect="<&-"), 0, text, b"")


def words(help_text, version):
    """Arguments that ask for a text, and wrong ones."""
    for word in ("--help", "-h"):
        check(word, run([word]), 0, help_text, b"")
        check(f"{word} and a file", run(["missing", word]), 0, help_text, b"")
    for word in ("--version", "-V"):
        check(word, run([word]), 0, version, b"")
    for given in (["a", "b"], ["--unknown"], ["-x"], ["--help=yes"], ["a", "--", "b"], ["-", "-"]):
        check(f"wrong: {given}", run(given), 2, b"", WRONG)
        check(f"wrong, nowhere to say it: {given}", run(given, redirect="2>&-"), 2, b"", b"")
    check("no text", run([b"\xff"]), 1, b"", re.compile(rb"pool: arguments, which must be UTF-8 text: .*\n"))


def outputs():
    """Outputs that cannot be written to."""
    given = (pathlib.Path("two words")).read_bytes()
    for arguments in ([], ["-"], ["two words"], ["--", "two words"], ["--help"], ["-h"], ["--version"], ["-V"]):
        for redirect, error in ((">&-", "bad"), ("> /dev/full", "full")):
            name = f"{arguments} {redirect}"
            check(name, run(arguments, given, redirect), 1, b"", failure("standard output", error))
            check(f"{name} 2>&-", run(arguments, given, f"{redirect} 2>&-"), 1, b"", b"")
    for redirect in ("2>&-", "2> /dev/full"):
        check(f"a missing file {redirect}", run(["missing"], redirect=redirect), 1, b"", b"")


def ended(child):
    """What the program printed; one that does not end is killed, which its status then shows."""
    try:
        return child.communicate(timeout=10)
    except subprocess.TimeoutExpired:
        child.kill()
        return child.communicate()


def on_terminal(arguments, streams, typed):
    """Status, output and errors where the named streams are a terminal; `typed` is typed once the program waits."""
    ours, theirs = pty.openpty()
    at = {name: theirs if name in streams else subprocess.PIPE for name in ("stdin", "stdout", "stderr")}
    with subprocess.Popen([PROGRAM, *arguments], env=ENVIRONMENT, **at) as child:
        os.close(theirs)
        said = b""
        if typed is not None:
            # The line has to come before anything is typed.
            if select.select([child.stderr], [], [], 10)[0]:
                said = os.read(child.stderr.fileno(), 4096)
            os.write(ours, typed)
        out, err = ended(child)
    shown = b""
    try:
        while "stdin" not in streams and (more := os.read(ours, 4096)):
            shown += more
    except OSError:
        pass
    os.close(ours)
    return child.returncode, shown.replace(b"\r\n", b"\n") if "stdout" in streams else out, said + (err or b"")


def terminals(text, help_text):
    """The waiting line comes where standard input is a terminal and is read, and nowhere else."""
    end_of_input = b"\x04"
    for arguments in ([], ["-"], ["--"]):
        seen = on_terminal(arguments, ["stdin"], end_of_input)
        check(f"{arguments} on a terminal", seen, 0, b"refused 1\n", WAITING)
        seen = on_terminal(arguments, ["stdin"], b"typed\n" + end_of_input)
        check(f"{arguments} on a terminal, typed", seen, 0, b"refused 1\n", WAITING)
    check("a file, at a terminal", on_terminal(["two words"], ["stdin"], None), 0, text, b"")
    check("--help, at a terminal", on_terminal(["--help"], ["stdin"], None), 0, help_text, b"")
    check("missing, at a terminal", on_terminal(["missing"], ["stdin"], None), 1, b"", failure("missing", "missing"))
    check("a pipe, shown on a terminal", on_terminal([], ["stdout"], None), 0, b"refused 1\n", b"")
    with subprocess.Popen(
        [PROGRAM], stdin=subprocess.PIPE, stdout=subprocess.PIPE, stderr=subprocess.PIPE, env=ENVIRONMENT
    ) as child:
        # A pipe that stays open: the program waits, and says nothing.
        silent = not select.select([child.stderr], [], [], 0.2)[0]
        out, err = ended(child)
        check("a pipe that waits", (child.returncode, out, err), 0, b"refused 1\n", b"" if silent else WAITING)


def main():
    help_text = (HERE / "help.txt").read_bytes()
    version = (HERE / "version.txt").read_bytes()
    with tempfile.TemporaryDirectory() as folder:
        text = stored_sessions()
        files(pathlib.Path(folder), text)
        words(help_text, version)
        outputs()
        terminals(text, help_text)
        os.chdir("/")
    print(f"pool: {done} cases, {wrong} differ")
    return 1 if wrong else 0


sys.exit(main())
