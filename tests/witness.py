"""What the scripts of this folder share: the programs, the checks, the last line."""

import os
import pathlib
import subprocess
import sys
import tempfile

CLERK = os.environ.get("CLERK", "bin/clerk")
SECOND = "second/target/release/second"
GEN = "second/target/release/gen"
COUNT = "second/target/release/count"
SECONDS_ALLOWED = 120
# what a test leaves to be looked at
pathlib.Path("target").mkdir(exist_ok=True)
SHEET_LINES = 9

# Each profile of the generator with the length of its logs: a table needs
# some time to reach its limit, and one sheet is enough for a look at sheets.
PROFILES = {
    "cash": 1000,
    "tiny": 1000,
    "shorts": 1000,
    "ladder": 1000,
    "limit": 3000,
    "deserters": 1000,
    "refusals": 1000,
    "damage": 1000,
    "sheets": 10,
    "four": 1000,
    "short": 1000,
}


class Checks:
    """Prints one line per check; `finish` prints the sum and ends the script."""

    def __init__(self):
        self.passed = self.failed = 0

    def check(self, name, good, detail=""):
        self.passed += bool(good)
        self.failed += not good
        print(f"{'ok  ' if good else 'FAIL'} {name}{'' if good or not detail else ': ' + detail}", flush=True)
        return good

    def finish(self):
        print(f"{self.passed} passed, {self.failed} failed")
        sys.exit(self.failed > 0)


def need(*programs):
    """Ends the script where a program is not there to be tested."""
    for program in programs:
        if not os.access(program, os.X_OK):
            print(f"FAIL {program} is not there or cannot be run\n0 passed, 1 failed")
            sys.exit(1)


def number_argument(place, default):
    return int(sys.argv[place]) if len(sys.argv) > place else default


def run(program, data):
    """Exit status and whole output of a program, or of a list of it and its options; a negative status names a signal."""
    command = program if isinstance(program, list) else [program]
    done = subprocess.run(command, input=data, stdout=subprocess.PIPE, timeout=SECONDS_ALLOWED)
    return done.returncode, done.stdout


def make_log(seed, entries, profile):
    command = [GEN, str(seed), str(entries), "--profile", profile]
    return subprocess.run(command, stdout=subprocess.PIPE, check=True).stdout


def blocks_of(log):
    """The sheet's lines, then block after block, each with its five LFs if it has them."""
    lines = [line + b"\n" for line in log.split(b"\n")]
    lines[-1] = lines[-1][:-1]
    return [b"".join(lines[:SHEET_LINES])] + [b"".join(lines[i : i + 5]) for i in range(SHEET_LINES, len(lines), 5)]


def difference(log):
    """Nothing where both programs agree on the log; else where they part."""
    status, ours = run(CLERK, log)
    _, theirs = run(SECOND, log)
    if status != 0:
        return f"exit status {status}; log kept in {keep(log)}"
    if ours == theirs:
        return None
    same = next((i for i, pair in enumerate(zip(ours, theirs)) if pair[0] != pair[1]), min(len(ours), len(theirs)))
    start = max(theirs.rfind(b"\nn=", 0, same) + 1, 0)
    return (
        f"answers part at byte {same}, in the answer that begins at {start}\n"
        f"  clerk:  {ours[start : same + 120]!r}\n"
        f"  second: {theirs[start : same + 120]!r}\n"
        f"  answer number {theirs[:start].count(b'code=') + 1}; log kept in {keep(log)}"
    )


def keep(log):
    with tempfile.NamedTemporaryFile(prefix="differs-", suffix=".log", delete=False) as kept:
        kept.write(log)
        return pathlib.Path(kept.name)


def same_lines(checks, name, ours, theirs, lines):
    """Both programs on these lines; names the first line they answer otherwise."""
    data = "".join(line + "\n" for line in lines).encode()
    (status, our_answers), (_, their_answers) = run(ours, data), run(theirs, data)
    detail = f"exit status {status}, {our_answers.count(10)} answers for {len(lines)} lines"
    for line, our, their in zip(lines, our_answers.splitlines(), their_answers.splitlines()):
        if our != their:
            detail = f"{line!r} gives {our!r} and not {their!r}"
            break
    checks.check(f"{name}: {len(lines)} lines", status == 0 and our_answers == their_answers, detail)
