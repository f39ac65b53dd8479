"""Tests that other runners make: cargo's and Python's own. Their counts are read from what they print, and their status has the last word."""
import os
import re
import subprocess
import sys

from tally import Words

LOGS = os.path.join("target", "test")


def logged(name, command, **changed):
    """Runs a command with some variables changed, and keeps what it printed in target/test. Its status, and what it printed."""
    done = subprocess.run(command, stdin=subprocess.DEVNULL, stdout=subprocess.PIPE, stderr=subprocess.STDOUT, env=dict(os.environ, **changed))
    os.makedirs(LOGS, exist_ok=True)
    with open(os.path.join(LOGS, name + ".log"), "wb") as file:
        file.write(done.stdout)
    return done.returncode, done.stdout.decode("utf-8", "backslashreplace")


def telling(text):
    """The line that says most: the first that names an error, alone or behind the place of a file, else the last."""
    lines = text.strip().splitlines() or ["nothing"]
    return Words(next((line for line in lines if re.match(r"(\S+:\d+:\d+: )?error", line)), lines[-1]))


def record(tally, name, status, text, count, names):
    """Counts a runner's tests. A runner that failed is a failure though it names no test, and so is one that ran none."""
    log = Words("a pass; its words are in %s" % os.path.join(LOGS, name + ".log"))
    for failed in names:
        tally.fails(failed, Words("a failure"), log)
    tally.passes(max(count - len(names), 0))
    if status != 0 and not names:
        tally.fails("the runner, which ended with %d" % status, telling(text), log)
    elif count == 0:
        tally.fails("the runner", Words("no test"), log)


def rust(tally):
    """The package's tests, over the library that has just been built."""
    command = ["cargo", "test", "--offline", "--no-fail-fast", "--manifest-path", os.path.join("rust", "Cargo.toml")]
    status, text = logged("rust", command, HEJSLOPI_LIB_DIR=os.path.abspath(os.path.join("target", "staticlib")))
    results = re.findall(r"^test result: \w+\. (\d+) passed; (\d+) failed; (\d+) ignored", text, re.M)
    passed, failed, ignored = (sum(map(int, column)) for column in zip(*results)) if results else (0, 0, 0)
    names = sorted(set(re.findall(r"^---- (.+) stdout ----$", text, re.M)))
    names += ["a test without a name"] * (failed - len(names))
    record(tally, "rust", status, text, passed + failed, names)
    if ignored:
        tally.skips("tests that cargo ignores", ignored)


def python(tally):
    """The module's tests. A test with several failing parts is one failure."""
    status, text = logged("python", [sys.executable, os.path.join("python", "test_hejslopi.py")])
    ran = re.search(r"^Ran (\d+) tests? in ", text, re.M)
    names = sorted(set(re.findall(r"^(?:FAIL|ERROR|UNEXPECTED SUCCESS): (\S+ \([^)]*\))", text, re.M)))
    skipped = re.search(r"^(?:OK|FAILED) \(.*\bskipped=(\d+)", text, re.M)
    left_out = int(skipped.group(1)) if skipped else 0
    record(tally, "python", status, text, int(ran.group(1)) - left_out if ran else 0, names)
    if left_out:
        tally.skips("tests that Python left out", left_out)
