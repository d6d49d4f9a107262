"""What `otp` says of a function's file."""
import os
import subprocess
import sys
import tempfile
from collections import namedtuple

TOP = os.path.dirname(os.path.dirname(os.path.dirname(os.path.abspath(__file__))))
PROGRAM = os.environ.get("OTP") or os.path.join(TOP, "otp")

# What was shown: 0, 1 or 2 of the properties, in what words of `otp`, and which answer shows that there is no more.
Level = namedtuple("Level", "properties accepted more")


def run(*words):
    done = subprocess.run([PROGRAM, *words], stdin=subprocess.DEVNULL, stdout=subprocess.PIPE, check=False)
    return done.returncode, done.stdout.decode()


def judged(judge, path, text):
    """What `check` or `confirm` says of what was written."""
    with tempfile.NamedTemporaryFile("w", suffix=".cert") as file:
        file.write(text)
        file.flush()
        return run(judge, "--", path, file.name)


def decided(path, *words):
    """The status and the words of `prove`, or of `settle` where `prove` is spent; of a yes those of its judge."""
    command, judge = "prove", "check"
    status, text = run(command, *words, "--", path)
    if status == 8:
        command, judge = "settle", "confirm"
        status, text = run(command, *words, "--", path)
    if status == 0:
        status, text = judged(judge, path, text)
        command = judge
    if status < 0:
        sys.exit(f"translate: otp was ended by signal {-status}")
    if status not in (0, 1, 8):
        sys.stdout.write(text)
        if not text:
            print(f"translate: of {path} otp ends with {status} (docs/STATUS.md)", file=sys.stderr)
        sys.exit(status)
    return status, f"`otp {command}` answers `{text.splitlines()[0]}`"


def level_of(path):
    """What was shown of a function; ends as `otp` does where that refuses the file."""
    status, words = decided(path)
    if status == 0:
        return Level(2, words, None)
    first, accepted = decided(path, "--tp1")
    if first == 0:
        return Level(1, accepted, words)
    return Level(0, None, accepted if first == 1 else words)
