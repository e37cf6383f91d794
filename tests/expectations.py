"""What a test expects, and how it fails."""

import time

# How many seconds any answer may take, as may the end of a process. Machines may be busy.
PATIENCE = 120
# How many bytes of a text a failure shows at most.
SHOWN = 600


class Failed(Exception):
    """A test has failed. The text says what was wanted and what came."""


def shown(value):
    text = repr(value)
    return text if len(text) <= SHOWN else f"{text[:SHOWN]}.. ({len(value)} in all)"


def expect(holds, what):
    if not holds:
        raise Failed(what)


def expect_equal(got, wanted, what):
    if got != wanted:
        raise Failed(f"{what}\n    wanted {shown(wanted)}\n    got    {shown(got)}")


def wait_until(holds, what, seconds=PATIENCE):
    """Waits until a condition holds, and fails if it doesn't within some seconds."""
    end = time.monotonic() + seconds
    while not holds():
        expect(time.monotonic() < end, f"not within {seconds} s: {what}")
        time.sleep(0.005)


def first_line(text):
    """The fault that standard error names. A line below it may name the mistake."""
    return text.partition(b"\n")[0] + b"\n" if text else text


def octets(text):
    return text if isinstance(text, bytes) else text.encode()
