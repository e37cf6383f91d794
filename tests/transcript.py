"""What was said on both sides of a test, for `./test -v`."""

import threading
import time

# How many bytes of one message are shown.
SHOWN = 400


class Transcript:
    """Lines, each with its time in the test. Threads of a test may add to it."""

    def __init__(self):
        self._since = time.monotonic()
        self._lines = []
        self._lock = threading.Lock()

    def add(self, who, what):
        text = repr(what) if isinstance(what, bytes) else str(what)
        if len(text) > SHOWN:
            text = f"{text[:SHOWN]}.. ({len(text)} in all)"
        with self._lock:
            self._lines.append(f"    {time.monotonic() - self._since:7.3f} {who} {text}")

    def text(self):
        with self._lock:
            return "\n".join(self._lines)
