"""A progress bar for a terminal."""
import time

# Shorter listings show no bar.
PATIENCE = 0.5
WIDTH = 30


class Progress:
    """Shows how far a listing is, on one text line that is cleared in the end. On what is no terminal it shows nothing."""

    def __init__(self, stream):
        self._stream, self._began, self._shown = stream, time.monotonic(), False

    def __enter__(self):
        return self

    def show(self, passed, pairs):
        if not self._stream.isatty() or time.monotonic() - self._began < PATIENCE:
            return
        part = passed / pairs if pairs else 1
        bar = ("#" * int(part * WIDTH)).ljust(WIDTH, ".")
        self._stream.write(f"\r[{bar}] {part:4.0%}  {passed:,} of {pairs:,} pairs")
        self._stream.flush()
        self._shown = True

    def __exit__(self, *_):
        if self._shown:
            self._stream.write("\r\x1b[K")
            self._stream.flush()
