"""How far a run of parts is, on a terminal: parts, households a second, and the time that is left."""
import sys
import threading
import time


def spell(seconds):
    """A number of seconds in words."""
    seconds = round(seconds)
    if seconds < 60:
        return f"{seconds} s"
    if seconds < 3600:
        return f"{seconds // 60} min {seconds % 60} s"
    return f"{seconds // 3600} h {seconds % 3600 // 60} min"


class Progress:
    """A line on standard error that is rewritten with each part, if that is a terminal. `left` are the parts and the households that have no answer yet,
    of all parts."""

    def __init__(self, parts, left_parts, left_households):
        self.parts, self.done, self.left, self.computed = parts, parts - left_parts, left_households, 0
        self.begun, self.lock, self.is_shown = time.monotonic(), threading.Lock(), sys.stderr.isatty()

    def add(self, households):
        """One more part has its answer."""
        with self.lock:
            self.done += 1
            self.computed += households
            if self.is_shown:
                print(f"\r{self.line()}\x1b[K", end="", file=sys.stderr, flush=True)

    def line(self):
        """What is shown."""
        rate = self.computed / max(time.monotonic() - self.begun, 0.001)
        left = max(self.left - self.computed, 0)
        told = f"{spell(left / rate)} left" if rate else "time unknown"
        return f"scale: {self.done} of {self.parts} parts, {rate:,.0f} households a second, {told}"

    def end(self):
        """Ends the line."""
        if self.is_shown and self.computed:
            print(file=sys.stderr)
