"""How far long work is: one line on standard error that is written over, and only where that is a terminal.

It uses a carriage return and blanks, and no escape, so it does no harm where a terminal is a file after all."""
import shutil
import sys
import threading
import time

# It is written anew this often at most, in seconds: a terminal isn't what long work waits for.
PAUSE = 0.2


class Progress:
    """`whole` is how much there is, in units; 0 where nobody knows."""

    def __init__(self, whole=0, unit="", stream=None):
        self.whole, self.unit, self.stream = whole, unit, sys.stderr if stream is None else stream
        self.is_shown, self.width, self.last, self.began = self.stream.isatty(), 0, 0.0, time.monotonic()
        self.lock = threading.Lock()

    def at(self, done, more=""):
        """So much is done."""
        now = time.monotonic()
        if not self.is_shown or now - self.last < PAUSE:
            return
        self.last = now
        share = f" ({100 * done / self.whole:.0f} %)" if self.whole else ""
        whole = f" of {self.whole:,}" if self.whole else ""
        self.show(f"{done:,}{whole} {self.unit}{share}, {clock(now - self.began)}{f', {more}' if more else ''}")

    def show(self, text):
        """This text, in place of the last one."""
        if not self.is_shown:
            return
        with self.lock:
            text = "".join(it if " " <= it <= "~" else "?" for it in text)[: shutil.get_terminal_size().columns - 1]
            self.stream.write(f"\r{text}{' ' * (self.width - len(text))}\r")
            self.stream.flush()
            self.width = len(text)

    def clear(self):
        if self.width:
            self.show("")

    def say(self, text):
        """A line on standard output, with nothing of the one that is written over beside it."""
        self.clear()
        print(text, flush=True)


def clock(seconds):
    """Minutes and seconds, or seconds alone."""
    minutes, seconds = divmod(int(seconds), 60)
    return f"{minutes} min {seconds:02} s" if minutes else f"{seconds} s"
