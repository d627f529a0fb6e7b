"""How far a long call is, where standard error is a terminal."""
import sys
import threading


class Progress:
    """Counts what is done of so many. Writes nothing of few, and nothing where nobody watches."""

    def __init__(self, total, words, least=2, stream=None):
        self.stream = stream or sys.stderr
        self.words = words
        self.total = total
        self.done = 0
        self.is_shown = total >= least and self.stream.isatty()
        self.lock = threading.Lock()

    def __enter__(self):
        self.show()
        return self

    def __exit__(self, *_):
        if self.is_shown:
            self.stream.write("\r\033[K")
            self.stream.flush()

    def step(self):
        with self.lock:
            self.done += 1
            self.show()

    def show(self):
        if self.is_shown:
            self.stream.write("\r\033[K%d of %d %s" % (self.done, self.total, self.words))
            self.stream.flush()
