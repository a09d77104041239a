"""How far a call is, told on a terminal."""
import time


class Progress:
    """One line on the stream that is written over itself: after the first second, and only where the stream is a terminal."""

    def __init__(self, stream, what):
        self.stream, self.what, self.is_told = stream, what, False
        self.next = time.monotonic() + 1 if stream.isatty() else None

    def tell(self, number):
        """Hears how many rows were read. It looks at the clock for one of a thousand."""
        if self.next is not None and number % 1000 == 0 and time.monotonic() >= self.next:
            self.stream.write(f'\r\033[K{self.what}: {number:,} rows')
            self.stream.flush()
            self.next, self.is_told = time.monotonic() + 0.5, True

    def clear(self):
        if self.is_told:
            self.stream.write('\r\033[K')
            self.stream.flush()
            self.is_told = False
