"""The cases that wait to be played, and what only so many of them may have at the same time."""
import collections
import threading

# Clients unchoke four peers, some more. A fifth case would wait for one of the others, and not for the client.
UNCHOKES = 4


class Waiting:
    """Cases in their order. Those that ask to be unchoked are taken by so many at a time as a client unchokes."""

    def __init__(self, cases):
        self.cases, self.changed, self.unchokes = collections.deque(cases), threading.Condition(), collections.Counter()

    def __len__(self):
        return len(self.cases)

    def add(self, cases):
        with self.changed:
            self.cases.extend(cases)

    def take(self, lane, ends):
        """The next case that the lane may begin; None if there is none, or once `ends()` holds."""
        with self.changed:
            while self.cases and not ends():
                for case in self.cases:
                    if not case.asks_unchoke or self.unchokes[lane] < UNCHOKES:
                        self.cases.remove(case)
                        self.unchokes[lane] += case.asks_unchoke
                        return case
                self.changed.wait(0.1)
        return None

    def played(self, lane, case):
        """The lane has played it."""
        with self.changed:
            self.unchokes[lane] -= case.asks_unchoke
            self.changed.notify_all()


class Turn:
    """A place among so many, held until it is given back; giving it back again does nothing."""

    def __init__(self, places):
        self.places, self.held = places, places is not None
        if self.held:
            places.acquire()

    def back(self):
        if self.held:
            self.held = False
            self.places.release()
