"""How long is waited for what, how much is played at the same time, and what was learned of the client meanwhile."""

# So many cases without an answer show that the client doesn't give one.
ENOUGH = 3


class Options:
    """Times, numbers, and what this client never does."""

    def __init__(self, patience=4.0, unchoke=25.0, level="must", at_once=6, settle=0.0, longest=float("inf"), clients=None):
        self.longest, self.clients = longest, at_once if clients is None else clients
        self.patience, self.unchoke, self.level, self.at_once, self.settle = patience, unchoke, level, at_once, settle
        self.never, self.did, self.later, self.answered, self.mute = 0, False, 0, False, 0

    def at_most(self, seconds):
        """A time that a case states, cut for the suite's own tests."""
        return min(seconds, self.longest)

    def unchoke_wait(self):
        """A client that unchoked nobody in three cases is waited for only a second."""
        return self.unchoke if self.did or self.never < ENOUGH else min(1.0, self.unchoke)

    def unchoked(self, was):
        self.did |= was
        self.never += not was

    def later_wait(self, seconds):
        """So it is with a question after one that got no answer, if in three cases none of these was answered."""
        return seconds if self.answered or self.later < ENOUGH else min(1.0, seconds)

    def later_answered(self, was):
        self.answered |= was
        self.later += not was

    @property
    def hung(self):
        """Whether the client answered none of the last three handshakes."""
        return self.mute >= ENOUGH

    def greeted(self, was):
        self.mute = 0 if was else self.mute + 1
