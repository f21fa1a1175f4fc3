"""One client and what is played on it: several cases at a time, and each death of the client given to one case."""
import threading
import time

from . import wire
from .result import plain_result

MOST_STARTS = 40
# A case that ended so many seconds before a death may have caused it.
SUSPECT = 3.0
# So many connections at a time wait for the client's handshake: some clients take only three in a second.
OPENINGS = 6
# So many cases that run by themselves may wait for an answer while the next one runs.
OVERLAP = 6


def lives_on(client, seconds=0.3):
    """Whether the client still lives a moment later."""
    limit = time.monotonic() + seconds
    while client.lives() and time.monotonic() < limit:
        time.sleep(0.02)
    return client.lives()


class Lane:
    """A client, what connects to it, and the cases that it gets."""

    def __init__(self, suite, client, dialler):
        self.suite, self.client, self.dialler, self.gone, self.died, self.deaths = suite, client, dialler, False, [], 0
        self.ready = self.dials = hasattr(dialler, "command")
        self.openings, self.alone = threading.Semaphore(OPENINGS), threading.Semaphore(1)

    def ended(self):
        """Whether nothing more comes from the client, since it died or the run was ended."""
        return self.suite.over or not self.client.lives()

    def link(self):
        """A connection to the client, which ends with it."""
        link = self.dialler.link()
        link.ended_by = self.ended
        return link

    def start(self):
        """Starts the client, and says whether it came up."""
        try:
            self.begin()
        except OSError:
            self.gone = True
            return False
        if not self.dials:
            patience = self.suite.options.patience
            self.ready = self.is_ready(min(20, 5 * patience) if self.client.restarts else 2 * patience)
        return True

    def begin(self):
        """Starts the client. Raises OSError."""
        self.client.start()
        if self.dialler is None:
            self.dialler = self.suite.dialler.to(self.client.address)

    def start_again(self):
        with self.suite.lock:
            self.suite.starts += 1
        return self.start()

    def is_ready(self, seconds=20):
        """Waits until a client that was just started answers a handshake: it may listen before its torrent is loaded."""
        limit = time.monotonic() + seconds
        while True:
            try:
                link = self.link()
                link.agree(0)
                link.send(wire.handshake(0, self.suite.torrent.hash, link.peer_id))
                answered = link.until(lambda: link.heard.theirs is not None, 2)
                link.close()
            except OSError:
                answered = False
            if answered or time.monotonic() > limit or self.ended() or not self.client.wanted():
                return answered
            time.sleep(0.05)

    def stopped(self):
        """Whether the client has died and isn't started again."""
        return self.gone or self.deaths > 0 and (not self.client.restarts or self.suite.starts > MOST_STARTS)

    # The cases.

    def play_all(self, waiting, at_once, alone=False):
        """Plays what waits. After a death the suspects run one at a time, each until one of them kills the client."""
        while len(waiting) and not self.stopped() and not self.suite.over:
            done, death = self.together(waiting, at_once, alone)
            if self.suite.over:
                return
            if death is None:
                for result in done:
                    self.suite.keep(result)
                continue
            suspects = {result["id"]: result for result in done if result.end >= death - SUSPECT}
            for result in done:
                if result["id"] not in suspects:
                    self.suite.keep(result)
            self.deaths += 1
            by_itself = len(suspects) == 1 and (alone or at_once == 1)
            found = [case for case in self.suite.cases if case.id in suspects]
            if not by_itself and self.suite.later(found):
                self.start_again()
            else:
                self.blame(found, suspects, by_itself)

    def together(self, waiting, at_once, alone):
        """Plays until nothing waits or the client died. Returns the results, and when it died."""
        def play(case, turn):
            return self.suite.play(case, self, turn)
        workers, places = (min(OVERLAP, at_once), self.alone) if alone else (at_once, None)
        done, death = self.suite.each(waiting, workers, play, self.has_died, self, places)
        # A process ends a little later than its connections.
        if death is None and any(result["state"] == "closed" for result in done) and self.is_gone():
            death = time.monotonic()
        return done, death

    def has_died(self, result):
        """Whether the client is gone: its process has ended, or nobody listens any more."""
        if not self.client.lives():
            return True
        return result["state"] == "unreachable" and self.is_gone()

    def is_gone(self, seconds=2):
        """Whether the client's process ends, or nobody listens for some seconds."""
        limit = time.monotonic() + seconds
        while self.client.lives():
            try:
                if not self.dials:
                    self.link().close()
                return not lives_on(self.client)
            except OSError:
                if time.monotonic() > limit:
                    return True
                time.sleep(0.02)
        return True

    # The deaths.

    def blame(self, suspects, results, by_itself):
        """Finds the case that killed the client."""
        if not self.client.restarts or by_itself:
            self.blame_all(suspects, results)
            if self.client.restarts and self.suite.starts <= MOST_STARTS:
                self.start_again()
            return
        self.start_again()
        for case in suspects:
            self.try_again(case)
        if not self.suite.over:
            self.unfound(suspects)

    def unfound(self, suspects):
        """Notes a death if none of its suspects died when it was played by itself."""
        if not {case.id for case in suspects} & set(self.suite.died):
            self.note_death("one of %s, not again by itself" % ", ".join(case.id for case in suspects[:5]))

    def try_again(self, case):
        """Plays a suspect by itself. The client is started again if it dies."""
        if self.suite.over:
            return
        if self.stopped():
            self.suite.keep(plain_result(case, "skip", ["the client had died"]))
            return
        result = self.suite.play(case, self)
        died = self.is_gone()
        if self.suite.over:
            return
        if died:
            self.deaths += 1
            self.dead(case, result, [])
        self.suite.keep(result)
        if died:
            self.start_again()

    def blame_all(self, suspects, results):
        """Gives a death that can't be tried again to what ran at the time."""
        likely = [case for case in suspects if results[case.id]["state"] not in ("alive", "skip", "unreachable")] or suspects
        for case in suspects:
            if case in likely:
                self.dead(case, results[case.id], [other.id for other in likely if other is not case])
            elif results[case.id]["state"] == "unreachable":
                results[case.id] = plain_result(case, "skip", ["the client had died"])
            self.suite.keep(results[case.id])

    def dead(self, case, result, others):
        """Gives a death to a case."""
        status = self.client.status()
        died = "THE CLIENT DIED" + (" (status %s)" % status if status is not None else "")
        if others:
            died += ", in this case or in %s: --start or --jobs 1 tells" % ", ".join(others[:5])
        result["result"], result["state"] = "fail", "died"
        result["said"] = result["said"] + [died]
        self.note_death(case.id)

    def note_death(self, words):
        self.died.append(words)
        with self.suite.lock:
            self.suite.died.append(words)

    def play_one(self, case):
        """Starts the client for one case, and ends it."""
        try:
            self.begin()
            self.is_ready()
            result = self.suite.play(case, self)
            # (a run that ends takes its clients away)
            if not lives_on(self.client) and not self.suite.over:
                self.dead(case, result, [])
        except OSError as error:
            result = plain_result(case, "error", ["a new client couldn't be started: %s" % error])
        finally:
            self.client.stop()
        return result
