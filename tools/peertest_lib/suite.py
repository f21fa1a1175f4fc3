"""Runs the cases: a gate case first, then several at a time, on one client or on several of the same kind."""
import threading
import time

from . import cases as own_cases
from . import judge
from .client import PROCESSES
from .lane import Lane
from .link import DryLink
from .options import Options
from .play import Play, Skip
from .result import plain_result
from .waiting import Turn, Waiting

GATE = "hs.plain"
# So many seconds what runs may take to end, once a signal came: after ten, or fewer, what ends a run in CI kills it.
LEAVE = 3.0
# A further client is started after so many seconds, if so many cases wait.
FURTHER, WORTH = 1.0, 12
# The suspects of so many deaths are played at the end, if several clients can share them.
DEATHS = 10
# These clients get first what has to be alone.
EARLY = (1, 2)


class Suite:
    """The cases against one client. `tell` is called with each result, `count` with how many were played."""

    def __init__(self, torrent, mode, cases, dialler, client, options, tell=lambda result: None, count=lambda played: None):
        self.torrent, self.mode, self.cases, self.dialler, self.client = torrent, mode, cases, dialler, client
        self.options, self.tell, self.results, self.died = options, tell, {}, []
        self.peer_id, self.starts, self.lock, self.unkept = "", 0, threading.RLock(), {}
        self.over, self.count, self.played, self.told, self.faults, self.first = False, count, 0, 0, [], None
        self.apart, self.groups = None, []

    # One case.

    def play(self, case, lane=None, turn=None):
        """One case, with the client of a lane. Its turn is given back once it only waits for an answer."""
        lane, link, others = lane or self.lane(), None, []

        def other():
            others.append(lane.link())
            return others[-1]
        opening, turn = Turn(lane.openings), turn or Turn(None)
        begin = time.monotonic()
        try:
            if lane.ended():
                raise OSError("the client had died")
            link = lane.link()
            play = Play(case, link, self.mode, self.options)
            play.run(other, opening.back, turn.back)
            found = judge.judged(play, self.options.level)
            if not judge.kept_word(play):
                found["said"].append("the suite sent another stream than the case states")
                found["result"] = "error"
        except Skip as skip:
            found = {"result": "skip", "said": [str(skip)], "state": "skip"}
        except OSError as error:
            found = {"result": "fail", "said": ["it can't be reached: %s" % (error.strerror or error)], "state": "unreachable"}
        finally:
            for one in others:
                one.close()
            opening.back()
            turn.back()
        return self.finish(case, link, found, begin)

    def finish(self, case, link, found, begin):
        result = plain_result(case, found["result"], found["said"], time.monotonic() - begin)
        result["state"], result["rule"] = found["state"], found.get("rule", "")
        if link is not None:
            link.close()
            if hasattr(link, "process"):
                result["result"], more = judge.dialled(link, result["result"])
                result["said"] = result["said"] + more
            result["events"] = [[round(when, 3), word] for when, word in link.heard.events[:60]]
            result.sent, result.got = bytes(link.sent), bytes(link.heard.got)
            self.peer_id = self.peer_id or link.heard.peer_id[:8].decode("latin1")
        if self.options.settle:
            time.sleep(self.options.settle)
        result.begin, result.end = begin, time.monotonic()
        return result

    def keep(self, result):
        """Keeps a result, and tells those that are known in the order of the cases."""
        with self.lock:
            self.unkept.pop(result["id"], None)
            self.results[result["id"]] = result
            while self.told < len(self.cases) and self.cases[self.told].id in self.results:
                self.tell(self.results[self.cases[self.told].id])
                self.told += 1

    def cut(self):
        """Keeps what was played, after the run was ended from outside. The other cases are skipped."""
        with self.lock:
            played = {**self.results, **self.unkept}
            for case in self.cases[self.told:]:
                if case.id in played:
                    self.tell(played[case.id])
                self.results[case.id] = played.get(case.id) or plain_result(case, "skip", ["the run was ended before"])
            self.unkept, self.told = {}, len(self.cases)

    # The order.

    def run(self):
        """All cases. Returns the exit status."""
        together = [case for case in self.cases if not case.alone and not case.fresh]
        alone = [case for case in self.cases if case.alone and not case.fresh]
        fresh = [case for case in self.cases if case.fresh]
        main = self.lane()
        if main.dials:
            together, alone, fresh = self.cases, [], []
        self.on_lanes(main, Waiting(together), Waiting(alone))
        self.run_fresh(main, fresh)
        self.twins()
        places = {case.id: number for number, case in enumerate(self.cases)}
        self.died.sort(key=lambda name: places.get(name, len(places)))
        if self.died:
            return 4
        return 1 if any(result["result"] in ("fail", "error") for result in self.results.values()) else 0

    def lane(self):
        return Lane(self, self.client, self.dialler)

    def on_lanes(self, main, together, alone):
        """Plays what can be played at the same time, and then what can't, on each client."""
        count = self.options.clients if self.client.several and len(self.cases) > 1 else 1
        if count > 1:
            alone = Waiting(sorted(alone.cases, key=lambda case: not case.has_crowd))
        most = min(self.options.at_once, self.options.clients) if main.dials else self.options.at_once
        workers = max(1, most // count)

        self.apart, self.groups, busy = Waiting([]) if count > 1 else None, [], set(range(count))

        def work(number):
            lane = None
            try:
                lane = main if number == 0 else self.further(number, together, alone)
                if lane is not None:
                    # (what takes longest is begun early, if there are clients for it)
                    for those in (alone, together) if number in EARLY else (together, alone):
                        lane.play_all(those, workers, those is alone)
            finally:
                busy.discard(number)
            if lane is not None:
                try:
                    self.play_apart(lane, busy)
                finally:
                    if lane is not main:
                        lane.client.stop()
        self.joined([threading.Thread(target=self.watched, args=(work, number), daemon=True) for number in range(count)])
        for case in [*together.cases, *alone.cases, *(self.apart or Waiting([])).cases]:
            self.keep(plain_result(case, "skip", ["the client had died"]))
        for suspects in self.groups:
            main.unfound(suspects)

    def later(self, suspects):
        """Whether the suspects of a death are left to all clients, which play them one by one at the end."""
        with self.lock:
            if self.apart is None or len(self.groups) >= DEATHS:
                return False
            self.groups.append(suspects)
            for case in suspects:
                self.unkept.pop(case.id, None)
        self.apart.add(suspects)
        return True

    def play_apart(self, lane, busy):
        """Plays the suspects by themselves, until no client can leave further ones."""
        while self.apart is not None and not self.over and not lane.stopped() and (busy or self.apart):
            case = self.apart.take(lane, lambda: self.over)
            if case is None:
                time.sleep(0.05)
                continue
            try:
                lane.try_again(case)
            finally:
                self.apart.played(lane, case)

    def further(self, number, together, alone):
        """One more client, if it is worth it and comes up; the run goes on without it if not."""
        limit = time.monotonic() + FURTHER * number
        while time.monotonic() < limit and not self.over and (together or alone):
            time.sleep(0.05)
        if self.over or len(together) < WORTH and len(alone) < 2:
            return None
        lane = Lane(self, self.client.copy(), None)
        lane.client.wanted = lambda: not self.over and bool(together or alone)
        # (it may share with the first one what only one can have)
        if lane.start() and lane.ready and (self.first is None or self.play(self.first, lane)["result"] == "pass"):
            lane.client.wanted = lambda: True
            return lane
        lane.client.stop()
        return None

    def watched(self, work, *words):
        """Does some work in a thread, and keeps what it raises for the run's own."""
        try:
            work(*words)
        except Exception as fault:
            self.faults.append(fault)

    def run_fresh(self, main, cases):
        """Cases whose client has to be a new one, since its state belongs to the torrent and not to the connection."""
        if self.client.movable:
            most = min(self.options.at_once, self.options.clients)
            self.each(Waiting(cases), most, self.play_moved, lambda result: False, None)
            for case in cases:
                self.keep(self.unkept[case.id])
            return
        for number, case in enumerate(cases):
            if self.client.restarts:
                main.start_again()
            elif number:
                self.keep(plain_result(case, "skip", ["it needs a new client: give --start, or run it by --only"]))
                continue
            waiting = Waiting([case])
            self.joined([threading.Thread(target=self.watched, args=(main.play_all, waiting, 1), daemon=True)])
            for left in waiting.cases:
                self.keep(plain_result(left, "skip", ["the client had died"]))

    def play_moved(self, case, _=None):
        """One case with a new client of its own, at another port."""
        return Lane(self, self.client.copy(), None).play_one(case)

    def start(self):
        """Starts the client, and says whether it came up."""
        self.starts += 1
        return self.lane().start()

    def each(self, waiting, workers, play, is_dead, lane, places=None):
        """Plays what waits, so many at a time, until one leaves a dead client. Returns the results, and when that was."""
        done, dead = [], []

        def ends():
            return bool(dead) or self.over

        def work():
            while True:
                turn = Turn(places)
                case = waiting.take(lane, ends)
                if case is None:
                    turn.back()
                    return
                try:
                    result = play(case, turn)
                except Exception as error:  # a fault of the suite fails the run and not the thread
                    result = plain_result(case, "error", [repr(error)])
                    result.end = time.monotonic()
                finally:
                    turn.back()
                    waiting.played(lane, case)
                with self.lock:
                    if self.over:
                        return
                    done.append(result)
                    self.unkept[result["id"]] = result
                    self.played += 1
                    self.count(self.played)
                if is_dead(result):
                    dead.append(time.monotonic())
        self.joined([threading.Thread(target=work, daemon=True) for _ in range(min(workers, len(waiting)))])
        return done, dead[0] if dead else None

    def joined(self, threads):
        """Runs threads. Raises what one of them raised."""
        try:
            for thread in threads:
                thread.start()
            for thread in threads:
                thread.join()
        except KeyboardInterrupt:
            self.leave([thread for thread in threads if thread.is_alive()])
            raise
        if self.faults and threading.current_thread() is threading.main_thread():
            raise self.faults[0]

    def leave(self, threads):
        """No further case begins. What runs loses its client, so that it ends, and doesn't count."""
        self.over = True
        PROCESSES.end_all()
        limit = time.monotonic() + LEAVE
        for thread in threads:
            thread.join(max(0, limit - time.monotonic()))

    def gate(self, cases):
        """Whether the client takes a correct connection: without that nothing counts. Returns its result."""
        self.first = next(case for case in [*cases, *own_cases.load()] if case.id == GATE)
        return self.play(self.first)

    def twins(self):
        """A close proves nothing if the client closes the good case beside it too."""
        for case in self.cases:
            twin, result = self.results.get(case.twin), self.results.get(case.id)
            if twin and result and result["result"] == "pass" and case.wants_close and twin["state"] == "closed":
                result["result"] = "skip"
                result["said"] = result["said"] + ["nothing is known, since its twin %s is closed too" % case.twin]
                self.tell(result)


def dry(case, torrent, mode, options=None):
    """The stream of a case to a client with all extensions that keeps the connection, and the case's play."""
    play = Play(case, DryLink(torrent, mode), mode, options or Options(patience=0, unchoke=0, longest=0))
    play.run(lambda: None)
    return bytes(play.link.sent), play
