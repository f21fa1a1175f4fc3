"""Reads the cases, which are text. cases/README.md describes the format."""
import fnmatch
import glob
import os

FOLDER = os.path.join(os.path.dirname(os.path.abspath(__file__)), "cases")
MODES = ("seed", "leech", "magnet")
LEVELS = ("must", "should", "may", "own")
VERDICTS = ("pass", "note", "fail", "info")
BYTES = ("send", "raw", "ext", "um", "rep", "range")
STEPS = BYTES + ("refused", "first", "bytewise", "segment", "pause", "wait", "unchoked", "noread", "crowd", "fin", "serve", "meta",
                 "ping")
LINES = ("title", "twin", "between", "differs")
FLAGS = ("alone", "fresh")
CONDITIONS = ("any", "closed", "alive", "silent", "open", "got", "no", "count", "least", "most", "repeats", "crowd")


class Rule:
    """A sentence of a standard, in this project's words."""

    def __init__(self, name, bep, section, text):
        self.name, self.bep, self.section, self.text = name, bep, section, text

    def __str__(self):
        return '%s, "%s": %s' % (self.bep, self.section, self.text)


class Case:
    def __init__(self, name, place):
        self.id, self.place = name, place
        self.title = self.twin = self.between = self.differs = ""
        self.rule, self.level, self.modes, self.need = None, "own", ["seed"], []
        self.open, self.steps, self.verdicts, self.values = {}, [], [], {}
        self.alone = self.fresh = False
        self.rows = None

    def spread(self):
        """The cases of the rows of `each`, or the case itself."""
        if self.rows is None:
            return [self]
        names, rows = self.rows
        return [self.row(dict(zip(names, row))) for row in rows]

    def row(self, values):
        case = Case("%s/%s" % (self.id, next(iter(values.values()))), self.place)
        for name in ("title", "twin", "between", "differs", "rule", "level", "modes", "need", "open", "steps", "verdicts", "alone",
                     "fresh"):
            setattr(case, name, getattr(self, name))
        case.values = values
        return case

    @property
    def asks_unchoke(self):
        """Whether it waits until the client unchokes this end."""
        return any(word == "unchoked" for word, _ in self.steps)

    @property
    def has_crowd(self):
        return any(word == "crowd" for word, _ in self.steps)

    @property
    def wants_close(self):
        """Whether the first verdict that passes is a close, and nothing else passes."""
        passes = [conditions for verdict, conditions in self.verdicts if verdict == "pass"]
        return bool(passes) and all("closed" in [part.strip() for part in conditions.split(",")] for conditions in passes)


class Reader:
    """Reads files of cases in turn."""

    def __init__(self):
        self.rules, self.cases, self.case = {}, [], None

    def file(self, path):
        with open(path, encoding="utf8") as file:
            for number, line in enumerate(file, 1):
                line = line.strip()
                if line and not line.startswith("#"):
                    place = "%s:%d" % (os.path.basename(path), number)
                    try:
                        self.line(place, *(line.split(" ", 1) + [""])[:2])
                    except (ValueError, KeyError, AttributeError) as error:
                        raise ValueError("%s: %s (%s)" % (place, line, error)) from error

    def line(self, place, word, rest):
        case, rest = self.case, rest.strip()
        if word == "sentence":
            name, bep, section, text = [part.strip() for part in rest.split("|", 3)]
            self.rules[name] = Rule(name, bep, section, text)
        elif word == "case":
            self.case = Case(rest, place)
            self.cases.append(self.case)
        elif word == "rule":
            name, case.level = rest.split()
            case.rule = self.rules[name]
            LEVELS.index(case.level)
        elif word in LINES:
            setattr(case, word, rest)
        elif word == "mode":
            case.modes = rest.split()
            [MODES.index(mode) for mode in case.modes]
        elif word == "need":
            case.need = rest.split()
        elif word == "open":
            case.open = dict(part.split("=", 1) for part in rest.split())
        elif word in FLAGS:
            setattr(case, word, True)
        elif word == "each":
            names, _, rows = rest.partition(":")
            case.rows = names.split(), [row.split() for row in rows.split("|")]
            if any(len(row) != len(case.rows[0]) for row in case.rows[1]):
                raise ValueError("a row has another count of words")
        elif word in VERDICTS:
            [CONDITIONS.index(part.split()[0]) for part in rest.split(",")]
            case.verdicts.append((word, rest))
        elif word in STEPS:
            case.steps.append((word, rest))
        else:
            raise ValueError("unknown word")


def load(paths=None):
    """All cases of the files, those of rows spread. Raises ValueError with the file and the line."""
    reader = Reader()
    for path in paths or sorted(glob.glob(os.path.join(FOLDER, "*.txt"))):
        reader.file(path)
    cases = [case for whole in reader.cases for case in whole.spread()]
    for case in cases:
        if not case.rule or not case.title:
            raise ValueError("%s: %s has no title or no rule" % (case.place, case.id))
        case.verdicts = case.verdicts or [("pass", "alive"), ("note", "closed")]
    return cases


def chosen(cases, mode, only=None, skip=None, bep=None, quick=False):
    """The cases of a mode that the options leave."""
    def fits(case, patterns):
        return any(fnmatch.fnmatchcase(case.id, pattern) or case.id.split("/")[0] == pattern for pattern in patterns.split(","))
    return [case for case in cases
            if mode in case.modes and (not only or fits(case, only)) and not (skip and fits(case, skip))
            and (not bep or case.rule.bep == "BEP %s" % bep) and not (quick and case.level != "must")]
