"""What a mutant is, and whether the prover refuses it. tests/wrong_bodies chooses the mutants that are tried, and calls this."""
import hashlib
import os
import pathlib
import re
import shutil
import signal
import subprocess
import tempfile

import prover

CRATES = prover.CRATES
FUNCTION = re.compile(r"( *)(?:pub(?:\([^)]*\))? )?(?:const )?(?:unsafe )?(?:extern \"C\" )?fn (\w+)")
IMPL = re.compile(r"impl(?:<.*?>)? (?:(?P<trait>[\w:]+)(?:<(?P<words>[^>]*)>)? for )?(?P<type>\w+)")
TYPE = re.compile(r"^(?:pub(?:\([^)]*\))? )?(?:struct|enum) (\w+)", re.M)
# The checks that run now.
RUNNING = set()


class Fault(Exception):
    """Says why nothing can be tried."""


def indent(line):
    return len(line) - len(line.lstrip())


class Function:
    """The function of a source file in which a line stands: the end of its name, as the prover prints it, and its lines."""

    def __init__(self, file, lines, at):
        heads = [i for i in range(at, -1, -1) if (it := FUNCTION.match(lines[i])) and (i == at or len(it[1]) < indent(lines[at]))]
        if not heads:
            raise Fault(f"line {at + 1} of {file} stands in no function")
        margin, name = FUNCTION.match(lines[heads[0]]).groups()
        path, self.types = [] if file in ("src/lib.rt", "src/main.rt") else file[len("src/") : -len(".rt")].split("/"), ()
        if margin:
            # (a method is named by the module of its type)
            it = next(found for i in range(heads[0], -1, -1) if (found := IMPL.match(lines[i])))
            trait = (it["trait"] or "").split("::")[-1] + "".join(re.findall(r"(?<!')\b\w+", it["words"] or ""))
            path, self.types = [it["type"] + trait], (it["type"], it["type"] + trait)
        self.name, self.file, self.word = "::".join([*path, name]), file, name
        self.module = "::".join(file[len("src/") : -len(".rt")].split("/"))
        end = next(i for i in range(heads[0], len(lines)) if lines[i].startswith(margin + "}"))
        # (the prover names the line of the first attribute)
        start = next(i for i in range(heads[0], -1, -1) if not lines[i - 1].lstrip().startswith("#["))
        self.lines = range(start + 1, end + 2)
        self.text = "\n".join(lines[start : end + 1])

    def is_named(self, name):
        """Whether the name of a mutant, as FUNCTION or TYPE_METHOD, names this function."""
        return name in (self.word, *(f"{it}_{self.word}" for it in self.types))


def functions_of(file, lines):
    """All functions of a source file that have a body."""
    found = []
    for at in (i for i, line in enumerate(lines) if FUNCTION.match(line)):
        try:
            found.append(Function(file, lines, at))
        except (Fault, StopIteration):
            pass
    return found


def reached(functions, name):
    """The functions of a file that the named ones call, and those that these call, and so on."""
    left, found = [it for it in functions if it.is_named(name)], []
    while left:
        found.append(left.pop())
        words = set(re.findall(r"\w+", found[-1].text))
        left += [it for it in functions if it.word in words and it not in found and it not in left]
    return found


class Edit:
    """A mutant: the texts that it replaces, each of which stands once in its file, and the functions that it turns."""

    def __init__(self, edit, folder):
        self.path, self.part, self.name, self.pairs, self.functions = edit, edit.parent.name, edit.name, [], {}
        file = old = None
        for line in edit.read_text().splitlines():
            kind, _, text = line.partition(": ")
            if kind == "file":
                file = text.strip()
            elif kind == "old":
                old = text
            elif kind == "new":
                source = (folder / file).read_text()
                if source.count(old) != 1:
                    raise Fault(f"{self}: `{old}` stands {source.count(old)} times in {file}, and not once")
                self.pairs.append((file, old, text))
                function = Function(file, source.split("\n"), source[: source.index(old)].count("\n"))
                self.functions[function.name] = function
        if not self.pairs:
            raise Fault(f"{self} replaces no text")

    def __str__(self):
        return os.path.relpath(self.path, CRATES.parent)

    def misnamed(self, folder):
        """Says which other function it turns than its name says, FILE-FUNCTION-WHAT. (It may turn one that the named one calls.)"""
        if any(it.is_named(self.name.split("-")[1]) for it in self.functions.values()):
            return ""
        file = self.pairs[0][0]
        lines = (folder / file).read_text().split("\n")
        named = {it.name for it in reached(functions_of(file, lines), self.name.split("-")[1])}
        return "" if named & set(self.functions) else f"it turns {', '.join(self.functions)}, which isn't the function of its name"

    def sum(self):
        return hashlib.sha256(f"{self.name}\n".encode() + self.path.read_bytes()).hexdigest()


class Crate:
    """A crate and its mutants. The prover is called with `words`; `keep` gets the sums of those that were refused, as soon as they are."""

    def __init__(self, name, edits):
        self.name, self.folder, self.edits, self.words, self.keep = name, CRATES / name, edits, [], lambda sums: None

    def asked(self, function):
        """The name by which a check is asked for a function: with its module if the types of two modules have one name."""
        is_twice = function.types and sum(function.types[0] in TYPE.findall(it.read_text()) for it in (self.folder / "src").rglob("*.rt")) > 1
        return f"{self.name}::{function.module}::{function.name}" if is_twice else function.name

    def check(self, room, edits):
        """Checks the functions of these mutants with their bodies in place, and gives what the prover says."""
        shutil.rmtree(room / "src", ignore_errors=True)
        shutil.copytree(self.folder / "src", room / "src")
        for path, old, new in [it for edit in edits for it in edit.pairs]:
            file = room / path
            file.write_text(file.read_text().replace(old, new))
        only = [word for edit in edits for it in edit.functions.values() for word in ("--only", self.asked(it))]
        words = [*self.words, "--incremental", room / "kept", *only]
        for _ in range(2):
            with subprocess.Popen(words, cwd=room, stdout=subprocess.PIPE, stderr=subprocess.STDOUT, errors="replace") as ran:
                RUNNING.add(ran)
                said = ran.stdout.read()
            RUNNING.discard(ran)
            # (killed, most likely for memory: once more)
            if ran.returncode != -signal.SIGKILL:
                break
        return said

    def against(self, edit, said):
        """Why the mutant isn't refused by a check whose text is `said`; empty if it is."""
        if not re.search(r"^only=\d+ proved=\d+$", said, re.M):
            error = re.search(r"^.*error\[.*$", said, re.M)
            last = (said.strip() or "the prover said nothing").splitlines()[-1]
            return f"it can't be compiled: {error[0]}" if error else f"it got no verdict: {last}"
        for function in edit.functions.values():
            if unread := re.search(rf"^(?:\./)?{re.escape(function.file)}:(\d+):\d+: error: (?:.*is not in scope|.*has no field|[^`].*)$", said, re.M):
                if int(unread[1]) in function.lines:
                    return f"it can't be read: {unread[0]}"
        names = "|".join(map(re.escape, edit.functions))
        told = re.findall(rf"^fn {self.name}::(?:\S+::)?(?:{names})(?:::\S+)?: (.*)$", said, re.M)
        refused = [it for it in told if it.startswith(("not proved", "no proof")) and "the borrow checker does not cover" not in it]
        if refused:
            return ""
        if told and all(it == "proved" for it in told):
            return "it is still proved: it means the same as before, or the contract is too weak"
        return f"it got no verdict: {'; '.join(told) or 'the prover names no function of it'}"

    def is_refused_itself(self, edit, said):
        """Whether a goal of such a function is refused, be other functions as they may."""
        for name, function in edit.functions.items():
            at = re.findall(rf"^(?:note: )?{re.escape(function.file)}:(\d+):\d+: .*not proved", said, re.M)
            answers = rf"^(?:\./)?proofs/(?:\w+/)*{re.escape(name.replace('::', '/'))}/\w+\.antt:\d+:\d+: error"
            if any(int(it) in function.lines for it in at) or re.search(answers, said, re.M):
                return not self.against(edit, said)
        return False

    def tried(self, room, edits):
        """Gives for each mutant an empty text if it is refused, else why not."""
        if not edits:
            return {}
        group, names = [], set()
        for edit in edits:
            if names.isdisjoint(edit.functions):
                group.append(edit)
                names.update(edit.functions)
        said = self.check(room, group)
        half = len(group) // 2
        if len(group) == 1:
            found = self.noted({group[0]: self.against(group[0], said)})
        elif "error[" in said or not re.search(r"^only=", said, re.M):
            # one of them can't be compiled, or the check was cut off
            found = {**self.tried(room, group[:half]), **self.tried(room, group[half:])}
        else:
            found = self.noted({it: "" for it in group if self.is_refused_itself(it, said)})
            # of a function that calls a refused one the prover may not say more
            others = [it for it in group if it not in found]
            half = len(others) // 2 if len(others) == len(group) else len(others)
            found = {**found, **self.tried(room, others[:half]), **self.tried(room, others[half:])}
        return {**found, **self.tried(room, [it for it in edits if it not in group])}

    def noted(self, found):
        """Keeps which of these mutants were refused."""
        self.keep({edit.sum() for edit, why in found.items() if not why})
        return found

    def tried_all(self):
        """Tries the mutants in a row, since what they call is then proved once."""
        with tempfile.TemporaryDirectory() as name:
            room = pathlib.Path(name)
            for part in ("specs", "proofs"):
                if (self.folder / part).is_dir():
                    shutil.copytree(self.folder / part, room / part)
            return self.tried(room, self.edits)
