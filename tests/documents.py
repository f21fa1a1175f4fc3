#!/usr/bin/env python3
"""Runs the commands that the documents show, and compares what they print.

usage: tests/documents.py [PROGRAM]

A command stands after `$ ` in a block that is fenced as ```console, or indented; lines after `> ` go on with it. The lines up to
the next command or the block's end are its standard output, exactly. Standard error has to be empty. The commands of one document run
in one shell, in a new folder that has `bt_tool`, `examples`, `tools` and `dist`. `bt_tool` is PROGRAM, or the script at the top of the
repository, which builds the program if it has to.

It also looks whether these are right:

- links lead to files and headings, each path of the repository that a document names is there, and no document is too long;
- the table of examples/README.md has the programs of each language;
- the picture of a stream has its bytes, and examples/small.pcap the two directions of which it was made;
- the blocks of docs/RATTLE.md are parts of the examples, and those of doc comments parts of a crate's code;
- the mutants, laws, calls, files and names of docs/PROVED.md, docs/API.md, docs/ARCHITECTURE.md, docs/DEFINITIONS.md, docs/RATTLE.md
  and docs/C.md are there, and no crate, law or crate of the toolchain is missing in them;
- docs/COMMANDS.md has the usage of each command, and it or docs/FETCH.md each option; the commands on streams have the options that it says.
"""
import glob
import os
import re
import shlex
import shutil
import struct
import subprocess
import sys
import tempfile
from collections import Counter

ROOT = os.path.dirname(os.path.dirname(os.path.abspath(__file__)))
sys.dont_write_bytecode = True
sys.path.insert(0, os.path.join(ROOT, "tools/packages"))
import help_texts  # noqa: E402

# The documents whose programs are tried: README.md and docs/RATTLE.md here, the others by tests/c_library.
COMPILED = ("README.md", "docs/RATTLE.md", "docs/C.md", "docs/PYTHON.md", "docs/JAVASCRIPT.md")
# The most bytes of a document. One that comes near is to be split; no words are left out so that it stays below.
LONGEST = 16_000
# How the paths begin that documents name from the top of the repository.
TOP = r"(?:bench|bindings|crates|dist|docs|examples|tests|tools|viewer|\.ci)/"
# The two directions of examples/small.pcap.
DIRECTIONS = {
    ("127.0.0.1:51413", "127.0.0.1:6881"): "examples/fetching.bin",
    ("127.0.0.1:6881", "127.0.0.1:51413"): "examples/serving.bin",
}


def content(path):
    with open(path, "rb") as file:
        return file.read()


def crate_rows():
    """The rows of crates.txt, without comments."""
    return [line for line in content(os.path.join(ROOT, "crates.txt")).decode().splitlines() if not line.startswith("#")]


def directions(capture):
    """The bytes of each direction in a classic pcap of TCP over IPv4 over Ethernet, by sender and receiver."""
    assert capture[:4] == b"\xd4\xc3\xb2\xa1" and capture[20:24] == b"\1\0\0\0", "no classic pcap of Ethernet frames"
    segments, at = {}, 24
    while at < len(capture):
        size = struct.unpack_from("<I", capture, at + 8)[0]
        packet = capture[at + 16 + 14:at + 16 + size]
        at += 16 + size
        assert packet[0] >> 4 == 4 and packet[9] == 6, "no TCP over IPv4"
        tcp = packet[4 * (packet[0] & 15):struct.unpack_from(">H", packet, 2)[0]]
        ports, sequence = struct.unpack_from(">HH", tcp), struct.unpack_from(">I", tcp, 4)[0]
        hosts = [".".join(map(str, packet[k:k + 4])) for k in (12, 16)]
        ends = tuple("%s:%d" % end for end in zip(hosts, ports))
        payload = tcp[4 * (tcp[12] >> 4):]
        if payload:
            segments.setdefault(ends, {})[sequence] = payload
    return {ends: b"".join(found[k] for k in sorted(found)) for ends, found in segments.items()}


def sessions(path):
    """The commands of a document: line number, command and shown output."""
    found, indent, fence, lines = [], None, False, content(path).decode().split("\n")
    for number, line in enumerate(lines, 1):
        mark = re.match(r" *```", line)
        if mark:
            fence = not fence
            indent = line[:line.index("`")] if line.strip() == "```console" else None
            continue
        begin = re.match((indent or "") + r"()\$ (.*)" if fence and indent is not None else r"( {4,})\$ (.*)", line)
        if begin and (indent is not None or not fence):
            indent = indent if fence else begin[1]
            found.append((number, [begin[2]], []))
        elif indent is not None and found and line.startswith(indent + "> ") and not found[-1][2]:
            found[-1][1].append(line[len(indent) + 2:])
        elif indent is not None and found and (line.startswith(indent) or not line.strip()):
            found[-1][2].append(line[len(indent):])
        elif not fence:
            indent = None
    for number, command, shown in found:
        while shown and not shown[-1]:
            shown.pop()
        yield number, "\n".join(command), "".join(line + "\n" for line in shown)


class Shell:
    """One shell, in which the commands of a document run in turn."""

    def __init__(self, folder):
        self.folder = folder
        self.room = tempfile.mkdtemp(dir=folder, prefix=".shell-")
        environment = {**os.environ, "LC_ALL": "C.UTF-8"}
        self.process = subprocess.Popen(["sh"], cwd=folder, env=environment, stdin=subprocess.PIPE,
                                        stdout=subprocess.PIPE, text=True)

    def run(self, command):
        """Standard output and standard error. The command finds `$?` as the one before left it."""
        out, errors = [os.path.join(self.room, name) for name in ("out", "errors")]
        words = (shlex.quote(command), shlex.quote(out), shlex.quote(errors))
        try:
            self.process.stdin.write("eval %s >%s 2>%s </dev/null; kept=$?; echo $kept; (exit $kept)\n" % words)
            self.process.stdin.flush()
            ended = not self.process.stdout.readline()
        except BrokenPipeError:
            ended = True
        if ended:
            return "", "the shell has ended\n"
        return tuple(content(path).decode("utf8", "replace") for path in (out, errors))

    def close(self):
        self.process.communicate()


def run_document(document, folder, counts):
    """Runs a document's commands in the folder, and gives what went wrong."""
    shell, wrong = Shell(folder), []
    for number, command, shown in sessions(os.path.join(ROOT, document)):
        out, errors = shell.run(command)
        counts.update(commands=1, outputs=bool(shown))
        if out != shown or errors:
            wrong.append("%s:%d: %s\nexpected:\n%sgot:\n%s" % (document, number, command, shown, out)
                         + ("on standard error:\n" + errors if errors else ""))
    shell.close()
    return wrong


def pictured():
    """The bytes of the picture in docs/RULES.md, which are those of examples/first.bin."""
    rows = re.findall(r"^ *(\d+)  ((?:[0-9a-f]{2} )*[0-9a-f]{2})(?: {2}.*)?$", content(os.path.join(ROOT, "docs/RULES.md")).decode(), re.M)
    found = b""
    for at, digits in rows:
        if int(at) != len(found):
            return ["docs/RULES.md: the picture has %s at %d\n" % (at, len(found))]
        found += bytes.fromhex(digits)
    return [] if found == content(os.path.join(ROOT, "examples/first.bin")) else ["docs/RULES.md: other bytes than in examples/first.bin\n"]


def unquoted():
    """The blocks of docs/RATTLE.md that don't stand in an example as they are."""
    sources = [content(path).decode() for path in glob.glob(os.path.join(ROOT, "crates/example_*/src/*.rt"))]
    blocks = re.findall(r"^```rust\n(.*?)^```$", content(os.path.join(ROOT, "docs/RATTLE.md")).decode(), re.M | re.S)
    return ["docs/RATTLE.md: no part of an example:\n" + block for block in blocks if not any(block in source for source in sources)]


def uncompiled():
    """The blocks of doc comments that don't stand in the code of a crate as they are, except for indentation."""
    lines = {path: content(path).decode().splitlines() for path in glob.glob(os.path.join(ROOT, "crates/*/src/**/*.rt"), recursive=True)}
    codes = ["\n".join(line.strip() for line in of if not line.strip().startswith("//")) for of in lines.values()]
    wrong = []
    for path, of in lines.items():
        comments = "\n".join(line.strip()[4:].strip() if line.strip().startswith("///") else "\0" for line in of)
        blocks = re.findall(r"^```rust\n([^\0]*?)\n```$", comments, re.M)
        missing = [block for block in blocks if not any(block in code for code in codes)]
        wrong += ["%s: not in any code:\n%s\n" % (os.path.relpath(path, ROOT), block) for block in missing]
    return wrong


def unproved():
    """What docs/PROVED.md gets wrong: a mutant that isn't in mutants/ or must-fail/, a call that isn't there, a crate of the toolchain that it
    doesn't name, a file of laws that docs/DEFINITIONS.md doesn't name, or a law without a comment that states it."""
    text = content(os.path.join(ROOT, "docs/PROVED.md")).decode()
    mutants = re.findall(r"`(bt_\w+)/([\w-]+-[\w-]+)`", text)
    wrong = ["docs/PROVED.md: no such mutant: %s/%s\n" % it for it in mutants
             if not any(os.path.exists(os.path.join(ROOT, "crates", it[0], part, it[1] + ".edit")) for part in ("mutants", "must-fail"))]
    code = b"".join(content(path) for path in glob.glob(os.path.join(ROOT, "crates/bt_*/src/**/*.rt"), recursive=True)).decode()
    calls = re.findall(r"`([\w:]+)`", " ".join(re.findall(r"^\| [^|]* \| ([^|]*) \| `bt_\w+/", text, re.M)))
    wrong += ["docs/PROVED.md: no such call: %s\n" % call for call in calls if not re.search(r"\b%s\b" % call.split("::")[-1], code)]
    rows = [line.partition(":") for line in crate_rows()]
    trusted = {name for crate, _, below in rows if not crate.endswith("_tests") for name in below.split() if not name.startswith("bt_")}
    wrong += ["docs/PROVED.md: `%s` isn't named as trusted\n" % name for name in sorted(trusted) if "`%s`" % name not in text]
    listed = content(os.path.join(ROOT, "docs/DEFINITIONS.md")).decode()
    for path in glob.glob(os.path.join(ROOT, "crates/bt_*/src/**/*laws.rt"), recursive=True):
        file, code = os.path.relpath(path, os.path.join(ROOT, "crates")), content(path).decode()
        laws = [] if "_tests/" in path else re.findall(r"^pub fn (\w+)", code, re.M)
        wrong += ["docs/DEFINITIONS.md: the laws of %s aren't named\n" % file] if laws and "`%s`" % file not in listed else []
        stated = re.findall(r"^/// \w.*\n(?:///.*\n)*pub fn (\w+)", code, re.M)
        wrong += ["%s: nothing says what the law %s states\n" % (file, law) for law in laws if law not in stated]
    return wrong


def uncalled():
    """The calls of docs/API.md that no crate has."""
    wrong, crate = [], ""
    for named, calls in re.findall(r"^\| (?:`(\w+)` )?\| (`.*?`) \|", content(os.path.join(ROOT, "docs/API.md")).decode(), re.M):
        crate = named or crate
        code = b"".join(content(path) for path in glob.glob(os.path.join(ROOT, "crates", crate, "src/**/*.rt"), recursive=True)).decode()
        names = [call.split("::")[-1] for call in re.findall(r"`([\w:]+)`", calls)]
        wrong += ["docs/API.md: %s has no %s\n" % (crate, name) for name in names if not re.search(r"pub fn %s\b" % name, code)]
    return wrong


def misplaced(document):
    """The files and names of a guide to the crates that aren't there. A path is one of the crate that was named last."""
    text = re.sub(r"^```.*?^```$", "", content(os.path.join(ROOT, document)).decode(), flags=re.M | re.S)
    sources = [path for part in ("crates/*/src/**/*.rt", "crates/*/specs/**/*.antt", "crates/*/proofs/**/*.antt", "tests/*.py")
               for path in glob.glob(os.path.join(ROOT, part), recursive=True)]
    known = set(re.findall(r"\w+", b"\n".join(map(content, sources)).decode()))
    crate, wrong = "", []
    for token in re.findall(r"`([^`]+)`", text):
        if re.match(TOP, token) or os.path.exists(os.path.join(ROOT, token)):
            continue
        inside = re.fullmatch(r"((?:bt|example)_\w+)/(.+)", token)
        crate, path = inside.groups() if inside else (crate, token)
        if os.path.isdir(os.path.join(ROOT, "crates", token)):
            crate = token
        elif re.fullmatch(r"[\w/]+\.(rt|h)", path):
            there = any(os.path.exists(os.path.join(ROOT, "crates", crate, folder, path)) for folder in ("", "src"))
            wrong += [] if there else ["%s: no such file of %s: %s\n" % (document, crate, path)]
        elif re.fullmatch(r"(specs|proofs)/\w+", path):
            there = os.path.exists(os.path.join(ROOT, "crates", crate, path + ".antt"))
            wrong += [] if there else ["%s: no such file of %s: %s\n" % (document, crate, path)]
        elif re.fullmatch(r"[\w:]+", path) and "NAME" not in path:
            there = path.split("::")[-1] in known or os.path.exists(os.path.join(ROOT, "crates", crate, "specs", path + ".antt"))
            wrong += [] if there else ["%s: no such name: %s\n" % (document, path)]
    return wrong


def misnamed():
    """The names of docs/C.md that neither bt.h nor the Rust crate has. `_next` after `bt_reader_init` is `bt_reader_next`."""
    text = re.sub(r"^```.*?^```$", "", content(os.path.join(ROOT, "docs/C.md")).decode(), flags=re.M | re.S)
    sources = [content(os.path.join(ROOT, name)) for name in ("crates/bt_c/bt.h", "bindings/rust/build.rs")]
    names, last, wrong = set(re.findall(rb"\w+", b"\n".join(sources))), "", []
    for name in re.findall(r"`((?:bt_|BT_|_)\w+)", text):
        last = last if name.startswith("_") else name
        starts = [last[:at.start()] for at in re.finditer("_", last)] if name.startswith("_") else [""]
        wrong += [] if any((start + name).encode() in names for start in starts) else ["docs/C.md: no such name: %s\n" % name]
    return wrong


def unlisted():
    """The crates that docs/ARCHITECTURE.md doesn't name."""
    names = [re.split(r"[: ]", line)[0] for line in crate_rows()]
    text = content(os.path.join(ROOT, "docs/ARCHITECTURE.md")).decode()
    return ["docs/ARCHITECTURE.md: the crate %s isn't named\n" % name for name in names if "`%s`" % name not in text]


def other_examples():
    """The languages whose programs in examples/ aren't those of the table in its README."""
    heads, _, *rows = [line.split("|")[2:-1] for line in content(os.path.join(ROOT, "examples/README.md")).decode().splitlines() if line.startswith("|")]
    wrong = []
    for head, *cells in zip(heads, *(row for row in rows if len(row) == len(heads))):
        folder, ending = re.fullmatch(r" `(\w+)/\*(\.\w+)` ", head).groups()
        named = re.findall(r"`(\w+)`", " ".join(cells))
        there = [name[:-len(ending)] for name in os.listdir(os.path.join(ROOT, "examples", folder)) if name.endswith(ending)]
        wrong += [] if sorted(named) == sorted(there) else ["examples/README.md: %s has %s\n" % (folder, ", ".join(sorted(there)))]
    return wrong


def no_such_paths(document):
    """The paths from the top of the repository that a document names and that aren't there. Words in capitals stand for others."""
    text = content(os.path.join(ROOT, document)).decode()
    paths = re.findall(r"(?<![\w./-])(%s[\w./*-]*)" % TOP, " ".join(re.findall(r"^```.*?^```$|`[^`\n]+`", text, re.M | re.S)))
    paths = {path.rstrip(".") for path in paths if not re.search(r"[A-Z]{3}|/[A-Z]/|/out(/|$)", path) or path.startswith("docs/")}
    return ["%s: no such file: %s\n" % (document, path) for path in sorted(paths) if not glob.glob(os.path.join(ROOT, path))]


def too_long(document):
    size = len(content(os.path.join(ROOT, document)))
    return ["%s: %d bytes, and %d are the most\n" % (document, size, LONGEST)] if size > LONGEST else []


def unhelped(program):
    """The usages that docs/COMMANDS.md doesn't show, and the options that neither it nor docs/FETCH.md names."""
    text, wrong = "".join(content(os.path.join(ROOT, "docs", name)).decode() for name in ("COMMANDS.md", "FETCH.md")), []
    for name, page in help_texts.pages(program)[1].items():
        usage = page.sections["Usage"][0].replace("bt_tool ", "", 1).replace("|", "\\|")
        wrong += [] if "| `%s` |" % usage in text else ["docs/COMMANDS.md: no usage of %s: %s\n" % (name, usage)]
        wrong += ["docs/COMMANDS.md: no option --%s of %s\n" % (it["name"], name) for it in page.options() if "--" + it["name"] not in text]
    return wrong


def other_options(program):
    """The commands on a stream whose options aren't those of show, as docs/COMMANDS.md says: without --json, and check has other rules."""
    pages = help_texts.pages(program)[1]
    rows = {name: [(it["name"], it["value"], it["text"]) for it in pages[name].options()] for name in ("show", "check", "unpack", "pack")}
    wanted = [it for it in rows["show"] if it[0] != "json"]
    strict = [(name, value, text.replace("[default: free]", "[default: bep]")) for name, value, text in wanted]
    wrong = [name for name in ("check", "unpack", "pack") if rows[name] != (strict if name == "check" else wanted)]
    return ["docs/COMMANDS.md: %s has other options than show\n" % name for name in wrong]


def dead_links(document):
    """The links to files and to headings that aren't there."""
    folder, text, wrong = os.path.dirname(os.path.join(ROOT, document)), content(os.path.join(ROOT, document)).decode(), []
    for link in re.findall(r"\]\(([^):]+)\)", text):
        name, _, anchor = link.partition("#")
        path = os.path.join(folder, name) if name else os.path.join(ROOT, document)
        there = os.path.exists(path)
        heads = re.findall(r"^#+ (.*)$", content(path).decode(), re.M) if there and anchor else []
        anchors = [re.sub(r"[^\w -]", "", head.lower()).replace(" ", "-") for head in heads]
        wrong += [] if there and (not anchor or anchor in anchors) else ["%s: no such file or heading: %s\n" % (document, link)]
    return wrong


def bare_blocks(document):
    """The blocks that no language is named for."""
    lines = content(os.path.join(ROOT, document)).decode().splitlines()
    fences = [(number, line.strip()) for number, line in enumerate(lines, 1) if line.lstrip().startswith("```")]
    return ["%s:%d: a block without a language\n" % (document, number) for number, fence in fences[::2] if fence == "```"]


def untried(document):
    """The blocks of commands that aren't a shell's words, and those of programs that nothing compiles."""
    wrong = []
    for language, text in re.findall(r"^```(\w+)\n(.*?)^```$", content(os.path.join(ROOT, document)).decode(), re.M | re.S):
        if language == "sh" and subprocess.run(["sh", "-n"], input=text, stderr=subprocess.DEVNULL, text=True).returncode:
            wrong.append("%s: no commands of a shell:\n%s" % (document, text))
        if language in ("c", "cpp", "python", "rust", "js") and document not in COMPILED:
            wrong.append("%s: no test compiles this:\n%s" % (document, text))
    return wrong


def fragments():
    """What compilers say of the fragments of C and Python in README.md, which are parts of functions."""
    wrong = []
    compilers = {"c": ["cc", "-std=c11", "-fsyntax-only", "-Wall", "-Wextra", "-Werror", "-I", os.path.join(ROOT, "crates/bt_c"), "-xc", "-"],
                 "python": [sys.executable, "-c", "compile(open(0).read(), 'README.md', 'exec')"]}
    function = """#include "bt.h"
        uint32_t f(const uint8_t *bytes, size_t n) { bt_reader reader; bt_item item; uint32_t answer; %s return answer; }"""
    for language, text in re.findall(r"^```(c|python)\n(.*?)^```$", content(os.path.join(ROOT, "README.md")).decode(), re.M | re.S):
        words = compilers[language]
        if not shutil.which(words[0]):
            print("documents: a fragment of README.md isn't compiled, since there is no " + words[0])
            continue
        done = subprocess.run(words, input=function % text if language == "c" else text, stderr=subprocess.PIPE, text=True)
        wrong += ["README.md:\n%s%s" % (text, done.stderr)] if done.returncode else []
    return wrong


def make_folder(folder, program):
    for name in ("examples", "tools", "dist"):
        os.symlink(os.path.join(ROOT, name), os.path.join(folder, name))
    with open(os.path.join(folder, "bt_tool"), "w") as script:
        script.write('#!/bin/sh\nexec %s "$@"\n' % shlex.quote(program))
    os.chmod(os.path.join(folder, "bt_tool"), 0o755)


def main():
    program = os.path.abspath(sys.argv[1] if len(sys.argv) > 1 else os.path.join(ROOT, "bt_tool"))
    wrong = [] if directions(content(os.path.join(ROOT, "examples/small.pcap"))) == {
        ends: content(os.path.join(ROOT, example)) for ends, example in DIRECTIONS.items()
    } else ["examples/small.pcap: not the two directions of which it was made\n"]
    wrong += pictured() + unquoted() + uncompiled() + unproved() + uncalled()
    wrong += misplaced("docs/ARCHITECTURE.md") + misplaced("docs/DEFINITIONS.md") + misplaced("docs/RATTLE.md") + unlisted() + misnamed() + other_examples()
    documents = sorted(os.path.relpath(path, ROOT) for path in glob.glob(os.path.join(ROOT, "**/*.md"), recursive=True))
    for name in documents:
        wrong += dead_links(name) + bare_blocks(name) + no_such_paths(name) + too_long(name) + untried(name)
    wrong += fragments()
    if subprocess.run([program, "--version"], stdout=subprocess.DEVNULL).returncode:
        sys.exit("documents: failed: %s --version" % program)
    wrong += unhelped(program) + other_options(program)
    counts = Counter()
    for document in documents:
        with tempfile.TemporaryDirectory(prefix="documents-") as folder:
            make_folder(folder, program)
            wrong += run_document(document, folder, counts)
    for text in wrong:
        print("documents: wrong: " + text, end="")
    verdict = "failed: %d wrong of" % len(wrong) if wrong else "ok:"
    print("documents: %s %d commands, %d outputs compared" % (verdict, counts["commands"], counts["outputs"]))
    sys.exit(1 if wrong else 0)


if __name__ == "__main__":
    main()
