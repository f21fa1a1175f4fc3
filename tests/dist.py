#!/usr/bin/env python3
"""Uses dist/ as somebody who has a clone and no toolchain, and installs it.

usage: tests/dist.py [CHECK..]

CHECK is a function of CHECKS; without any all are run. It copies what a clone has to another folder, and works there with the PATH
/usr/bin:/bin and an empty environment. What each program prints of the example streams is compared with `bt_tool show`, and `show`
with the lines of examples/README.md. What needs a tool that isn't installed is skipped, and that is said.
"""
import contextlib
import filecmp
import functools
import glob
import os
import pathlib
import re
import resource
import shlex
import shutil
import subprocess
import sys
import tempfile
import time
import zipfile

sys.dont_write_bytecode = True
ROOT = pathlib.Path(__file__).resolve().parent.parent
sys.path.insert(0, str(ROOT / "tools/packages"))
import help_texts
import wheel

NOWHERE = 65534
CLEAN = {"PATH": "/usr/bin:/bin", "LC_ALL": "C.UTF-8"}
FIRST = b"""0 handshake 0000000000100005 a9993e364706816aba3e25717850c26c9cd0d89d 2d5858303030312d303030303030303030303030
68 keep-alive
72 have 9
ok messages=2 bytes=81
"""
# The last lines of `show` under the rules `free` and `bep`, by examples/README.md.
VERDICTS = {
    "first.bin": ("ok messages=2 bytes=81", "refused message=2 at=76 Missing"),
    "fetching.bin": ("ok messages=5 bytes=278", "ok messages=5 bytes=278"),
    "serving.bin": ("ok messages=6 bytes=25889", "ok messages=6 bytes=25889"),
    "downloading.bin": ("ok messages=80 bytes=1280", "ok messages=80 bytes=1280"),
}
SKIPPED = []


def which(tool):
    """Whether a tool is there; if it isn't, says so at the end."""
    found = shutil.which(tool)
    if not found:
        SKIPPED.append("%s isn't installed" % tool)
    return found


def run(words, folder, given=b"", environment=None, **how):
    words = list(map(str, words))
    return subprocess.run(words, cwd=folder, input=given, env={**CLEAN, **(environment or {})}, capture_output=True, timeout=300, **how)


def passes(words, folder, **how):
    """What a command writes that has to end with status 0."""
    done = run(words, folder, **how)
    said = (done.stdout + done.stderr).decode("utf8", "replace")
    assert done.returncode == 0, "%s: status %d\n%s" % (" ".join(map(str, words)), done.returncode, said)
    return done.stdout


def is_refused(done, *parts):
    """Whether the script ended with one line that has these parts, and ran nothing."""
    text = done.stderr.decode()
    wrong = done.returncode != 125 or done.stdout or text.count("\n") != 1 or any(part not in text for part in parts)
    assert not wrong, "status %d, output %r, and %r where one line has to have %r" % (done.returncode, done.stdout, text, parts)


def clone(to):
    """Copies the files that a clone would have once all is committed."""
    names = subprocess.run(["git", "ls-files", "-co", "--exclude-standard", "-z"], cwd=ROOT, stdout=subprocess.PIPE)
    found = names.stdout.decode().split("\0") if names.returncode == 0 else []
    if not found:
        shutil.copytree(ROOT, to, symlinks=True, dirs_exist_ok=True, ignore=shutil.ignore_patterns("out", ".git"))
    for name in filter(None, found):
        if os.path.lexists(ROOT / name):
            (to / name).parent.mkdir(parents=True, exist_ok=True)
            shutil.copy2(ROOT / name, to / name, follow_symlinks=False)


@contextlib.contextmanager
def changed(file, change):
    """A file with another content, with the times that it had; afterwards it is as it was."""
    was, times = file.read_bytes(), file.stat()
    try:
        file.write_bytes(change(was))
        os.utime(file, ns=(times.st_atime_ns, times.st_mtime_ns))
        yield
    finally:
        file.write_bytes(was)
        os.utime(file, ns=(times.st_atime_ns, times.st_mtime_ns))


def show(at):
    return run(["./bt_tool", "show"], at, (at / "examples/first.bin").read_bytes())


def least(words, folder, times=15, before=lambda: None, **how):
    """The least processor seconds of some runs. (Seconds on the clock would be those of what runs beside them, too.)"""
    found = []
    for _ in range(times):
        before()
        start = spent()
        passes(words, folder, **how)
        found.append(spent() - start)
    return min(found)


def spent():
    used = resource.getrusage(resource.RUSAGE_CHILDREN)
    return used.ru_utime + used.ru_stime


# ---- the script bt_tool ----


def first_run(at):
    """A fresh clone answers in a second, and later calls cost at most 50 ms more than the program itself."""
    done = show(at)
    assert (done.stdout, done.stderr, done.returncode) == (FIRST, b"", 0), done
    took = least(["./bt_tool", "--version"], at, 5, lambda: shutil.rmtree(at / "crates/bt_tool/out"))
    assert took < 1, "the first run took %.2f s" % took
    more = least(["./bt_tool", "--version"], at) - least(["dist/x86_64-linux/bt_tool", "--version"], at)
    assert more < 0.05, "bt_tool takes %.0f ms more than the program" % (1000 * more)
    outside = at / "linked"
    outside.symlink_to(at / "bt_tool")
    assert passes([outside, "--version"], "/") == passes(["dist/x86_64-linux/bt_tool", "--version"], at), "by a symbolic link"
    outside.unlink()


def version(at):
    digest = (at / "dist/SOURCES").read_text().strip()
    said = passes(["./bt_tool", "--version"], at).decode()
    assert re.fullmatch(r"bt_tool \d+\.\d+\.\d+ \(sources %s\)\n" % digest[:12], said), said
    assert passes(["tools/sources"], at).decode().strip() == digest, "tools/sources"
    took = least(["tools/dist", "--check"], at, 3, environment={"PATH": os.environ["PATH"]})
    assert took < 1, "tools/dist --check takes %.2f s" % took


def sources(at):
    """What changes the digest and what doesn't. Times of files that are set back deceive nobody."""
    more = lambda text: text + b"\n"
    spec, proof = (next((at / "crates/bt_wire" / part).rglob("*.antt")) for part in ("specs", "proofs"))
    for file in (spec, proof, at / "crates/bt_bench/src/main.rt", at / "CHANGELOG.md", at / "crates/bt_tool/src/sources.rt",
                 at / "bindings/python/bt/_library.py"):
        with changed(file, more):
            assert show(at).stdout == FIRST, "%s changed" % file.name
    with changed(at / "crates.txt", lambda text: b"# a comment\n" + text.replace(b"bt_bench:", b"bt_bench : ")):
        assert show(at).stdout == FIRST, "a comment in crates.txt"
    swaps = [("crates.txt", b"bt_io: thiserror", b"bt_io: thiserror itoa"), ("README.md", b"`logic ", b"`logic 9"),
             ("crates/bt_c/bt.h", b"/*", b"/* "), ("crates/bt_wire/src/lib.rt", b"//!", b"//!  ")]
    for name, old, new in swaps:
        with changed(at / name, lambda text: text.replace(old, new, 1)):
            is_refused(show(at), "other sources", "'rt'", "README.md")
            assert run(["tools/dist", "--check"], at, environment={"PATH": os.environ["PATH"]}).returncode == 1, name
            # (the answer is kept)
            is_refused(show(at), "other sources")
        assert show(at).stdout == FIRST, "%s as it was" % name
    added = at / "crates/bt_io/src/another.rt"
    added.write_text("\n")
    is_refused(show(at), "other sources")
    added.unlink()
    assert show(at).stdout == FIRST


def made_aside(at, source, more, made, word):
    """A change of a file of which dist/ has something that no toolchain makes is seen, and mended without the toolchain."""
    here = {"PATH": os.environ["PATH"]}
    was = made.read_bytes()
    with changed(source, lambda text: text + more):
        done = run(["tools/dist", "--check"], at, environment=here)
        assert done.returncode == 1 and ("tools/dist " + word).encode() in done.stdout, done
        passes(["tools/dist", word], at, environment=here)
        passes(["tools/dist", "--check"], at, environment=here)
        assert made.read_bytes() != was
    passes(["tools/dist", word], at, environment=here)
    assert made.read_bytes() == was


def page(at):
    made_aside(at, at / "viewer/style/print.css", b"/* more */\n", at / "dist/viewer.html", "--page")


def package(at):
    made_aside(at, at / "bindings/python/bt/_library.py", b"# more\n", next((at / "dist").glob("*.whl")), "--wheel")


def tampered(at):
    """A program with another byte isn't run, before and after a right one was."""
    program = at / "dist/x86_64-linux/bt_tool"
    flip = lambda text: text[:-1] + bytes([text[-1] ^ 1])
    for _ in range(2):
        with changed(program, flip):
            is_refused(show(at), "SHA256SUMS", "not run")
            is_refused(show(at), "SHA256SUMS", "not run")
            assert run(["tools/dist", "--check"], at, environment={"PATH": os.environ["PATH"]}).returncode == 1
            assert run(["tools/install", at / "nothing"], at).returncode == 1, "installed a changed program"
            assert not (at / "nothing").exists(), "left a folder"
        assert show(at).stdout == FIRST
    with changed(at / "dist/SHA256SUMS", lambda text: text.replace(b"x86_64-linux/bt_tool\n", b"x86_64-linux/another\n")):
        is_refused(show(at), "SHA256SUMS")
    assert show(at).stdout == FIRST


def other_machines(at):
    """Another processor, a C library that is too old, no loader: one line says so."""
    tools = at / "fake"
    tools.mkdir()
    (tools / "uname").write_text("#!/bin/sh\necho Linux aarch64\n")
    (tools / "uname").chmod(0o755)
    done = run(["./bt_tool", "show"], at, environment={"PATH": "%s:%s" % (tools, CLEAN["PATH"])})
    is_refused(done, "Linux on x86-64", "Linux aarch64", "'rt'", "README.md")
    shutil.rmtree(tools)
    old = b"#!/bin/sh\necho \"$0: /lib/libc.so.6: version 'GLIBC_2.99' not found\" >&2\nexit 1\n"
    program, listed = at / "dist/x86_64-linux/bt_tool", at / "dist/SHA256SUMS"
    for text, said in ((old, "'GLIBC_2.99' not found"), (b"#!/no/such/loader\n", "doesn't start here")):
        with changed(program, lambda _: text), changed(listed, lambda rows: rows.replace(*sums_of(text, rows))):
            is_refused(show(at), said, "'rt'", "README.md")
    assert show(at).stdout == FIRST


def sums_of(text, rows):
    """The sum of the program in SHA256SUMS, and that of this text."""
    old = re.search(rb"(\w+)  x86_64-linux/bt_tool\n", rows)[1]
    return old, subprocess.run(["sha256sum"], input=text, stdout=subprocess.PIPE, check=True).stdout[:64]


def built_here(at):
    """Without dist's program, the one in out/ is run if no source is newer."""
    shutil.move(at / "dist", at / "away")
    is_refused(show(at), "there is no dist/x86_64-linux/bt_tool")
    out = at / "crates/bt_tool/out"
    out.mkdir(exist_ok=True)
    (out / "bt_tool").write_text("#!/bin/sh\necho built here\n")
    (out / "bt_tool").chmod(0o755)
    (out / "built").touch()
    assert show(at).stdout == b"built here\n"
    os.utime(at / "crates/bt_io/src/lib.rt", (time.time() + 60, time.time() + 60))
    is_refused(show(at), "'rt'")
    os.utime(at / "crates/bt_io/src/lib.rt")
    shutil.rmtree(out)
    shutil.move(at / "away", at / "dist")
    assert show(at).stdout == FIRST


def not_writable(at):
    """A clone of another user, in which no mark can be kept."""
    shutil.rmtree(at / "crates/bt_tool/out", ignore_errors=True)
    os.chmod(at / "crates/bt_tool", 0o555)
    user = {"user": NOWHERE, "group": NOWHERE, "extra_groups": []} if os.geteuid() == 0 else {}
    for _ in range(2):
        done = run(["./bt_tool", "show"], at, (at / "examples/first.bin").read_bytes(), **user)
        assert (done.stdout, done.stderr) == (FIRST, b""), done
    assert not (at / "crates/bt_tool/out").exists()
    os.chmod(at / "crates/bt_tool", 0o755)


# ---- what dist/ has ----


def all_files(at):
    """Each file but two is listed with its sum, and the texts and the wheel are what the program and the library give."""
    dist, native = at / "dist", at / "dist/x86_64-linux"
    passes(["sha256sum", "--quiet", "--strict", "-c", "SHA256SUMS"], dist)
    listed = {row.partition("  ")[2] for row in (dist / "SHA256SUMS").read_text().splitlines()}
    found = {str(it.relative_to(dist)) for it in dist.rglob("*") if it.is_file()}
    assert found - listed == {"README.md", "SHA256SUMS"} and not listed - found, found ^ listed
    for it in found:
        for path in (at, ROOT):
            assert str(path).encode() not in (dist / it).read_bytes(), "the path %s in %s" % (path, it)
    wanted = {tuple(map(int, it.split(b"."))) for it in re.findall(rb"GLIBC_([\d.]+)", (native / "bt_tool").read_bytes())}
    assert "with glibc %d.%d or later" % max(wanted)[:2] in (dist / "README.md").read_text(), "the C library that bt_tool needs"
    number = passes(["./bt_tool", "--version"], at).decode().split()[1]
    for name, text in help_texts.made(native / "bt_tool", number).items():
        assert (dist / name).read_text() == text, "%s isn't what --help says" % name
    assert filecmp.cmp(native / "bt.h", at / "crates/bt_c/bt.h", shallow=False)
    with tempfile.TemporaryDirectory() as room:
        again = pathlib.Path(room) / "wheel"
        wheel.make(again, number, wheel.package(at), (native / "libbt.so").read_bytes())
        assert filecmp.cmp(again, dist / wheel.file_name(number), shallow=False), "the wheel is another one"


@functools.lru_cache(maxsize=None)
def shown(at, name, rules):
    """What `show` prints of an example, whose last line has to be that of the table, and its status."""
    done = run(["./bt_tool", "show", "--rules", rules], at, (at / "examples" / name).read_bytes())
    last = VERDICTS[name][rules == "bep"]
    assert done.stdout.decode().endswith("\n%s\n" % last), "show of %s under %s: %r" % (name, rules, done)
    return done.stdout, done.returncode


def reads_all(at, words, folder, environment=None):
    """A program over the library prints what `show` prints, of each example under both rules."""
    names = sorted(os.path.basename(it) for it in glob.glob(str(at / "examples/*.bin")))
    assert names == sorted(VERDICTS), names
    for name in names:
        for rules in ("free", "bep"):
            done = run(words, folder, (at / "examples" / name).read_bytes(), {**(environment or {}), "RULES": rules})
            assert (done.stdout, done.returncode) == shown(at, name, rules), "%s of %s under %s: %r" % (words[0], name, rules, done)


def in_c(at):
    if not which("cc"):
        return
    compile = ["cc", "-O2", "-std=c11", "-Wall", "-Werror", "-I", "dist/x86_64-linux", "examples/c/show.c", "-o", at / "shower"]
    for words in (["dist/x86_64-linux/libbt.a"], ["-Ldist/x86_64-linux", "-lbt", "-Wl,-rpath,%s/dist/x86_64-linux" % at]):
        passes([*compile, *words], at)
        reads_all(at, [at / "shower"], at)
    (at / "shower").unlink()


def in_python(at):
    """The wheel in a fresh environment, without network."""
    with tempfile.TemporaryDirectory() as name:
        room = pathlib.Path(name)
        found, = (at / "dist").glob("*.whl")
        # (above the copy there is no package)
        shutil.copyfile(at / "examples/python/show.py", room / "show.py")
        if run([sys.executable, "-m", "venv", room / "venv"], room).returncode != 0:
            SKIPPED.append("python's venv isn't installed: the wheel was unpacked by hand")
            zipfile.ZipFile(found).extractall(room / "unpacked")
            reads_all(at, [sys.executable, "-B", "show.py"], room, {"PYTHONPATH": str(room / "unpacked")})
            return
        python = room / "venv/bin/python"
        passes([python, "-m", "pip", "install", "--no-index", "--disable-pip-version-check", found], room)
        place = passes([python, "-c", "import bt; print(bt.__file__)"], room).decode()
        assert place.startswith(str(room / "venv")), place
        assert pathlib.Path(place.strip()).with_name("py.typed").is_file(), "no py.typed in the wheel"
        reads_all(at, [python, "show.py"], room)
        passes([python, "-m", "pip", "uninstall", "-y", "--disable-pip-version-check", wheel.NAME], room)
        assert run([python, "-c", "import bt"], room).returncode != 0, "the wheel isn't gone"


def in_javascript(at):
    if not which("node"):
        return
    node = [shutil.which("node")]
    module = "new WebAssembly.Module(require('fs').readFileSync('dist/bt.wasm'))"
    if run([*node, "-e", module], at).returncode != 0:
        node.append("--experimental-wasm-memory64")
        if run([*node, "-e", module], at).returncode != 0:
            SKIPPED.append("this node has no 64-bit memories")
            return
    imports = passes([*node, "-p", "WebAssembly.Module.imports(%s).length" % module], at)
    assert imports == b"0\n", "bt.wasm wants imports"
    reads_all(at, [*node, "examples/javascript/show.mjs"], at, {"BT_WASM": "dist/bt.wasm"})


def in_node(at):
    """The addon needs no flag and no new C library, exports what Node looks for, and calls nothing else of other files than Node's calls."""
    native = at / "dist/x86_64-linux"
    wanted = {tuple(map(int, it.split(b"."))) for it in re.findall(rb"GLIBC_([\d.]+)", (native / "bt.node").read_bytes())}
    assert max(wanted) <= (2, 17), "bt.node needs the C library %s" % (max(wanted),)
    if which("nm"):
        rows = [row.split()[-2:] for row in passes(["nm", "-D", native / "bt.node"], at).decode().splitlines()]
        exported = sorted(name for kind, name in rows if kind != "U")
        assert exported == ["napi_register_module_v1", "node_api_module_get_api_version_v1"], exported
        assert all(re.match(r"napi_|(calloc|free|malloc|realloc|mem\w+)@GLIBC_", name) for kind, name in rows if kind == "U"), rows
    if which("node"):
        code = "import { End } from './bindings/js/end.mjs'; console.log(new End({ infoHash: new Uint8Array(20) }).take().length)"
        assert passes([shutil.which("node"), "--input-type=module", "-e", code], at) == b"68\n"
        reads_all(at, [shutil.which("node"), "examples/javascript/show.mjs"], at)


def examples(at):
    """The lines of examples/README.md, each by the tool that it begins with."""
    block = re.search(r"^```sh\n(.*?)^```$", (at / "examples/README.md").read_text(), re.M | re.S)[1]
    user = {name: os.environ[name] for name in ("PATH", "HOME", "CARGO_HOME", "RUSTUP_HOME") if name in os.environ}
    for line in block.splitlines():
        if which(line.split()[0]):
            assert passes(["sh", "-c", line], at, environment=user) == FIRST, line


def addon_again(at):
    """The addon is made of dist's library with the same bytes, in any folder. (This needs the toolchain.)"""
    if not which("rt"):
        return
    for folder in ("one", "two"):
        done = subprocess.run([at / "tools/dist", "--addon", at / "made" / folder], cwd="/", capture_output=True, text=True)
        assert done.returncode == 0, done
        assert filecmp.cmp(at / "made" / folder / "bt.node", at / "dist/x86_64-linux/bt.node", shallow=False), "bt.node is another one"
    shutil.rmtree(at / "made")


# ---- tools/install ----


def everything(folder):
    return sorted(str(it.relative_to(folder)) for it in folder.rglob("*"))


def installed(at):
    with tempfile.TemporaryDirectory() as name:
        room = pathlib.Path(name)
        prefix = room / "a prefix"
        (prefix / "lib").mkdir(parents=True)
        (prefix / "lib/other").write_text("of another program\n")
        before = everything(room)
        for _ in range(2):
            passes(["tools/install", prefix], at)
        assert passes([prefix / "bin/bt_tool", "--version"], room) == passes(["./bt_tool", "--version"], at)
        for it in ("share/man/man1/bt_tool.1", "share/bash-completion/completions/bt_tool", "share/zsh/site-functions/_bt_tool",
                   "share/fish/vendor_completions.d/bt_tool.fish", "include/bt.h", "lib/libbt.a", "lib/libbt.so", "lib/pkgconfig/bt.pc"):
            assert (prefix / it).is_file(), it
        python = shutil.which("python3", path=CLEAN["PATH"])
        if python:
            place, = prefix.glob("lib/python3*/site-packages")
            shutil.copyfile(at / "examples/python/show.py", room / "show.py")
            reads_all(at, [python, "-B", room / "show.py"], room, {"PYTHONPATH": str(place)})
            (room / "show.py").unlink()
        passes(["tools/install", "--uninstall", prefix], at)
        assert everything(room) == before, "left: %r" % (set(everything(room)) ^ set(before))
        assert run(["tools/install", "--uninstall", prefix], at).returncode == 1, "removed twice"
        for wrong in (["--wrong"], [prefix, prefix]):
            ended = run(["tools/install", *wrong], at)
            assert (ended.returncode, ended.stdout) == (2, b"") and b"usage: tools/install" in ended.stderr, ended
        for word in ("-h", "--help"):
            assert b"usage: tools/install [PREFIX]" in passes(["tools/install", word], at)
        passes(["tools/install"], at, environment={"HOME": str(room / "home")})
        assert (room / "home/.local/bin/bt_tool").is_file()
        passes(["tools/install", "--uninstall"], at, environment={"HOME": str(room / "home")})
        assert not (room / "home/.local/bin").exists()


def odd_prefixes(at):
    """A prefix with characters that mean something to `sed` or to the shell."""
    with tempfile.TemporaryDirectory() as name:
        room = pathlib.Path(name)
        for part in ("R&D", "a|b", "a\\1b", "it's $HOME; `x` \"q\" *"):
            prefix = room / part
            said = passes(["tools/install", prefix], at).decode()
            assert "installed under %s; " % prefix in said, said
            described = (prefix / "lib/pkgconfig/bt.pc").read_text().splitlines()
            assert described[:3] == ["prefix=%s" % prefix, "libdir=${prefix}/lib", "includedir=${prefix}/include"], described
            assert described[3:] == (at / "dist/x86_64-linux/bt.pc").read_text().splitlines()[3:], described
            passes(["tools/install", "--uninstall", prefix], at)
            assert everything(prefix) == [], everything(prefix)


def modes(at):
    """Everybody can read what is installed, whatever the umask, and run the program."""
    with tempfile.TemporaryDirectory() as name:
        prefix = pathlib.Path(name) / "here"
        for mask in ("077", "000", "027"):
            passes(["sh", "-c", "umask %s && tools/install \"$1\"" % mask, "sh", prefix], at)
            found = {it: it.lstat().st_mode & 0o7777 for it in [prefix, *prefix.rglob("*")] if not it.is_symlink()}
            runs = {it for it in found if it.is_dir() or it.name in ("bt_tool", "libbt.so.2") and it.parent.name in ("bin", "lib")}
            wrong = [(it.name, oct(mode)) for it, mode in found.items() if mode != (0o755 if it in runs else 0o644)]
            assert len(runs) > 10 and not wrong, (mask, wrong)
            passes(["tools/install", "--uninstall", prefix], at)
            prefix.rmdir()


# Takes the place of a program of the system: for the man page it writes half of a file and fails, and else it runs that program.
BROKEN = """#!/bin/sh
for last; do :; done
case $last in
*share/man/man1*) %s ;;
esac
exec /usr/bin/%s "$@"
"""
NO_ROOM = "head -c 100 \"$1\" >\"$last\"; echo 'No space left on device' >&2; exit 1"


def fails_midway(at):
    """If a step fails, it says which, each name has its old or its new file, and all can be installed again or removed."""
    steps = [("cp", NO_ROOM), ("cp", "kill $PPID; sleep 1; exit 1"), ("mv", "echo 'Input/output error' >&2; exit 1"), ("chmod", "exit 1"),
             ("mkdir", "exit 1"), (None, None)]
    with tempfile.TemporaryDirectory() as name:
        passes(["tools/install", name], at)
        new = contents(pathlib.Path(name))
    new.pop("share/bt_tool/files"), new.pop("lib/pkgconfig/bt.pc")
    for tool, does in steps:
        for is_first in (True, False):
            with tempfile.TemporaryDirectory() as name:
                half_installed(at, pathlib.Path(name), new, tool, does, is_first)


def half_installed(at, room, new, tool, does, is_first):
    prefix, tools = room / "here", room / "tools"
    for folder in (prefix, tools):
        folder.mkdir()
    old = {} if is_first else older(at, prefix)
    if tool:
        (tools / tool).write_text(BROKEN % (does, tool))
        (tools / tool).chmod(0o755)
    blocks = prefix / "share/man/man1/bt_tool.1"
    if tool is None:
        blocks.unlink(missing_ok=True)
        blocks.mkdir(parents=True)
    if tool == "mkdir" and not is_first:
        shutil.rmtree(prefix / "share/man")
        old.pop("share/man/man1/bt_tool.1")
    done = run(["tools/install", prefix], at, environment={"PATH": "%s:%s" % (tools, CLEAN["PATH"])})
    what = "%s, %s: %r" % (tool, "the first time" if is_first else "again", done)
    assert done.returncode not in (0, 2) and done.returncode < 125 and b"installed under" not in done.stdout, what
    assert does and "kill" in does or b"install: " in done.stderr and b"share/man/man1" in done.stderr, what
    found = contents(prefix)
    for path, content in found.items():
        if path not in ("share/bt_tool/files", "lib/pkgconfig/bt.pc"):
            assert content in (old.get(path), new.get(path)), "%s is neither old nor new; %s" % (path, what)
    assert not {*old} - {*found, "share/man/man1/bt_tool.1" if tool is None else ""}, "%s is gone; %s" % ({*old} - {*found}, what)
    if tool is None:
        blocks.rmdir()
    passes(["tools/install", prefix], at)
    again = contents(prefix)
    assert {path: again.get(path) for path in new} == new and {*again} == {*new, "share/bt_tool/files", "lib/pkgconfig/bt.pc"}, what
    passes(["tools/install", "--uninstall", prefix], at)
    assert not contents(prefix), "%s is left; %s" % (contents(prefix).keys(), what)


def contents(prefix):
    """What each file under a folder has; of a link the name that it has."""
    return {str(it.relative_to(prefix)): os.readlink(it) if it.is_symlink() else it.read_bytes()
            for it in prefix.rglob("*") if it.is_symlink() or it.is_file()}


def older(at, prefix):
    """An older version, with other texts and a file that the new one hasn't."""
    passes(["tools/install", prefix], at)
    for path in contents(prefix):
        if path != "share/bt_tool/files" and not (prefix / path).is_symlink():
            (prefix / path).write_text("the old one\n")
    (prefix / "share/old.txt").write_text("the old one\n")
    listed = prefix / "share/bt_tool/files"
    listed.write_text(listed.read_text().replace("folder share/man\n", "file share/old.txt\nfolder share/man\n"))
    return contents(prefix)


def packaged(at):
    """With DESTDIR, and a C program by pkg-config."""
    with tempfile.TemporaryDirectory() as name:
        room = pathlib.Path(name)
        passes(["tools/install", "/opt/bt"], at, environment={"DESTDIR": str(room / "stage")})
        described = (room / "stage/opt/bt/lib/pkgconfig/bt.pc").read_text()
        assert str(room) not in described and "prefix=/opt/bt\n" in described, described
        passes(["tools/install", "--uninstall", "/opt/bt"], at, environment={"DESTDIR": str(room / "stage")})
        assert not [it for it in (room / "stage").rglob("*") if not it.is_dir()], everything(room)
        if not which("pkg-config") or not which("cc"):
            return
        passes(["tools/install", room / "here"], at)
        for place in (room / "here/lib/pkgconfig", at / "dist/x86_64-linux"):
            flags = passes(["pkg-config", "--cflags", "--libs", "bt"], room, environment={"PKG_CONFIG_PATH": str(place)}).decode()
            passes(["cc", at / "examples/c/show.c", *shlex.split(flags), "-o", room / "shower"], room)
            libraries = place.parent if place.name == "pkgconfig" else place
            reads_all(at, [room / "shower"], room, {"LD_LIBRARY_PATH": str(libraries)})


def texts(at):
    """The completions offer the commands and their options, and the man page is read without a warning."""
    lines = (at / "dist/man/bt_tool.1").read_text()
    whole, commands = help_texts.pages(at / "dist/x86_64-linux/bt_tool")
    assert {"show", "check", "unpack", "pack", "link", "loop", "fetch", "serve"} <= {*commands}, commands.keys()
    for page in [whole, *commands.values()]:
        for row in page.options():
            assert "\\-\\-" + row["name"].replace("-", "\\-") in lines, row
    asked = "source dist/completions/bt_tool.bash; COMP_WORDS=(bt_tool %s); COMP_CWORD=$((${#COMP_WORDS[@]} - 1)); _bt_tool; "
    asked += "echo ${COMPREPLY[@]}"
    if which("bash"):
        rows = [("fet", "fetch"), ("fetch --tor", "--torrent"), ("check --rules ''", "free bep"), ("pack --pi", "--pieces")]
        for words, wanted in rows:
            found = passes(["bash", "-c", asked % words], at).decode().split()
            assert found == wanted.split(), (words, found)
    for shell, name in (("zsh", "_bt_tool"), ("fish", "bt_tool.fish")):
        if which(shell):
            passes([shell, "-n", "dist/completions/" + name], at)
    if which("groff"):
        done = run(["groff", "-man", "-ww", "-Tutf8", "dist/man/bt_tool.1"], at)
        assert done.returncode == 0 and not done.stderr, done.stderr


CHECKS = [first_run, version, sources, page, package, tampered, other_machines, built_here, not_writable, all_files, in_c, in_python, in_javascript,
          in_node, examples, addon_again, installed, odd_prefixes, modes, fails_midway, packaged, texts]


def main():
    if not (ROOT / "dist/SHA256SUMS").is_file():
        print("dist: failed: there is no dist/SHA256SUMS: tools/dist makes dist/")
        return 1
    wrong, chosen = 0, [it for it in CHECKS if it.__name__ in sys.argv[1:]] or CHECKS
    with tempfile.TemporaryDirectory(prefix="dist-") as name:
        at = pathlib.Path(name) / "a clone"
        clone(at)
        os.chmod(name, 0o755)
        for check in chosen:
            try:
                check(at)
            except Exception as fault:
                wrong += 1
                print("dist: wrong: %s: %s: %s" % (check.__name__, type(fault).__name__, fault))
    for why in sorted({*SKIPPED}):
        print("dist: skipped in part, since %s" % why)
    print("dist: %s %d checks" % ("failed: %d wrong of" % wrong if wrong else "ok:", len(chosen)))
    return int(wrong > 0)


if __name__ == "__main__":
    sys.exit(main())
