#!/usr/bin/env python3
"""Tests that cargo takes the crate bt by path and by git, documents it without the library, and says what it lacks.

usage: tests/crate.py [LIBRARIES]

LIBRARIES is the folder of libbt.a, or else dist/x86_64-linux. The repository by git is one of a single commit, with the crate and that
library where the repository has them. Where cargo isn't installed, or git, it says so, and nothing is tested.
"""
import os
import pathlib
import shutil
import subprocess
import sys
import tempfile

ROOT = pathlib.Path(__file__).resolve().parent.parent
LIBRARIES = pathlib.Path(sys.argv[1] if len(sys.argv) > 1 else ROOT / "dist/x86_64-linux").resolve()
PROGRAM = """fn main() {
    let mut bytes = bt::handshake(bt::FAST, [7; 20], *b"-XX0001-000000000000").to_vec();
    bytes.extend(b"\\0\\0\\0\\x05\\x04\\0\\0\\0\\x09");
    for item in bt::read(&bytes, &bt::Own::default()) {
        println!("{}", item.expect("a have").name());
    }
}
"""


def ended(words, folder, given, status=0):
    """What a command printed, which has to end with this status."""
    done = subprocess.run(list(map(str, words)), cwd=folder, env=given, stdout=subprocess.PIPE, stderr=subprocess.STDOUT, timeout=900)
    if done.returncode != status:
        sys.exit("crate: failed: %s: status %d\n%s" % (" ".join(map(str, words)), done.returncode, done.stdout.decode(errors="replace")))
    return done.stdout.decode()


def repository(room, given):
    """A repository with the crate and the library, and no more."""
    made = room / "repository"
    shutil.copytree(ROOT / "bindings/rust", made / "bindings/rust", ignore=shutil.ignore_patterns("target"))
    (made / "dist/x86_64-linux").mkdir(parents=True)
    shutil.copy(LIBRARIES / "libbt.a", made / "dist/x86_64-linux")
    named = ["-c", "user.name=a", "-c", "user.email=a@example.org", "-c", "commit.gpgsign=false"]
    for words in (["init", "--quiet"], ["add", "--all", "--force"], [*named, "commit", "--quiet", "--message", "All"]):
        ended(["git", *words], made, given)
    return made


def project(room, name, source, given):
    """A project with the crate, which cargo adds as these words say."""
    made = room / name
    (made / "src").mkdir(parents=True)
    (made / "src/main.rs").write_text(PROGRAM)
    (made / "Cargo.toml").write_text('[package]\nname = "project"\nversion = "0.1.0"\nedition = "2021"\n\n[workspace]\n')
    ended(["cargo", "add", "--quiet", *source], made, given)
    return made


def takes(room, name, source, given):
    """Fails if a project with the crate doesn't run."""
    made = project(room, name, source, given)
    said = ended(["cargo", "run", "--quiet"], made, given)
    if said != "handshake\nhave\n":
        sys.exit("crate: failed: the project %s prints %r" % (name, said))
    return made


def lacks(words, folder, given, wanted):
    """Fails if cargo doesn't say what is lacking. It says so before it compiles the crate."""
    said = ended(["cargo", "check", "--quiet", *words], folder, given, 101)
    if wanted not in said:
        sys.exit("crate: failed: not said: %r\n%s" % (wanted, said))


def main():
    for tool in ("cargo", "git"):
        if not shutil.which(tool):
            print("crate: left out, since %s isn't installed" % tool)
            return
    with tempfile.TemporaryDirectory(prefix="crate-") as name:
        room = pathlib.Path(name)
        given = {it: value for it, value in os.environ.items() if it not in ("BT_LIB_DIR", "DOCS_RS", "CARGO_BUILD_TARGET")}
        # (a cache of its own: nothing of this stays)
        given.update(CARGO_HOME=str(room / "home"), CARGO_TARGET_DIR=str(room / "target"), CARGO_TERM_COLOR="never")
        made = repository(room, given)
        takes(room, "by_git", ["bt", "--git", made.as_uri()], given)
        by_path = takes(room, "by_path", ["--path", made / "bindings/rust"], given)
        lacks(["--target", "aarch64-unknown-linux-gnu"], by_path, given, "for Linux on x86-64, not for aarch64-unknown-linux-gnu; BT_LIB_DIR may")
        lacks([], by_path, {**given, "BT_LIB_DIR": str(room)}, "BT_LIB_DIR is %s, where no libbt.a is" % str(room).join('""'))
        (made / "dist/x86_64-linux/libbt.a").unlink()
        lacks([], made / "bindings/rust", given, "/dist/x86_64-linux/libbt.a: take the crate from a clone of its repository, by path or by git, or")
        ended(["cargo", "run", "--quiet"], by_path, {**given, "BT_LIB_DIR": str(LIBRARIES)})
        documented = {**given, "DOCS_RS": "1", "RUSTDOCFLAGS": "-D warnings"}
        ended(["cargo", "doc", "--quiet", "--no-deps"], made / "bindings/rust", documented)
        if not (room / "target/doc/bt/fn.fetch.html").is_file():
            sys.exit("crate: failed: the call fetch isn't documented")
    print("crate: ok: by git, by path, documented without the library, and three times it is said what lacks")


if __name__ == "__main__":
    main()
