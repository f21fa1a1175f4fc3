"""Makes the program, the libraries and the WebAssembly module of what the toolchain proved, by the toolchain's own linker and strip.

Nothing of the system's compiler or linker is in them, so that their bytes depend on the sources and the toolchain alone.
"""
import os
import re
import shutil
import subprocess

import prover

WASM = "wasm64-unknown-unknown"
# The modules of bt_c that are about ends.
SOURCES_OF_ENDS = ("config", "ends", "event", "held", "loose", "next", "say", "status")
SPECS_OF_ENDS = ("Calls", "Configs", "Held", "Nexts", "Sayings", "Statuses")
PROOFS_OF_ENDS = ("Boxes", "Slots", "Words")
# The toolchain's own object files for memory.
HEAPS = {"heap.o", "heap.pic.o"}
# The shared library exports these and nothing else, and the addon those for which Node looks.
EXPORTS = "{ global: bt_*; local: *; };\n"
ADDON_EXPORTS = "{ global: napi_register_module_v1; node_api_module_get_api_version_v1; local: *; };\n"
ADDON = prover.ROOT / "bindings/js/addon"


class Failed(Exception):
    """Says which step failed, and how."""


def run(words, **how):
    words = list(map(str, words))
    done = subprocess.run(words, stdin=subprocess.DEVNULL, stdout=subprocess.PIPE, stderr=subprocess.STDOUT, errors="replace", **how)
    if done.returncode != 0:
        raise Failed("failed: %s\n%s" % (" ".join(words), done.stdout[-3000:]))


def rt(crate, *words):
    """Proves and builds what isn't built yet of a crate and those below, as `rt` does it, and says what it does."""
    print("dist: rt %s in crates/%s" % (" ".join(words), crate), flush=True)
    run(["rt", *words], cwd=prover.CRATES / crate)


def without_ends(to):
    """A copy of the crate `bt_c` without the modules that are about ends, and what is written of these in specs/ and proofs/."""
    shutil.copytree(prover.CRATES / "bt_c", to, ignore=shutil.ignore_patterns("out"))
    for file, words in (("src/lib.rt", SOURCES_OF_ENDS), ("specs/Lib.antt", SPECS_OF_ENDS), ("proofs/Lib.antt", PROOFS_OF_ENDS)):
        lines = r"^(pub )?(mod|use) (%s)\b[^;{\n]*(\{[^}]*\})?;?\n" % "|".join(words)
        text, count = re.subn(lines, "", (to / file).read_text(), flags=re.M)
        if count < len(words):
            raise Failed("bt_c/%s doesn't name each of %s" % (file, ", ".join(words)))
        (to / file).write_text(text)
        for name in words:
            for left in (to / file).parent.glob(name + ".*"):
                left.unlink()
    for name in SOURCES_OF_ENDS:
        shutil.rmtree(to / "proofs" / name, ignore_errors=True)
    return to


class Maker:
    """Makes files over the built crates in the folders over/*/out."""

    def __init__(self, over, work):
        self.over, self.work, self.kit = over.resolve(), work, prover.kit()
        self.toolchain = self.kit / "toolchain"

    def program(self, to):
        """The program without symbols. The section `.comment`, which names the logic in which it is proved, stays."""
        built = self.over / "bt_tool/out/bt_tool"
        if not built.is_file():
            raise Failed("%s isn't there; `rt ci` builds it" % built)
        # (LLVM's tools are one program, which goes by the name that it is called by)
        run(["llvm-strip", "--strip-all", "--keep-section=.comment", "-o", to, built], executable=self.toolchain / "bin/clang")
        to.chmod(0o755)

    def archive(self, to, kept):
        """The C library as a static one."""
        self.compile(to, kept, prover.CRATES / "bt_c")
        self.heap(to)
        to.chmod(0o644)

    def compile(self, to, kept, crate, *target):
        """Proves and compiles the crate for a target. `kept` is where the prover keeps what is the same for another target."""
        jobs = str(min(4, len(os.sched_getaffinity(0))))
        words = [*prover.words("build", "bt_c", self.over), "--links", "bt_c=", "--toolchain", self.toolchain, "--backend", "llvm"]
        kept.mkdir(parents=True, exist_ok=True)
        run([*words, *target, "--incremental", kept, "--jobs", jobs, "-o", to], cwd=crate)

    def heap(self, archive):
        """Puts the memory of ends into the archive: a C file, which a program may replace. What the toolchain has for it goes."""
        tool, made = self.toolchain / "bin/llvm-ar", self.work / "bt_heap.o"
        words = [self.toolchain / "bin/clang", "-O2", "-fPIC", "-ffunction-sections", "-fno-builtin", "-nostdinc", "-c", "bt_heap.c"]
        run([*words, "-o", made], cwd=prover.CRATES / "bt_c")
        listed = subprocess.run([tool, "t", archive], stdout=subprocess.PIPE, text=True, check=True).stdout.split()
        for name in HEAPS & set(listed):
            run([tool, "d", archive, name])
        run([tool, "q", archive, made])

    def shared(self, to, archive, name):
        """The C library as a shared one, which programs ask for by this name."""
        self.link(to, EXPORTS, "-soname", name, "--no-undefined", "--whole-archive", archive, "--no-whole-archive")

    def addon(self, to, archive):
        """The end as an addon for Node, over the C library. What it calls of Node is undefined in it."""
        made = self.work / "bt_node.o"
        words = [self.toolchain / "bin/clang", "-O2", "-fPIC", "-ffunction-sections", "-nostdinc", "-I", "freestanding"]
        run([*words, "-I", prover.CRATES / "bt_c", "-c", "bt_node.c", "-o", made], cwd=ADDON)
        self.link(to, ADDON_EXPORTS, made, archive)

    def link(self, to, exported, *words):
        exports = self.work / "exports"
        exports.write_text(exported)
        usual = [self.toolchain / "bin/ld.lld", "-shared", "--version-script", exports, "--gc-sections", "-s", "--build-id=none"]
        usual += ["--hash-style=gnu", "-z", "relro", "-z", "now", "-z", "noexecstack", "-o", to]
        run([*usual, *words, self.toolchain / "lib/libc.so.6"])
        to.chmod(0o755)

    def module(self, to, kept):
        """The C library as a WebAssembly module, without ends, since the toolchain has no memory for them there."""
        archive, crate = self.work / "wasm.a", without_ends(self.work / "bt_c")
        self.compile(archive, kept, crate, "--target", WASM)
        run([self.kit / "bin/rattle-link", "--target", WASM, "--toolchain", self.toolchain, "-o", to, archive])
        to.chmod(0o644)
