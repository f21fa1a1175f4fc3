"""How the toolchain's prover is called on a crate over libraries that are built. tools/packages/judging.py and tools/dist call it."""
import pathlib
import subprocess

ROOT = pathlib.Path(__file__).resolve().parent.parent.parent
CRATES = ROOT / "crates"


class NotBuilt(Exception):
    """Says which library isn't there."""


def kit():
    """The folder of the toolchain to which `rt` belongs."""
    return pathlib.Path(subprocess.run(["rt", "doc"], capture_output=True, text=True, check=True).stdout.split()[0]).parent


def rows():
    """The rows of crates.txt: for each crate its kind, which is empty for most, and the names of the libraries that it uses."""
    found = {}
    for line in (ROOT / "crates.txt").read_text().splitlines():
        kind, _, words = line.partition("#")[0].partition(":")
        if kind.strip():
            name, *kinds = kind.split()
            found[name] = kinds, words.split()
    return found


def below(crate, found):
    """The repository's libraries on which a crate stands."""
    names, left = set(), [crate]
    while left:
        more = {it for it in found[left.pop()][1] if it in found} - names
        names |= more
        left += more
    return names


def words(verb, crate, over):
    """The prover's words for `check` or `build` of the crate, over the libraries in the folders over/*/out/rlib."""
    folder, found = kit(), rows()
    kinds, named = found[crate]
    file_of = {it: over / it / f"out/rlib/{it}.rlib" for it in below(crate, found)}
    for name, file in file_of.items():
        if not (file / "format").is_file():
            raise NotBuilt(f"{name}, which {crate} stands on, isn't built: `rt lib` in crates/{name} builds it")
    root = "src/main.rt" if (CRATES / crate / "src/main.rt").is_file() else "src/lib.rt"
    said = [folder / "bin/rattle", verb, "--crate-name", crate, root, "-L", f"dependency={folder}/rlibs"]
    for name in ["std", *named]:
        said += ["--extern", f"{name}={file_of.get(name) or f'{folder}/rlibs/{name}.rlib'}"]
    for file in file_of.values():
        said += ["-L", f"dependency={file.parent}"]
    said += ["--antt-project", f"{folder}/rattle/logic/antt-project.json", "--logic-built", f"{folder}/logic_built"]
    return said + [word for kind in kinds for word in ("--crate-type", kind)]
