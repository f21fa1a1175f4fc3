"""Makes a wheel of the Python package and libbt.so, always the same bytes of the same files: no time, no owner, sorted names, no compression."""
import base64
import hashlib
import re
import zipfile

NAME = "bt_peer_wire"
# The C library that the platform tag names. pip takes the wheel where the system's is as new.
PLATFORM = "manylinux_2_17_x86_64"

METADATA = """Metadata-Version: 2.1
Name: {name}
Version: {version}
Summary: Reads and writes the BitTorrent peer wire (BEP 3, 5, 6, 9 and 10), over a proved library
Keywords: bittorrent,protocol,parser
Classifier: Intended Audience :: Developers
Classifier: Operating System :: POSIX :: Linux
Classifier: Programming Language :: Python :: 3
Classifier: Typing :: Typed
Requires-Python: >=3.8
Description-Content-Type: text/plain

{text}"""

WHEEL = """Wheel-Version: 1.0
Generator: tools/dist
Root-Is-Purelib: false
Tag: py3-none-{platform}
"""


class TooNew(Exception):
    """Says which version of the C library is wanted."""


class OtherVersion(Exception):
    """Says which version the package has, and which the program."""


def file_name(version):
    return "%s-%s-py3-none-%s.whl" % (NAME, version, PLATFORM)


def see_platform(library):
    """Fails if the library wants a newer C library than the platform tag says."""
    most = tuple(map(int, PLATFORM.split("_")[1:3]))
    wanted = [tuple(map(int, it.split(b"."))) for it in re.findall(rb"GLIBC_([\d.]+)", library)]
    if any(it > most for it in wanted):
        raise TooNew("libbt.so needs the C library %d.%d, which is newer than the wheel's tag says" % max(wanted)[:2])


def package(root):
    """The files of the Python package, by name."""
    return {it.name: it.read_bytes() for it in (root / "bindings/python/bt").iterdir() if it.suffix in (".py", ".typed")}


def described(package):
    """The text that the package begins with, where its first programs are."""
    return re.match(r'"""(.*?)"""', package["__init__.py"].decode(), re.S)[1]


def see_version(package, version):
    """Fails if the package says another version."""
    said = re.search(r'^__version__ = "(.*)"$', package["__init__.py"].decode(), re.M)
    if not said or said[1] != version:
        raise OtherVersion("bindings/python/bt has the __version__ %s, and the program %s" % (said and said[1], version))


def make(to, version, package, library):
    """Writes the wheel of the package's files and the library's bytes."""
    see_platform(library)
    see_version(package, version)
    info = "%s-%s.dist-info" % (NAME, version)
    files = {
        **{"bt/" + name: text for name, text in package.items()},
        "bt/libbt.so": library,
        info + "/METADATA": METADATA.format(name=NAME.replace("_", "-"), version=version, text=described(package)).encode(),
        info + "/WHEEL": WHEEL.format(platform=PLATFORM).encode(),
    }
    record = ""
    for name, content in sorted(files.items()):
        digest = base64.urlsafe_b64encode(hashlib.sha256(content).digest()).rstrip(b"=").decode()
        record += "%s,sha256=%s,%d\n" % (name, digest, len(content))
    files[info + "/RECORD"] = (record + "%s/RECORD,,\n" % info).encode()
    with zipfile.ZipFile(to, "w", zipfile.ZIP_STORED) as made:
        for name, content in sorted(files.items(), key=lambda it: (it[0].endswith("/RECORD"), it[0])):
            entry = zipfile.ZipInfo(name, (1980, 1, 1, 0, 0, 0))
            entry.create_system, entry.external_attr = 3, 0o644 << 16
            made.writestr(entry, content)
