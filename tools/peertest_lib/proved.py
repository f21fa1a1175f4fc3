"""Finds the proved library and the program, and imports the library."""
import os
import sys

ROOT = os.path.dirname(os.path.dirname(os.path.dirname(os.path.realpath(__file__))))
BUILT = os.path.join(ROOT, "dist", "x86_64-linux")
bt = None


class Missing(Exception):
    pass


def first(places):
    return next((place for place in places if place and os.path.exists(place)), None)


def tool(given=None):
    """The program bt_tool, or the script at the top of the repository."""
    return first([given, os.environ.get("BT_TOOL"), os.path.join(BUILT, "bt_tool"), os.path.join(ROOT, "bt_tool")])


def load(given=None):
    """Imports the Python package over libbt.so, and returns it."""
    global bt
    if bt is not None:
        return bt
    library = first([given, os.environ.get("BT_LIBRARY"), os.path.join(BUILT, "libbt.so"),
                     os.path.join(ROOT, "crates", "bt_c", "out", "libbt.so")])
    if library is None:
        raise Missing("there is no libbt.so in dist/x86_64-linux; give its place by --library or BT_LIBRARY")
    os.environ["BT_LIBRARY"] = os.path.abspath(library)
    here = os.path.join(ROOT, "bindings", "python")
    try:
        sys.dont_write_bytecode = True
        if os.path.isdir(here):
            sys.path.insert(0, here)
        import bt as found
        bt = found
    except (ImportError, OSError) as error:
        raise Missing(str(error)) from error
    return bt
