"""Results in the Test Anything Protocol, version 14: a line a case, with what is said of it as YAML."""
import json

from .report import one_line

# What a failure is called, and what needs no YAML but its time.
FAILED, BRIEF = ("fail", "error"), ("pass",)


def escaped(text):
    """The text of a line before its directive, in which `#` begins one."""
    return one_line(text).replace("\\", "\\\\").replace("#", "\\#")


def point(number, result, known):
    """The line of a case. A known failure is a test with TODO, which fails no run."""
    failed = result["result"] in FAILED or result.get("known", False)
    text = "%sok %d - %s" % ("not " if failed else "", number, escaped(result["id"]))
    if result["result"] == "skip":
        return text + " # SKIP " + one_line("; ".join(result["said"]))
    if result.get("known"):
        return text + " # TODO known to fail"
    if result["id"] in known and not failed:
        return text + " # TODO known to fail, and it doesn't: take it off the list"
    return text


def diagnostics(result, again):
    """The YAML block of a case; none of one that was skipped."""
    if result["result"] == "skip":
        return []
    pairs = {"duration_ms": round(1000 * result["seconds"], 1)}
    if result["result"] not in BRIEF:
        pairs.update(result=result["result"], message=one_line("; ".join(result["said"])), title=result["title"], level=result["level"],
                     bep=result["bep"], section=result["section"], sentence=result["text"] + " (paraphrased)")
    if result["result"] in FAILED:
        pairs["again"] = again(result["id"])
    # (a string of JSON is one of YAML)
    return ["  ---"] + ["  %s: %s" % (name, json.dumps(value, ensure_ascii=False)) for name, value in pairs.items()] + ["  ..."]


def write(path, results, known, again):
    """Writes the results. `again` gives the line that runs a case once more."""
    lines = ["TAP version 14", "1..%d" % len(results)]
    for number, result in enumerate(results, 1):
        lines += [point(number, result, known)] + diagnostics(result, again)
    with open(path, "w", encoding="utf8") as file:
        file.write("\n".join(lines) + "\n")


def write_bail(path, why):
    """Writes that nothing could be played."""
    with open(path, "w", encoding="utf8") as file:
        file.write("TAP version 14\nBail out! %s\n" % one_line(why))
