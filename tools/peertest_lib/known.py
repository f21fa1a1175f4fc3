"""The file of failures that are known: an id a line, with a reason after it; `#` begins a comment."""
from .report import one_line


def read(path):
    """The ids that may fail, and their lines."""
    with open(path, encoding="utf8") as file:
        lines = [line.strip() for line in file]
    return {line.split("#", 1)[0].split()[0]: line for line in lines if line.split("#", 1)[0].strip()}


def forgive(results, known):
    """Failures that are known become notes. Returns those that no longer fail, with what they are now."""
    better = []
    for result in results:
        if result["id"] not in known:
            continue
        if result["result"] == "fail" and result.get("state") != "died":
            result["result"], result["said"] = "note", ["known"] + result["said"]
            result["known"] = True
        elif result["result"] in ("pass", "info"):
            better.append((result["id"], "passed"))
        elif result["result"] == "note":
            better.append((result["id"], "is a note now"))
    return better


def line(result, known):
    """The line of a case, if it has one. A line that somebody wrote stays as it is."""
    said = one_line("; ".join(result["said"]))
    if result.get("known") or result["result"] == "skip" and result["id"] in known:
        return known[result["id"]]
    if result["result"] == "error" or result.get("state") == "died":
        return "# %s isn't forgiven: %s" % (result["id"], said)
    if result["result"] != "fail":
        return None
    sentence = '%s, "%s" (%s, paraphrased): %s' % (result["bep"], result["section"], result["level"], result["text"])
    return "%s  # %s. %s" % (result["id"], said, sentence)


def write(path, results, known, head):
    """Writes what failed in this run, and those of `known` that it says nothing of."""
    lines = ["# What fails and may fail, as `tools/peertest --known` reads it: an id a line, and a reason.", "# " + one_line(head)]
    lines += [text for text in (line(result, known) for result in results) if text is not None]
    lines += [text for name, text in known.items() if name not in {result["id"] for result in results}]
    with open(path, "w", encoding="utf8") as file:
        file.write("\n".join(lines) + "\n")
