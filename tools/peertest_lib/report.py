"""Results as lines, JSON, JUnit and streams."""
import collections
import json
import os
import re
import sys
from xml.sax.saxutils import escape, quoteattr

from . import judge

# What XML can't have, as the colours of a client's message.
NO_TEXT = re.compile("[^\t\n\r\x20-\ud7ff\ue000-\ufffd\U00010000-\U0010ffff]")


def line(result):
    """One line for a case, and the sentence below it if it failed."""
    text = "%-5s %-30s %6.2f s  %s" % (result["result"], result["id"], result["seconds"], "; ".join(result["said"]))
    if result["result"] == "fail":
        text += '\n      %s, "%s" (%s, paraphrased): %s' % (result["bep"], result["section"], result["level"], result["text"])
    return text


def one_line(text):
    """The text without what a line can't have."""
    return NO_TEXT.sub("?", " ".join(text.split()))


def counter(total):
    """Shows on a terminal how many cases were played: results come when it is known that the client lives. None takes the line away."""
    def count(played):
        if sys.stderr.isatty():
            sys.stderr.write("\r\033[K" + ("" if played is None else "peertest: %d of %d cases" % (min(played, total), total)))
            sys.stderr.flush()
    return count


def listed(cases):
    """The cases with the sentences that they rest on."""
    lines = []
    for case in cases:
        lines.append("%-30s %-6s %s" % (case.id, case.level, case.title))
        lines.append('%37s %s, "%s" (paraphrased): %s' % ("", case.rule.bep, case.rule.section, case.rule.text))
        for name, text in (("between the two directions", case.between), ("the proved rules differ", case.differs)):
            if text:
                lines.append("%37s %s: %s" % ("", name, text))
    return "\n".join(lines + ["%d case%s" % (len(cases), "s" * (len(cases) != 1))])


def counts(results):
    return collections.Counter(result["result"] for result in results)


def summary(name, mode, results, seconds, died):
    found = counts(results)
    parts = ["%d %s" % (found[word], word) for word in judge.RESULTS if found[word] or word in ("pass", "fail")]
    text = "peertest: %s%s: %d cases in %.1f s: %s" % (mode, " " + name if name else "", len(results), seconds, ", ".join(parts))
    return text + ("; THE CLIENT DIED in " + ", ".join(died) if died else "")


def write_json(path, suite, results, seconds, better=()):
    content = {"suite": "peertest", "mode": suite.mode, "peer_id": suite.peer_id, "seconds": round(seconds, 1),
               "counts": counts(results), "died": suite.died, "no_longer_fails": [name for name, _ in better],
               "sentences": "paraphrased", "cases": results}
    with open(path, "w", encoding="utf8") as file:
        json.dump(content, file, indent=1)
        file.write("\n")


def junit_case(result, again):
    """The element of a case; of a failure with the sentence, and a line that runs it again."""
    said = NO_TEXT.sub("?", "; ".join(result["said"]))
    family = quoteattr("peertest." + result["id"].split(".")[0])
    head = ' <testcase classname=%s name=%s time="%.3f">' % (family, quoteattr(result["id"]), result["seconds"])
    sentence = '%s, "%s" (%s, paraphrased): %s' % (result["bep"], result["section"], result["level"], result["text"])
    passed = "<system-out>%s</system-out>" % escape("%s: %s" % (result["result"], said))
    failed = "%s\nagain: %s" % (sentence, again(result["id"]))
    inner = {"fail": "<failure message=%s>%s</failure>" % (quoteattr(said), escape(failed)),
             "error": "<error message=%s/>" % quoteattr(said), "skip": "<skipped message=%s/>" % quoteattr(said)}
    return head + inner.get(result["result"], passed) + "</testcase>\n"


def write_junit(path, suite, results, seconds, again):
    """Writes the results for CI. `again` gives the line that runs a case once more."""
    found = counts(results)
    with open(path, "w", encoding="utf8") as file:
        head = '<testsuite name=%s tests="%d" failures="%d" errors="%d" skipped="%d" time="%.1f">\n'
        file.write('<?xml version="1.0" encoding="UTF-8"?>\n')
        file.write(head % (quoteattr("peertest " + suite.mode), len(results), found["fail"], found["error"], found["skip"], seconds))
        file.writelines(junit_case(result, again) for result in results)
        file.write("</testsuite>\n")


def write_streams(folder, results):
    """Both directions of each case, for `bt_tool show --other`."""
    os.makedirs(folder, exist_ok=True)
    for result in results:
        for end, content in (("sent", result.sent), ("got", result.got)):
            with open(os.path.join(folder, "%s.%s" % (result["id"].replace("/", "~"), end)), "wb") as file:
                file.write(content)
