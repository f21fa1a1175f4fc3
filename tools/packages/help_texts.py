"""Makes the man page and the shells' completions from what the program prints for --help."""
import re
import subprocess

HEADING = re.compile(r"([A-Z][a-z]+(?: [a-z]+)*):(?: +(\S.*))?$")
OPTION = re.compile(r" +(?:-(?P<short>\w), )?--(?P<name>[\w-]+)(?: <?(?P<value>[A-Z-]+)>?)?(?: {2,}(?P<text>\S.*))?$")
OPERAND = re.compile(r" +(?P<name>[\[<]?[A-Z]+[\]>]?(?:\.{2,3})?)(?: {2,}(?P<text>\S.*))?$")
COMMAND = re.compile(r" +(?P<name>[a-z]+) {2,}(?P<text>\S.*)$")
# The values of an option stand in its text, in quotes.
VALUE = re.compile(r"'(\w+)'")
FILES = ("FILE",)


class Unreadable(Exception):
    """Says which part of a text isn't as expected."""


class Page:
    """What `--help` prints: what the command does, the lines of each section by the section's name, and what else is said."""

    def __init__(self, text):
        self.about, self.more, self.sections = [], [], {}
        lines = self.about
        for line in text.splitlines():
            heading = HEADING.fullmatch(line)
            if heading:
                lines = self.sections[heading[1]] = [heading[2]] if heading[2] else []
            elif line[:1].strip() and lines is not self.about and lines is not self.more:
                lines = self.more
                lines.append(line)
            elif line.strip() or lines:
                lines.append(line)
        for part in [self.about, self.more, *self.sections.values()]:
            while part and not part[-1].strip():
                part.pop()

    def rows(self, section, form):
        """The rows of a section; a line that isn't of this form goes on with the text of the one before."""
        found = []
        for line in self.sections.get(section, []):
            row = form.fullmatch(line)
            if row:
                found.append({**row.groupdict(), "text": row["text"] or ""})
            elif found and line.strip():
                found[-1]["text"] = " ".join([found[-1]["text"], line.strip()]).strip()
        return found

    def options(self):
        return self.rows("Options", OPTION)

    def commands(self):
        return self.rows("Commands", COMMAND)


def pages(program):
    """The page of the program, and that of each of its commands by name."""

    def page(*words):
        said = subprocess.run([program, *words, "--help"], capture_output=True, text=True, check=True).stdout
        made = Page(said)
        if not made.sections.get("Usage") or not made.options():
            raise Unreadable("bt_tool %s: no sections 'Usage' and 'Options'" % " ".join([*words, "--help"]))
        return made

    whole = page()
    names = [it["name"] for it in whole.commands() if it["name"] != "help"]
    if not names:
        raise Unreadable("bt_tool --help: no commands")
    return whole, {name: page(name) for name in names}


# ---- the man page ----


def roff(text):
    text = text.replace("\\", "\\e").replace("-", "\\-")
    return re.sub(r"^([.'])", r"\\&\1", text, flags=re.M)


def paragraphs(lines):
    return "\n.PP\n".join(roff(re.sub(r"\s+", " ", it.strip())) for it in re.split(r"\n\s*\n", "\n".join(lines)) if it.strip())


def verbatim(lines):
    return ".nf\n%s\n.fi\n" % "\n".join(roff(line) for line in lines)


def listed(rows, label):
    return "".join(".TP\n%s\n%s\n" % (label(row), roff(row["text"])) for row in rows)


def option_label(row):
    short = "\\fB\\-%s\\fR, " % row["short"] if row["short"] else ""
    return "%s\\fB\\-\\-%s\\fR%s" % (short, roff(row["name"]), " \\fI%s\\fR" % roff(row["value"]) if row["value"] else "")


def man_sections(page, heading):
    """The sections of a page after its usage. `heading` makes the line of a section's name."""
    text = ""
    for name, lines in page.sections.items():
        if name in ("Usage", "Commands"):
            continue
        text += heading(name)
        if name == "Options":
            text += listed(page.options(), option_label)
        elif name == "Arguments":
            text += listed(page.rows(name, OPERAND), lambda row: "\\fI%s\\fR" % roff(row["name"]))
        else:
            text += verbatim(lines)
    return text


def man(whole, commands, version):
    """bt_tool.1"""
    about = re.split(r"\n\s*\n", "\n".join(whole.about))[0].replace("\n", " ").rstrip(".")
    text = '.TH BT_TOOL 1 "" "bt_tool %s" "BitTorrent peer wire"\n' % roff(version)
    text += ".SH NAME\nbt_tool \\- %s\n" % roff(about[:1].lower() + about[1:])
    text += ".SH SYNOPSIS\n%s" % verbatim([page.sections["Usage"][0] for page in [whole, *commands.values()]])
    if whole.more:
        text += ".SH DESCRIPTION\n%s\n" % paragraphs(whole.more)
    text += ".SH COMMANDS\n"
    for page in commands.values():
        text += ".SS %s\n%s\n" % (roff(page.sections["Usage"][0]), paragraphs(page.about + page.more))
        text += man_sections(page, lambda name: ".PP\n.B %s\n" % name)
    return text + man_sections(whole, lambda name: ".SH %s\n" % name.upper())


# ---- completions ----


def values_of(row):
    """The words that an option takes, if its text names them."""
    found = VALUE.findall(row["text"].partition("[default")[0]) if row["value"] else []
    return found if len(found) > 1 else []


def bash(whole, commands):
    """The completions for bash."""
    offered = {name: " ".join("--" + it["name"] for it in page.options()) for name, page in commands.items()}
    lines = ["# Completions of bt_tool for bash, made from its --help.", "_bt_tool() {"]
    lines += ["    local word=${COMP_WORDS[COMP_CWORD]} before=${COMP_WORDS[COMP_CWORD - 1]} options values="]
    lines += ["    COMPREPLY=()", "    case ${COMP_WORDS[1]} in"]
    lines += ["    %s) options='%s' ;;" % row for row in offered.items()]
    lines += ["    *) options='%s' ;;" % " ".join("--" + it["name"] for it in whole.options()), "    esac"]
    lines += ["    if [ \"$COMP_CWORD\" = 1 ]; then", "        values='%s'" % " ".join(commands), "    fi"]
    lines += ["    case $before in"]
    rows = {it["name"]: it for page in commands.values() for it in page.options() if it["value"] and it["value"] not in FILES}
    lines += ["    --%s) values='%s' ;;" % (name, " ".join(values_of(it))) for name, it in rows.items() if values_of(it)]
    free = " | ".join("--" + name for name, it in rows.items() if not values_of(it))
    lines += ["    %s) return ;;" % free] if free else []
    lines += ["    esac", "    case $word in", "    -*) values=$options ;;", "    esac"]
    lines += ["    COMPREPLY=($(compgen -W \"$values\" -- \"$word\"))", "}", "complete -o default -F _bt_tool bt_tool"]
    return "\n".join(lines) + "\n"


def zsh_text(text):
    return re.sub(r"([\[\]:\\])", r"\\\1", text.partition(" [default")[0]).replace("'", "'\\''")


def zsh_option(row):
    kind = "(%s)" % " ".join(values_of(row)) if values_of(row) else "_files" if row["value"] in FILES else " "
    return "'--%s[%s]%s'" % (row["name"], zsh_text(row["text"]), ":%s:%s" % (row["value"], kind) if row["value"] else "")


def zsh(whole, commands):
    """The completions for zsh."""
    about = {it["name"]: it["text"] for it in whole.commands()}
    text = "#compdef bt_tool\n# Completions of bt_tool for zsh, made from its --help.\n"
    text += "_bt_tool() {\n    if (( CURRENT == 2 )); then\n        local -a commands\n        commands=(\n"
    text += "".join("            '%s:%s'\n" % (name, zsh_text(about[name])) for name in commands)
    text += "        )\n        _describe command commands\n"
    text += "        _arguments %s\n        return\n    fi\n" % " ".join(map(zsh_option, whole.options()))
    text += "    local command=$words[2]\n    shift words\n    (( CURRENT-- ))\n    case $command in\n"
    for name, page in commands.items():
        text += "    %s)\n        _arguments %s \\\n            '*:FILE:_files'\n        ;;\n" % (
            name, " \\\n            ".join(map(zsh_option, page.options())))
    return text + "    esac\n}\n_bt_tool \"$@\"\n"


def fish_text(text):
    return "'%s'" % text.partition(" [default")[0].replace("\\", "\\\\").replace("'", "\\'")


def fish_option(condition, row):
    words = ["complete -c bt_tool -n '%s' -l %s" % (condition, row["name"])]
    words += ["-s %s" % row["short"]] if row["short"] else []
    if row["value"]:
        words += ["-r" if row["value"] in FILES else "-x"]
    words += ["-a '%s'" % " ".join(values_of(row))] if values_of(row) else []
    return " ".join([*words, "-d", fish_text(row["text"])])


def fish(whole, commands):
    """The completions for fish."""
    about = {it["name"]: it["text"] for it in whole.commands()}
    lines = ["# Completions of bt_tool for fish, made from its --help."]
    for name in commands:
        lines.append("complete -c bt_tool -n __fish_use_subcommand -f -a %s -d %s" % (name, fish_text(about[name])))
    lines += [fish_option("__fish_use_subcommand", row) for row in whole.options()]
    for name, page in commands.items():
        lines += [fish_option("__fish_seen_subcommand_from %s" % name, row) for row in page.options()]
    return "\n".join(lines) + "\n"


def made(program, version):
    """The texts by their place in dist/."""
    whole, commands = pages(program)
    return {
        "man/bt_tool.1": man(whole, commands, version),
        "completions/bt_tool.bash": bash(whole, commands),
        "completions/_bt_tool": zsh(whole, commands),
        "completions/bt_tool.fish": fish(whole, commands),
    }
