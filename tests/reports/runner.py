"""What the runner of GitHub Actions reads from a line that a step prints: the commands of
`ActionCommand.cs` of `actions/runner`, of the present form `::NAME KEY=VALUE,..::MESSAGE` and of the
old one `##[NAME KEY=VALUE;..]MESSAGE`, which it looks for anywhere in a line that is not of the first.
"""
import re

# The commands that the runner obeys, in lower case.
OBEYED = {"add-mask", "add-matcher", "add-path", "debug", "echo", "endgroup", "error", "group",
          "internal-set-repo-path", "notice", "remove-matcher", "save-state", "set-env", "set-output",
          "stop-commands", "warning"}
# What is escaped, in the order in which the runner puts it back.
DATA = (("%0D", "\r"), ("%0A", "\n"), ("%25", "%"))
PROPERTY = (("%0D", "\r"), ("%0A", "\n"), ("%3A", ":"), ("%2C", ","), ("%25", "%"))
OLD = (("%3B", ";"), ("%0D", "\r"), ("%0A", "\n"), ("%5D", "]"), ("%25", "%"))


def plain(text, escapes):
    for escape, character in escapes:
        text = text.replace(escape, character)
    return text


def command_of(line):
    """The name, the properties and the message of the command that a line is, or None."""
    found = line.lstrip()
    if found.startswith("::") and found.find("::", 2) >= 0:
        end = found.find("::", 2)
        name, _, rest = found[2:end].partition(" ")
        if name.lower() in OBEYED:
            pairs = [it.split("=", 1) for it in rest.strip().split(",") if it]
            properties = {it[0].strip(): plain(it[1], PROPERTY) for it in pairs if len(it) == 2}
            return name, properties, plain(found[end + 2:], DATA)
    return old_command_of(line)


def old_command_of(line):
    """The same of the old form."""
    begin = line.find("##[")
    end = line.find("]", begin)
    if begin < 0 or end < 0:
        return None
    name, _, rest = line[begin + 3:end].partition(" ")
    if name.lower() not in OBEYED:
        return None
    pairs = [it.split("=", 1) for it in rest.split(";") if it]
    properties = {it[0]: plain(it[1], OLD) for it in pairs if len(it) == 2}
    return name, properties, plain(line[end + 1:], OLD)


def lines_of(text):
    """The lines that a step prints, as the runner gets them: both newlines and carriage returns end
    one."""
    return [it for it in re.split("\r\n|\r|\n", text) if it]


def commands_of(text):
    """The commands in what a step prints. A line that is none is a fault."""
    found = [command_of(it) for it in lines_of(text)]
    for line, command in zip(lines_of(text), found):
        if command is None:
            raise ValueError(f"no command: {line!r}")
    return found


def check(results):
    """What the reader says of lines that are known."""
    cases = {
        "::error file=a,line=2::b": ("error", {"file": "a", "line": "2"}, "b"),
        "::warning file=a%2Cb%3Ac%25::d%0A%0D%25": ("warning", {"file": "a,b:c%"}, "d\n\r%"),
        "::error::a::b": ("error", {}, "a::b"),
        "  ::Error file=a::b": ("Error", {"file": "a"}, "b"),
        "::error file=a": None,
        "::unknown::a": None,
        "a ::error::b": None,
        "a": None,
        "a ##[add-mask]b": ("add-mask", {}, "b"),
        "::error file=a::##[add-mask]b": ("error", {"file": "a"}, "##[add-mask]b"),
    }
    for line, wanted in cases.items():
        results.equal(f"the line {line!r}", command_of(line), wanted)
