"""The time in a bill: that of the variable `SOURCE_DATE_EPOCH`, or else that of the clock."""
import json

VARIABLE = "SOURCE_DATE_EPOCH"
LOCKFILE = b"version = 4\n\n[[package]]\nname = \"foo\"\nversion = \"1.0.0\"\n"

# What the clock reads, in seconds, and in a bill.
SECONDS, MOMENT = "1718818205", "2024-06-19T17:30:05Z"

TIMES = {
    "0": "1970-01-01T00:00:00Z",
    "007": "1970-01-01T00:00:07Z",
    "1718818206": "2024-06-19T17:30:06Z",
    "253402300799": "9999-12-31T23:59:59Z",
    "00000000000000000000253402300799": "9999-12-31T23:59:59Z",
}

# Texts that name no time, and how each is shown.
NO_TIMES = {
    "": "", "+1": "+1", "-1": "-1", "1 ": "1 ", "1.5": "1.5", "\u0661": "\u0661",
    "1\t\n": "1\\u{9}\\u{a}",
    "253402300800": "253402300800", "18446744073709551616": "18446744073709551616",
}


def bill(faulty, folder, added):
    """The answer to a command for a bill with a time, where the clock does not move."""
    environment = {"FAULTS_CLOCK": SECONDS, **added}
    return faulty.run(["bom", "--timestamp"], folder, added=environment)


def time_of(answer):
    """The time in a bill, or the answer that is none."""
    return json.loads(answer.out)["metadata"]["timestamp"] if answer.status == 0 else answer


def fault(message):
    """The answer whose message is about the variable."""
    return 2, b"", f"*** error: {VARIABLE} {message}\n".encode()


def ask_no_times(faulty, folder, results):
    """Values of the variable that are no time, and no text."""
    for text, shown in NO_TIMES.items():
        answer = bill(faulty, folder, {VARIABLE: text})
        results.equal(f"no time {text!r}", answer[:3], fault(f"is no time: `{shown}`"))
    answer = bill(faulty, folder, {VARIABLE: b"\xff"})
    results.equal("no text", answer[:3], fault("is not UTF-8"))


def ask_times(faulty, results):
    """Asks for bills with a time."""
    folder = faulty.folder({"Cargo.lock": LOCKFILE})
    for text, time in TIMES.items():
        answer = bill(faulty, folder, {VARIABLE: text})
        results.equal(f"the time {text}", time_of(answer), time)
    answer = bill(faulty, folder, {})
    results.equal("the clock where no variable is", time_of(answer), MOMENT)
    ask_no_times(faulty, folder, results)
