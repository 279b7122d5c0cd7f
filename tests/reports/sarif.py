"""What SARIF 2.1.0 says of a log, as far as a log of findings goes: its JSON Schema and its text, of
OASIS, and RFC 3986 of URIs. The text is that of 2020-03-27 with the errata of 2023-08-28.

`read` returns the results of a log, or raises `Refused`. Where the schema of an object has
`additionalProperties: false`, a key that it does not have is refused. `WRONG` has logs that are made
wrong in one place, by what is wrong with each.
"""
import copy
import re

# The keys of the objects, as the schema has them.
KEYS = {
    "sarifLog": "$schema version runs inlineExternalProperties properties",
    "run": "tool invocations conversion language versionControlProvenance originalUriBaseIds artifacts "
           "logicalLocations graphs results automationDetails runAggregates baselineGuid redactionTokens "
           "defaultEncoding defaultSourceLanguage newlineSequences columnKind externalPropertyFileReferences "
           "threadFlowLocations taxonomies addresses translations policies webRequests webResponses "
           "specialLocations properties",
    "tool": "driver extensions properties",
    "toolComponent": "guid name organization product productSuite shortDescription fullDescription "
                     "fullName version semanticVersion dottedQuadFileVersion releaseDateUtc downloadUri "
                     "informationUri globalMessageStrings notifications rules taxa locations language "
                     "contents isComprehensive localizedDataSemanticVersion "
                     "minimumRequiredLocalizedDataSemanticVersion associatedComponent translationMetadata "
                     "supportedTaxonomies properties",
    "reportingDescriptor": "id deprecatedIds guid deprecatedGuids name deprecatedNames shortDescription "
                           "fullDescription messageStrings defaultConfiguration helpUri help "
                           "relationships properties",
    "multiformatMessageString": "text markdown properties",
    "result": "ruleId ruleIndex rule kind level message analysisTarget locations guid correlationGuid "
              "occurrenceCount partialFingerprints fingerprints stacks codeFlows graphs graphTraversals "
              "relatedLocations suppressions baselineState rank attachments hostedViewerUri workItemUris "
              "provenance fixes taxa webRequest webResponse properties",
    "message": "text markdown id arguments properties",
    "location": "id physicalLocation logicalLocations message annotations relationships properties",
    "physicalLocation": "address artifactLocation region contextRegion properties",
    "artifactLocation": "uri uriBaseId index description properties",
    "region": "startLine startColumn endLine endColumn charOffset charLength byteOffset byteLength "
              "snippet message sourceLanguage properties",
}
LEVELS = ("none", "note", "warning", "error")
KINDS = ("notApplicable", "pass", "fail", "review", "open", "informational")
# RFC 3986: a character of a URI, and a scheme.
URI = re.compile(r"(?:[A-Za-z0-9\-._~:/?#\[\]@!$&'()*+,;=]|%[0-9A-Fa-f]{2})*")
SCHEME = re.compile(r"([A-Za-z][A-Za-z0-9+\-.]*):")
# What a fingerprint is called: hierarchical, with a version behind the last slash (3.5.4.2, 3.27.17).
FINGERPRINT = re.compile(r"[^/]+(?:/[^/]+)*/v[0-9]+")
# The parts of a message: a brace that is doubled, the number of an argument, and any other text.
MESSAGE = re.compile(r"(?:\{\{|\}\}|\{[0-9]+\}|[^{}])*")


class Refused(Exception):
    """What SARIF does not accept, and why."""


def ask(condition, why):
    if not condition:
        raise Refused(why)


def members(value, kind, required=()):
    """An object with keys of its kind, and these among them."""
    ask(isinstance(value, dict), f"{kind}: no object")
    for key in value:
        ask(key in KEYS[kind].split(), f"{kind}: a key {key}")
    for key in required:
        ask(key in value, f"{kind}: no {key}")
    return value


def text(value, what):
    ask(isinstance(value, str), f"{what}: no text")
    return value


def each(value, what):
    ask(isinstance(value, list), f"{what}: no list")
    return value


def number(value, what, least):
    ask(isinstance(value, int) and not isinstance(value, bool) and value >= least, f"{what}: {value!r}")
    return value


def reference(value, what):
    """A URI reference of RFC 3986."""
    text(value, what)
    ask(value != "", f"{what}: empty")
    ask(URI.fullmatch(value), f"{what}: no URI reference: {value!r}")
    ask(value.count("#") <= 1 and "[" not in value and "]" not in value, f"{what}: {value!r}")
    first = value.partition("/")[0]
    ask(":" not in first or SCHEME.match(value), f"{what}: a colon in its first part")
    return value


def message(value, kind):
    """A message whose text needs no arguments (3.11.5: braces that are no place of one are doubled)."""
    found = text(members(value, kind, ["text"])["text"], kind)
    ask(found != "", f"{kind}: empty")
    ask(MESSAGE.fullmatch(found), f"{kind}: a brace that is not doubled")
    ask(not re.search(r"(?<!\{)(?:\{\{)*\{[0-9]", found), f"{kind}: an argument that is not there")
    return found.replace("{{", "{").replace("}}", "}")


def rule(value):
    members(value, "reportingDescriptor", ["id"])
    ask(text(value["id"], "id") != "", "id: empty")
    for key in ("shortDescription", "fullDescription"):
        if key in value:
            message(value[key], "multiformatMessageString")
    if "helpUri" in value:
        ask(SCHEME.match(reference(value["helpUri"], "helpUri")), "helpUri: no scheme")
    return value["id"]


def tool(value):
    """The ids of the rules."""
    driver = members(members(value, "tool", ["driver"])["driver"], "toolComponent", ["name"])
    ask(text(driver["name"], "name") != "", "name: empty")
    ids = [rule(it) for it in each(driver.get("rules", []), "rules")]
    ask(len(set(ids)) == len(ids), "rules: one id twice")
    return ids


def region(value):
    members(value, "region")
    ask({"startLine", "charOffset", "byteOffset"} & set(value), "region: no begin")
    for key in ("startLine", "startColumn", "endLine", "endColumn"):
        if key in value:
            number(value[key], key, 1)
    ask(value.get("endLine", 1 << 64) >= value.get("startLine", 1), "region: it ends before it begins")
    return value.get("startLine")


def location(value):
    """The URI and the line."""
    members(value, "location", ["physicalLocation"])
    place = members(value["physicalLocation"], "physicalLocation", ["artifactLocation"])
    artifact = members(place["artifactLocation"], "artifactLocation", ["uri"])
    uri = reference(artifact["uri"], "uri")
    return uri, region(place["region"]) if "region" in place else None


def result(value, ids):
    """What a result says: its rule, its level, its message, its URI and its line, and what it is known
    by again."""
    members(value, "result", ["message", "ruleId", "level", "locations"])
    ask(text(value["ruleId"], "ruleId") in ids, f"ruleId: {value['ruleId']} is not listed")
    if "ruleIndex" in value:
        at = number(value["ruleIndex"], "ruleIndex", -1)
        ask(at == -1 or at < len(ids) and ids[at] == value["ruleId"], "ruleIndex: another rule")
    ask(value["level"] in LEVELS, f"level: {value['level']!r}")
    kind = value.get("kind", "fail")
    ask(kind in KINDS, f"kind: {kind!r}")
    ask(kind == "fail" or value["level"] == "none", "level: of what is no failure")
    places = [location(it) for it in each(value["locations"], "locations")]
    ask(len(places) == 1, "locations: not one")
    prints = value.get("partialFingerprints", {})
    ask(isinstance(prints, dict), "partialFingerprints: no object")
    for key in prints:
        ask(FINGERPRINT.fullmatch(key), f"partialFingerprints: no version: {key}")
        ask(text(prints[key], key) != "", f"{key}: empty")
    said = message(value["message"], "message")
    return value["ruleId"], value["level"], said, *places[0], tuple(sorted(prints.items()))


def read(log):
    """The results of a log of one run, and the ids of its rules."""
    members(log, "sarifLog", ["version", "runs"])
    ask(log["version"] == "2.1.0", f"version: {log['version']!r}")
    if "$schema" in log:
        ask(SCHEME.match(reference(log["$schema"], "$schema")), "$schema: no scheme")
    ask(len(each(log["runs"], "runs")) == 1, "runs: not one")
    run = members(log["runs"][0], "run", ["tool", "results"])
    ids = tool(run["tool"])
    results = [result(it, ids) for it in each(run["results"], "results")]
    ask(len({it["id"] for it in run["tool"]["driver"].get("rules", [])} - {it[0] for it in results}) == 0,
        "rules: one of no result")
    return results, ids


# ---- what is refused

RIGHT = {
    "$schema": "https://json.schemastore.org/sarif-2.1.0.json", "version": "2.1.0",
    "runs": [{
        "tool": {"driver": {"name": "cargo-lock", "rules": [
            {"id": "twice"},
            {"id": "A", "shortDescription": {"text": "A {{title}}"}, "helpUri": "https://a.example/1"},
        ]}},
        "results": [
            {"ruleId": "twice", "level": "error", "message": {"text": "it is {{listed}} twice"},
             "locations": [{"physicalLocation": {"artifactLocation": {"uri": "a%20b/Cargo.lock"},
                                                 "region": {"startLine": 7}}}],
             "partialFingerprints": {"kindNameVersion/v1": "0" * 64}},
            {"ruleId": "A", "level": "warning", "message": {"text": "? a"},
             "locations": [{"physicalLocation": {"artifactLocation": {"uri": "file:///b/Cargo.lock"}}}],
             "partialFingerprints": {"kindNameVersion/v1": "1" * 64}},
        ],
    }],
}


def changed(change):
    """The right log after a change."""
    log = copy.deepcopy(RIGHT)
    run = log["runs"][0]
    change(log, run, run["tool"]["driver"], run["results"][0])
    return log


def without(what, key):
    def change(*parts):
        del parts["log run driver result".split().index(what)][key]
    return change


def setting(what, key, value):
    def change(*parts):
        parts["log run driver result".split().index(what)][key] = value
    return change


def placed(key, value):
    """A change of the place of a result."""
    def change(_log, _run, _driver, result):
        result["locations"][0]["physicalLocation"][key] = value
    return change


def ruled(key, value):
    """A change of the second rule."""
    def change(_log, _run, driver, _result):
        driver["rules"][1][key] = value
    return change


WRONG = {
    "no version": without("log", "version"),
    "another version": setting("log", "version", "2.0.0"),
    "a version that is a number": setting("log", "version", 2.1),
    "no runs": without("log", "runs"),
    "runs that are no list": setting("log", "runs", {}),
    "two runs": lambda log, run, *_: log["runs"].append(run),
    "a run that is a text": setting("log", "runs", ["run"]),
    "a schema with a space": setting("log", "$schema", "https://a.example/a b"),
    "a schema without a scheme": setting("log", "$schema", "sarif.json"),
    "a key that a log has not": setting("log", "findings", []),
    "no tool": without("run", "tool"),
    "no results": without("run", "results"),
    "results that are an object": setting("run", "results", {}),
    "a key that a run has not": setting("run", "rules", []),
    "a tool without a driver": setting("run", "tool", {}),
    "a driver without a name": without("driver", "name"),
    "a driver with an empty name": setting("driver", "name", ""),
    "rules that are an object": setting("driver", "rules", {"twice": {}}),
    "a key that a driver has not": setting("driver", "results", []),
    "a rule without an id": lambda _log, _run, driver, _result: driver["rules"][0].pop("id"),
    "a rule with an empty id": ruled("id", ""),
    "a rule that is listed twice": lambda _log, _run, driver, _result: driver["rules"].append({"id": "A"}),
    "a rule of no result": lambda _log, _run, driver, _result: driver["rules"].append({"id": "B"}),
    "a rule that is not listed": lambda _log, _run, driver, _result: driver["rules"].pop(0),
    "a title that is a text": ruled("shortDescription", "A title"),
    "a title without a text": ruled("shortDescription", {"markdown": "*A*"}),
    "a title with a brace": ruled("shortDescription", {"text": "A {title}"}),
    "a URL without a scheme": ruled("helpUri", "//a.example/1"),
    "a URL with a quote": ruled("helpUri", "https://a.example/\"1\""),
    "a URL that is null": ruled("helpUri", None),
    "a key that a rule has not": ruled("title", "A title"),
    "a result without a rule": without("result", "ruleId"),
    "a result of another rule": setting("result", "ruleId", "Twice"),
    "a result with the place of another rule": setting("result", "ruleIndex", 1),
    "a result without a level": without("result", "level"),
    "a level that is none": setting("result", "level", "failure"),
    "a level in capitals": setting("result", "level", "Error"),
    "a kind that is none": setting("result", "kind", "error"),
    "an error of what passed": setting("result", "kind", "pass"),
    "a result without a message": without("result", "message"),
    "a message that is a text": setting("result", "message", "it is listed twice"),
    "a message without a text": setting("result", "message", {}),
    "an empty message": setting("result", "message", {"text": ""}),
    "a message with an argument": setting("result", "message", {"text": "it is {0}"}),
    "a message with a brace": setting("result", "message", {"text": "it is }"}),
    "a key that a message has not": setting("result", "message", {"text": "a", "line": 1}),
    "a result without a place": without("result", "locations"),
    "a result with no place": setting("result", "locations", []),
    "a place that is an object": setting("result", "locations", {}),
    "a place without an artifact": lambda *parts: parts[3]["locations"][0].pop("physicalLocation"),
    "an artifact without a URI": placed("artifactLocation", {}),
    "an empty URI": placed("artifactLocation", {"uri": ""}),
    "a URI with a space": placed("artifactLocation", {"uri": "a b/Cargo.lock"}),
    "a URI beyond ASCII": placed("artifactLocation", {"uri": "\u00e9/Cargo.lock"}),
    "a URI with a backslash": placed("artifactLocation", {"uri": "a\\Cargo.lock"}),
    "a URI with half an escape": placed("artifactLocation", {"uri": "a%2/Cargo.lock"}),
    "a URI with a colon first": placed("artifactLocation", {"uri": "1:/Cargo.lock"}),
    "a URI with two fragments": placed("artifactLocation", {"uri": "a#b#c"}),
    "a line 0": placed("region", {"startLine": 0}),
    "a line that is null": placed("region", {"startLine": None}),
    "a line that is a text": placed("region", {"startLine": "7"}),
    "a line that is half": placed("region", {"startLine": 7.5}),
    "a line that is true": placed("region", {"startLine": True}),
    "a region without a line": placed("region", {}),
    "a region that ends before it": placed("region", {"startLine": 7, "endLine": 6}),
    "a key that a region has not": placed("region", {"startLine": 7, "line": 7}),
    "a fingerprint without a version": setting("result", "partialFingerprints", {"kind": "0"}),
    "a fingerprint that is a number": setting("result", "partialFingerprints", {"kind/v1": 0}),
    "a fingerprint that is a list": setting("result", "partialFingerprints", ["0"]),
    "a key that a result has not": setting("result", "line", 7),
}


def check(results):
    """Whether the right log is read, and each wrong one is refused."""
    read(RIGHT)
    results.holds("at least 40 wrong logs", len(WRONG) >= 40)
    for name, change in WRONG.items():
        try:
            read(changed(change))
        except Refused:
            results.hold()
        else:
            results.fail(f"a log with {name}", "it is not refused")
