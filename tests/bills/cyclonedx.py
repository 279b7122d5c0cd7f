"""What CycloneDX 1.6 says of a bill of materials in JSON, as far as a bill of a lockfile goes.

Written from the JSON schema of CycloneDX 1.6 (ECMA-424), the specification of package URLs
(ECMA-427) with its type `cargo`, RFC 3339 for times, RFC 3987 for references, and annex D of SPDX
2.3 for licence expressions, without its lists of names. It is no reader of the schema's file: each
rule stands here by itself. A member that the schema has and no bill of ours needs, as `copyright`,
is refused like an unknown one.
"""
import datetime
import json
import re
from urllib.parse import unquote_to_bytes

TYPES = """application framework library container platform operating-system device device-driver
firmware file machine-learning-model data cryptographic-asset""".split()

PHASES = "design pre-build build post-build operations discovery decommission".split()

ACKNOWLEDGEMENTS = ("declared", "concluded")
DIGITS = {"MD5": 32, "SHA-1": 40, "SHA-256": 64, "SHA-384": 96, "SHA-512": 128, "SHA3-256": 64,
          "SHA3-384": 96, "SHA3-512": 128, "BLAKE2b-256": 64, "BLAKE2b-384": 96,
          "BLAKE2b-512": 128, "BLAKE3": 64}

REFERENCES = """vcs issue-tracker website advisories bom mailing-list social chat documentation
support source-distribution distribution distribution-intake license build-meta build-system
release-notes security-contact model-card log configuration evidence formulation attestation
threat-model adversary-model risk-assessment vulnerability-assertion exploitability-statement
pentest-report static-analysis-report dynamic-analysis-report runtime-analysis-report
component-analysis-report maturity-report certification-report codified-infrastructure
quality-metrics poam electronic-signature digital-signature rfc-9116 other""".split()

SERIAL = r"urn:uuid:[0-9a-f]{8}-[0-9a-f]{4}-[0-9a-f]{4}-[0-9a-f]{4}-[0-9a-f]{12}"

TIME = r"(\d{4})-(\d\d)-(\d\d)T(\d\d):(\d\d):(\d\d)(?:\.\d+)?(?:Z|[+-](?:[01]\d|2[0-3]):[0-5]\d)"

# a reference: a scheme, an authority, which alone may have brackets, and what follows
CHARACTER = r"(?:[A-Za-z0-9\-._~:@!$&'()*+,;=\u00a0-\U0010ffff]|%[0-9A-Fa-f]{2})"
AUTHORITY = rf"//(?:{CHARACTER}*@)?(?:\[[0-9A-Fa-f:.]+\](?::\d*)?|{CHARACTER}*)"
IRI = (rf"(?:[A-Za-z][A-Za-z0-9+.-]*:)?(?:{AUTHORITY}(?:/(?:{CHARACTER}|/)*)?|(?:{CHARACTER}|/)*)"
       rf"(?:\?(?:{CHARACTER}|[/?])*)?(?:#(?:{CHARACTER}|[/?])*)?")

# in a package URL: a name or a version, and the value of a qualifier, which may have `/` too
SEGMENT = r"(?:[A-Za-z0-9\-._~:]|%[0-9A-F]{2})+"
VALUE = r"(?:[A-Za-z0-9\-._~:/]|%[0-9A-F]{2})+"
PURL = rf"pkg:([a-z][a-z0-9.+-]*)/({SEGMENT})@({SEGMENT})(?:\?(.+))?"

# a licence expression in its one form: a term, and terms that operators join. What is in brackets is
# one term, for which there is a mark once it is read
LICENCE = r"(?!(?:AND|OR|WITH)(?![A-Za-z0-9\-.+:]))[A-Za-z0-9\-.+:]+"
TERM = rf"(?:\0|{LICENCE}(?: WITH {LICENCE})?)"
TERMS = rf"{TERM}(?: (?:AND|OR) {TERM})*"


class Invalid(Exception):
    """Why a text is no bill."""


def ask(holds, why):
    if not holds:
        raise Invalid(why)


def fields(value, where, known, required=()):
    ask(isinstance(value, dict), f"{where} is no object")
    for key in value:
        ask(key in known, f"{where} has an unknown member {key}")
    for key in required:
        ask(key in value, f"{where} has no {key}")
    for key, check in known.items():
        if key in value:
            check(value[key], f"{where}.{key}")


def text(value, where):
    ask(isinstance(value, str), f"{where} is no text")


def some_text(value, where):
    ask(isinstance(value, str) and value, f"{where} is no text, or empty")


def matches(pattern):
    def check(value, where):
        ask(isinstance(value, str) and re.fullmatch(pattern, value), f"{where}: {value!r}")
    return check


def one_of(words):
    def check(value, where):
        ask(isinstance(value, str) and value in words, f"{where}: {value!r}")
    return check


def each(check, unique=True):
    def whole(value, where):
        ask(isinstance(value, list), f"{where} is no list")
        for place, item in enumerate(value):
            check(item, f"{where}[{place}]")
        shown = [json.dumps(item, sort_keys=True) for item in value]
        ask(not unique or len(set(shown)) == len(shown), f"{where} has an item twice")
    return whole


def time(value, where):
    found = re.fullmatch(TIME, value) if isinstance(value, str) else None
    ask(found, f"{where}: {value!r}")
    year, month, day, hour, minute, second = map(int, found.groups())
    try:
        datetime.datetime(year, month, day, hour, minute, min(second, 59))
    except ValueError as error:
        raise Invalid(f"{where}: {value!r}") from error
    ask(second <= 60, f"{where}: {value!r}")


def version(value, where):
    ask(isinstance(value, str) and len(value) <= 1024, f"{where} is no version")


def number(value, where):
    ask(type(value) is int and value >= 1, f"{where} is no number from 1 on")


def digest(value, where):
    fields(value, where, {"alg": one_of(DIGITS), "content": matches(r"[a-fA-F0-9]+")},
           ("alg", "content"))
    ask(len(value["content"]) == DIGITS[value["alg"]], f"{where} has no digest of its length")


def expression(value, where):
    ask(isinstance(value, str) and "\0" not in value, f"{where}: {value!r}")
    left, count = value, 1
    while count:
        left, count = re.subn(rf"\(({TERMS})\)", "\0", left)
    ask(re.fullmatch(TERMS, left), f"{where}: {value!r}")


def declared_name(value, where):
    known = {"name": text, "acknowledgement": one_of(ACKNOWLEDGEMENTS)}
    fields(value, where, known, ("name",))


def licenses(value, where):
    ask(isinstance(value, list) and len(value) == 1, f"{where} is no list of one licence")
    if isinstance(value[0], dict) and "license" in value[0]:
        fields(value[0], f"{where}[0]", {"license": declared_name}, ("license",))
        return
    known = {"expression": expression, "acknowledgement": one_of(ACKNOWLEDGEMENTS)}
    fields(value[0], f"{where}[0]", known, ("expression",))


def external(value, where):
    known = {"type": one_of(REFERENCES), "url": matches(IRI), "comment": text}
    fields(value, where, known, ("type", "url"))
    ask(value["url"], f"{where}.url is empty")


def purl_parts(value, where):
    """The type, the name, the version and the qualifiers of a package URL in its one form."""
    found = re.fullmatch(PURL, value) if isinstance(value, str) else None
    ask(found, f"{where}: {value!r}")
    kind, name, number, written = found.groups()
    pairs = []
    for pair in written.split("&") if written else []:
        key, mark, content = pair.partition("=")
        ask(mark and re.fullmatch(r"[a-z][a-z0-9.\-_]*", key), f"{where}: qualifier {pair}")
        ask(re.fullmatch(VALUE, content), f"{where}: qualifier {pair}")
        pairs.append((key, plain(content, where)))
    keys = [key for key, _ in pairs]
    ask(keys == sorted(set(keys)), f"{where}: the qualifiers are not in order, or one is there twice")
    return kind, plain(name, where), plain(number, where), dict(pairs)


def plain(escaped, where):
    """The text of an escaped one. A character that needs no escape has none."""
    for code in re.findall(r"%([0-9A-F]{2})", escaped):
        ask(not re.fullmatch(r"[A-Za-z0-9\-._~:]", chr(int(code, 16))), f"{where}: %{code}")
    try:
        return unquote_to_bytes(escaped).decode("utf-8")
    except UnicodeDecodeError as error:
        raise Invalid(f"{where}: no UTF-8") from error


def purl(value, where):
    kind, _, _, qualifiers = purl_parts(value, where)
    ask(kind == "cargo", f"{where}: {kind} is not cargo")
    for key in qualifiers:
        ask(key in ("repository_url", "vcs_url", "download_url"), f"{where}: qualifier {key}")


def component(value, where):
    fields(value, where, {
        "type": one_of(TYPES), "bom-ref": some_text, "name": text, "version": version,
        "purl": purl, "hashes": each(digest, False), "externalReferences": each(external, False),
        "licenses": licenses,
    }, ("type", "name"))
    if "purl" in value:
        _, name, number, _ = purl_parts(value["purl"], where)
        ask(name == value["name"], f"{where}: the package URL is of {name}")
        ask(number == value.get("version"), f"{where}: the package URL is of version {number}")


def tools(value, where):
    fields(value, where, {"components": each(component)})


def phase(value, where):
    fields(value, where, {"phase": one_of(PHASES)}, ("phase",))


def author(value, where):
    fields(value, where, {"bom-ref": some_text, "name": text, "email": text, "phone": text})


def named_value(value, where):
    fields(value, where, {"name": text, "value": text}, ("name",))


def metadata(value, where):
    fields(value, where, {
        "timestamp": time, "lifecycles": each(phase, False), "tools": tools,
        "authors": each(author, False), "component": component,
        "properties": each(named_value, False),
    })


def dependency(value, where):
    fields(value, where, {"ref": some_text, "dependsOn": each(some_text)}, ("ref",))


def all_components(bill):
    about = bill.get("metadata", {})
    found = list(bill.get("components", [])) + about.get("tools", {}).get("components", [])
    return found + ([about["component"]] if "component" in about else [])


def check_references(bill):
    refs = [it["bom-ref"] for it in all_components(bill) if "bom-ref" in it]
    refs += [it["bom-ref"] for it in bill.get("metadata", {}).get("authors", []) if "bom-ref" in it]
    ask(len(set(refs)) == len(refs), "two components have one bom-ref")
    entries = bill.get("dependencies", [])
    named = [entry["ref"] for entry in entries]
    ask(len(set(named)) == len(named), "two entries of dependencies have one ref")
    for entry in entries:
        for ref in [entry["ref"]] + entry.get("dependsOn", []):
            ask(ref in refs, f"no component has the bom-ref {ref!r}")


def once(pairs):
    keys = [key for key, _ in pairs]
    ask(len(set(keys)) == len(keys), "an object has a member twice")
    return dict(pairs)


def bill_of(written):
    """The bill of a text. Raises Invalid where CycloneDX 1.6 does not let it pass."""
    try:
        bill = json.loads(written, object_pairs_hook=once)
    except ValueError as error:
        raise Invalid(f"no JSON: {error}") from error
    fields(bill, "bill", {
        "bomFormat": one_of(["CycloneDX"]), "specVersion": one_of(["1.6"]),
        "serialNumber": matches(SERIAL), "version": number, "metadata": metadata,
        "components": each(component), "dependencies": each(dependency),
    }, ("bomFormat", "specVersion"))
    check_references(bill)
    return bill
