#!/usr/bin/env python3
"""Sends each example of docs/openapi.yaml to the program, compares the answers, and tells what has no example.

tools/checks/openapi.py SPADESK          needs PyYAML (`pip install PyYAML`)
tools/checks/openapi.py --only-valid     only says whether the document is valid

Each example is sent over loopback to `serve` on a database of its own, after the requests that it comes after. Status, type and
body of the answer must be those of the example, byte by byte.

The routes come from crates/http_api/specs, the refusals from crates/office_model/src/refusal.rt, and which of them a request may get, in which
order, from crates/office_model/specs (Tests.antt, Meaning.antt, Refusing.antt). So a further one is missed here until the document has it: each
method of each path needs an example of its success and of each refusal of its own, and each refusal that can be brought about an example.

The document is also held against the public validator, openapi-spec-validator, where that is installed, and its examples against
its schemas: what is refused for its form must not fit, and all else must. Ends with 1 where anything differs or is missed.
"""
import json
import os
import re
import sys
import tempfile

sys.path.append(f"{sys.path[0]}/..")
from office import answered, copy, message, read, serving, successes

# The refusals that no request brings about, and why.
UNSENT = (
    ("Memory", "it takes a machine without memory"),
    ("Storage", "it takes a disk that fails, or a file that another program has open"),
    ("Damaged", "it comes when a database is opened, and is no answer"),
)

JSON = "application/json"

# How a route takes its body: the type of the body, what may be refused before the request is judged, and which request it is where
# the route does not say more.
FORMS = {
    "Empty": (None, ("Members",), None),
    "Members": (JSON, ("Json", "Members"), None),
    "Opens": (JSON, ("Json", "Members"), "OpenRound"),
    "Raw": ("text/csv", (), "Import"),
}

# What reading the text of a request may refuse, after all else.
READING = {"Import": ("Header", "Row")}

# How many messages a connection takes.
MAX_MESSAGES = 100

METHODS = ("get", "put", "post", "delete")


# What the program has.


def refusals():
    """Each refusal by its name: its number and its status."""
    text = read("crates", "office_model", "src", "refusal.rt")
    rows = re.findall(r"Refusal::\w+(?: \{ \.\. \})? => RefusalRow \{ number: (\d+), status: (\d+), name: \"(\w+)\"", text)
    variants = re.findall(r"^    /// (\d+): ", text, re.M)
    if [number for number, _, _ in rows] != variants:
        sys.exit("openapi.py: refusal.rt has refusals that are not understood")
    return {name: (int(number), int(status)) for number, status, name in rows}


def own_refusals():
    """What each request may be refused, in the order in which it is looked for."""
    text = "\n\n".join(read("crates", "office_model", "specs", name) for name in ("Tests.antt", "Meaning.antt", "Refusing.antt"))
    tests = dict(re.findall(r"^(\w+_tests) [^=\n:]*=(.*?)(?=\n\n|\Z)", text, re.M | re.S))

    def named(body, within=()):
        for refusal, test in re.findall(r"\bno\.(\w+)|\b(\w+_tests)\b", body):
            if refusal:
                yield refusal
            elif test not in within:
                yield from named(tests[test], (*within, test))

    rows = re.findall(r"^meaning \(?(\w+)[^=\n]*=\s+(?:changing|reading)\s+(\w+|\(.*\)$)", text, re.M)
    rows += re.findall(r"^refusal_of o \(?request\.(\w+).*? = first \((.*)\)$", text, re.M)
    return {request: [*dict.fromkeys(named(body)), *READING.get(request, ())] for request, body in rows}


def routes():
    """The form and the request of each method and path; `{}` stands for the parameter."""
    text = read("crates", "http_api", "specs", "Routes.antt")
    known = dict(re.findall(r"^called \(?(call\.\w+).*? = request\.(?:Plain \(?plain\.)?(\w+)", text, re.M))
    known |= dict(re.findall(r"^put_by (put\.\w+) .*?\bplain\.(\w+)", read("crates", "http_api", "specs", "Requests.antt"), re.M))
    kinds = {
        name: (params.split(), dict(re.findall(r"(\w+) = Some \(?(\w[^;)]*)", fields)))
        for name, params, fields in re.findall(r"^(\w+)((?: \w+)*) = record \{ (segments = .*) \}$", text, re.M)
    }
    found = {}
    for line in re.search(r"^all_routes =\n(.*?)    ∷ \[\]$", text, re.M | re.S)[1].splitlines():
        row = re.fullmatch(r" *(?:∷ )?(row|fixed) \(codes \"([^\"]*)\"\)(?: \(codes \"\w+\"\))? (?:\((.*)\)|(\w+))", line)
        if not row:
            sys.exit(f"openapi.py: this row of the routes is not understood: {line.strip()}")
        path = row[2] + ("{}" if row[1] == "row" else "")
        name, *values = re.findall(r"\([^()]*\)|[^\s()]+", row[3] or row[4])
        params, methods = kinds[name]
        values = dict(zip(params, (value.strip("()").split()[0] for value in values)))
        for method, asked in methods.items():
            form, what = [*asked.split(), ""][:2]
            request = FORMS.get(form, [None])[-1] or known.get(values.get(what, what))
            if request is None:
                sys.exit(f"openapi.py: no row of FORMS says what {method.upper()} asks of {path}: {asked}")
            found[method.upper(), path] = (form, request)
    return found


# What the document has.


def followed(document, node):
    """What a node stands for, which may be a reference."""
    while isinstance(node, dict) and str(node.get("$ref", "")).startswith("#/"):
        found = document
        for word in node["$ref"][2:].split("/"):
            found = found[word.replace("~1", "/").replace("~0", "~")]
        node = found
    return node


def shape(path):
    """The path with `{}` for its parameter."""
    return re.sub(r"\{\w+\}", "{}", path)


def compact(value, **how):
    return json.dumps(value, ensure_ascii=False, separators=(",", ":"), **how)


def bytes_of(line):
    """The bytes of a request that is written as a line."""
    return message(*line.split(" ", 2))


class Operation:
    """A method of a path, as the document tells it."""

    def __init__(self, document, method, path, item):
        self.document, self.method, self.path = document, method.upper(), path
        self.told = item[method]
        self.name = f"{self.method} {path}"
        self.parameters = [followed(document, it) for it in [*item.get("parameters", []), *self.told.get("parameters", [])]]
        body = followed(document, self.told.get("requestBody", {}))
        self.type, media = next(iter(body.get("content", {}).items()), (None, {}))
        self.schema, self.is_bodied = media.get("schema"), body.get("required", False)
        self.bodies = {name: followed(document, it)["value"] for name, it in media.get("examples", {}).items()}

    def line(self, name):
        """The request of the example of this name."""
        path = self.path
        for it in self.parameters:
            path = path.replace("{%s}" % it["name"], str(it["example"]))
        if not self.bodies:
            return f"{self.method} {path}"
        body = self.bodies.get(name, next(iter(self.bodies.values())))
        return f"{self.method} {path} {body if isinstance(body, str) else compact(body)}"

    def takes(self, line):
        """Whether the request is one of this operation."""
        method, path = line.split(" ", 2)[:2]
        return method == self.method and re.fullmatch(shape(self.path).replace("{}", "[^/]+"), path)

    def examples(self, seen):
        """Each example of an answer that was not seen before, as those that operations share."""
        for status, response in self.told["responses"].items():
            for media, content in followed(self.document, response).get("content", {}).items():
                for name, told in content.get("examples", {}).items():
                    told = followed(self.document, told)
                    if id(told) not in seen:
                        seen.add(id(told))
                        yield Example(self, name, status, media, content["schema"], told)


class Example:
    """An answer, with the request that gets it."""

    def __init__(self, operation, name, status, media, schema, told):
        self.is_shared = status == "default"
        self.status = told["x-status"] if self.is_shared else int(status)
        self.name = f"{'any message' if self.is_shared else operation.name}, {status} {name}"
        self.operation, self.media, self.schema, self.value = operation, media, schema, told["value"]
        self.fault = self.value.get("fault") if isinstance(self.value, dict) else None
        self.is_own_line = "x-request" not in told and "x-bytes" not in told
        self.line = told.get("x-request", operation.line(name))
        self.bytes = told["x-bytes"].encode() if "x-bytes" in told else bytes_of(self.line)
        self.before = told.get("x-before", [] if self.is_shared else operation.told.get("x-before", []))

    def body(self):
        return self.value if self.media != JSON else compact(self.value, sort_keys=True)


def earlier(document, before):
    """The requests of a list of earlier ones, as lines."""
    for item in document["x-offices"][before] if isinstance(before, str) else before:
        if isinstance(item, dict):
            for number in range(1, item["times"] + 1):
                yield from (line.replace("{n}", str(number)) for line in item["send"])
        elif item in document["x-offices"]:
            yield from earlier(document, item)
        else:
            yield item


# What the program answers.


def served(program, database, streams):
    """What the program answers to connections, one after another, and ends."""
    with serving(program, database, len(streams)) as (ran, port):
        answers = [answered(port, stream) for stream in streams]
        if ran.wait(timeout=60):
            sys.exit(f"openapi.py: the program ends with {ran.returncode}")
    return answers


class Offices:
    """The databases after lists of earlier requests, each made once."""

    def __init__(self, program, folder):
        self.program, self.folder, self.made = program, folder, {}

    def copied(self, lines):
        """A database of one's own after these requests, each of which must be answered with success."""
        if lines and lines not in self.made:
            self.made[lines] = self.filled(lines, os.path.join(self.folder, f"office{len(self.made)}.db"))
        return copy(self.made.get(lines), os.path.join(self.folder, "copy.db"))

    def filled(self, lines, name):
        streams = [b"".join(map(bytes_of, lines[at : at + MAX_MESSAGES])) for at in range(0, len(lines), MAX_MESSAGES)]
        if sum(map(successes, served(self.program, name, streams))) != len(lines):
            shown = "\n".join(lines[:20])
            sys.exit(f"openapi.py: of these {len(lines)} earlier requests not each is answered with success:\n{shown}")
        return name


def told_of(answer):
    """The status, the type and the body of an answer, whose length must be told."""
    head, _, body = answer.decode().partition("\r\n\r\n")
    first, *fields = head.split("\r\n")
    fields = dict(field.split(": ", 1) for field in fields)
    is_whole = fields.get("Content-Length") == str(len(body.encode()))
    return first.split(" ")[1], fields.get("Content-Type") if is_whole else "another length", body


def differences(program, document, examples):
    """What the program answers otherwise than the document says."""
    with tempfile.TemporaryDirectory() as folder:
        offices = Offices(os.path.abspath(program), folder)
        for example in examples:
            database = offices.copied(tuple(earlier(document, example.before)))
            answer = told_of(served(offices.program, database, [example.bytes])[0])
            wanted = (str(example.status), example.media, example.body())
            if answer != wanted:
                yield f"{example.name}: the program answers {' '.join(answer)!r}, and not {' '.join(wanted)!r}"


# What is missed.


def missed_routes(known, found, examples, shared):
    """What the document does not have of the routes of the program, and the other way round."""
    own = own_refusals()
    for method, path in known.keys() - found.keys():
        yield f"{method} {path}: the document does not have it"
    for method, path in found.keys() - known.keys():
        yield f"{method} {path}: the program does not have it"
    for key in found.keys() & known.keys():
        operation, (form, request) = found[key], known[key]
        media, before, _ = FORMS[form]
        if request not in own:
            yield f"{operation.name}: what the request {request} may be refused by is not understood"
            continue
        if operation.type != media:
            yield f"{operation.name}: its body is {media}, and the document has {operation.type}"
        wanted = [*before, *(name for name in own[request] if name not in shared)]
        if operation.told.get("x-refused") != wanted:
            yield f"{operation.name}: it is refused, in this order, by {', '.join(wanted)}, and x-refused is otherwise"
        ours = [example for example in examples if example.operation is operation and not example.is_shared]
        got = {example.fault for example in ours}
        if None not in got:
            yield f"{operation.name}: its success has no example"
        yield from (f"{operation.name}: the refusal {name} has no example" for name in wanted if name not in got)
        yield from (f"{operation.name}: {name} is no refusal of it" for name in got - {None, *wanted})
        yield from (f"{it.name}: its request is none of this method and path" for it in ours if not operation.takes(it.line))
        unsent = operation.bodies.keys() - {it.name.split(" ")[-1] for it in ours if it.is_own_line}
        yield from (f"{operation.name}: the body {name} is sent by no example" for name in unsent)


def missed_refusals(known, document, examples):
    """What the document does not have of the refusals of the program, and what it has of others."""
    unsent = dict(UNSENT)
    told = {it["title"]: it for it in document["components"]["schemas"]["Fault"]["oneOf"]}
    got = {example.fault for example in examples}
    yield from (f"{name}: no refusal has this name" for name in [*(told.keys() - known.keys()), *(unsent.keys() - known.keys())])
    for name, (number, status) in known.items():
        if name in told:
            const = {member: rule.get("const") for member, rule in told[name]["properties"].items()}
            if (const["fault"], const["number"], told[name]["x-status"]) != (name, number, status):
                yield f"{name}: its number is {number} and its status {status}, and the schema Fault has others"
        elif name not in unsent:
            yield f"{name}: the schema Fault does not have it"
        if name not in unsent and name not in got:
            yield f"{name}: the refusal {number} has no example"
    statuses = {status for name, (_, status) in known.items() if name not in unsent}
    yield from (f"the status {status} has no example" for status in statuses - {example.status for example in examples})


# Whether it is valid.


def unfit(document, found, examples):
    """The examples that do not fit their schemas, and what is refused for its form and fits all the same."""
    from jsonschema import Draft202012Validator

    def fits(schema, value):
        return Draft202012Validator({**schema, "components": document["components"]}).is_valid(value)

    yield from (f"{it.name}: it does not fit its schema" for it in examples if not fits(it.schema, it.value))
    for operation in found.values():
        wrong = [name for name, value in operation.bodies.items() if not fits(operation.schema, value)]
        yield from (f"{operation.name}: the body {name} does not fit its schema" for name in wrong)
    for example in examples:
        operation = example.operation
        if operation.type == JSON and not example.is_shared:
            _, path, body = [*example.line.split(" ", 2), ""][:3]
            is_fit = all(fits(it["schema"], path.split("/")[-1]) for it in operation.parameters)
            try:
                is_fit = is_fit and (fits(operation.schema, json.loads(body)) if body or operation.is_bodied else True)
            except ValueError:
                is_fit = False
            if is_fit == (example.status == 400):
                yield f"{example.name}: its request {'fits' if is_fit else 'does not fit'} the schemas"


def invalid(document, found, examples):
    """What is not valid of the document; says by what it was judged."""
    try:
        import openapi_spec_validator as validator
    except ImportError:
        print("not validated: the package openapi-spec-validator is not installed")
        return
    faults = [f"{'/'.join(map(str, it.absolute_path))}: {it.message}" for it in validator.OpenAPIV31SpecValidator(document).iter_errors()]
    print(f"{'not valid' if faults else 'valid'} by openapi-spec-validator {validator.__version__}")
    yield from faults
    yield from unfit(document, found, examples)


def main(*words):
    try:
        import yaml
    except ImportError:
        sys.exit("openapi.py: the package PyYAML is not installed")
    programs = [word for word in words if not word.startswith("--")]
    if len(programs) > 1 or "--help" in words or (not programs and "--only-valid" not in words):
        sys.exit(print(__doc__) if "--help" in words else __doc__)
    document = yaml.safe_load(read("docs", "openapi.yaml"))
    paths = document["paths"].items()
    operations = [Operation(document, method, path, item) for path, item in paths for method in METHODS if method in item]
    seen, found = set(), {(it.method, shape(it.path)): it for it in operations}
    examples = [example for it in found.values() for example in it.examples(seen)]
    problems = list(invalid(document, found, examples))
    if "--only-valid" not in words:
        sent = [example for example in examples if example.fault not in dict(UNSENT)]
        shared = {example.fault for example in examples if example.is_shared}
        known = refusals()
        problems += missed_routes(routes(), found, sent, shared)
        problems += missed_refusals(known, document, sent)
        problems += differences(programs[0], document, sent)
        told = {example.fault for example in sent if example.fault}
        print(f"{len(found)} operations, {len(sent)} examples sent, {len(told)} refusals of {len(known)}")
        for name, reason in UNSENT:
            print(f"not sent: {known[name][0] if name in known else '?'} {name}, since {reason}")
        print("differences and gaps:" if problems else "no difference and no gap")
    if problems:
        sys.exit("\n".join(problems))


if __name__ == "__main__":
    main(*sys.argv[1:])
