"""Says which JSON texts the schemas of docs/schema take, by the validator of Debian's package python3-jsonschema.

    /usr/bin/python3 scripts/validate.py FOLDER < ROWS

The FOLDER has request.schema.json and reply.schema.json. Each row is a line `[schema, definition, text, exact]`, as `["request",
"goodbye", "[\\"bye\\"]", true]`, and is answered by a line, `true` or `false`. Where `exact` is true, a number is one only where it
stands in plain digits, as the protocol has it; else `1.0` and `-0` are whole numbers, as JSON Schema has it. Where the validator
isn't there, or a schema is none, the status is 1 and standard error says so.
"""
import json
import pathlib
import sys

# A line that is no JSON may nest as deep as it has bytes, and one that is 127 deep: each level takes a dozen calls.
sys.setrecursionlimit(10000)


def no_number(text):
    return {"no number": text}


def value_of(text, exact):
    """What a text says as JSON; ValueError where it is none."""
    if not exact:
        return json.loads(text, parse_constant=no_constant)
    whole = lambda digits: no_number(digits) if digits == "-0" else int(digits)  # noqa: E731
    return json.loads(text, parse_int=whole, parse_float=no_number, parse_constant=no_constant)


def no_constant(word):
    raise ValueError(f"{word} is no JSON")


def validators(folder):
    """A validator of each schema's definition, made when it is asked for."""
    try:
        from jsonschema import Draft202012Validator
    except ImportError:
        sys.exit("no validator: python3-jsonschema isn't there, or doesn't know Draft202012Validator")
    made, schemas = {}, {}
    for name in "request", "reply":
        schemas[name] = json.loads(pathlib.Path(folder, f"{name}.schema.json").read_text())
        Draft202012Validator.check_schema(schemas[name])

    def made_of(name, definition):
        if (name, definition) not in made:
            if definition not in schemas[name]["$defs"]:
                sys.exit(f"{name}.schema.json has no {definition}")
            made[name, definition] = Draft202012Validator({**schemas[name], "$ref": f"#/$defs/{definition}"})
        return made[name, definition]

    return made_of


def main():
    validator = validators(sys.argv[1])
    for row in sys.stdin:
        name, definition, text, exact = json.loads(row)
        try:
            print(json.dumps(validator(name, definition).is_valid(value_of(text, exact))))
        except (ValueError, RecursionError):
            print("false")


main()
