#!/usr/bin/env python3
"""Makes share/openapi/office-front.yaml: the routes of the office and of the front before it in one file, with the schema of requests in it.

    tools/one_description.py [--print]      (wants PyYAML; with --print the file is printed, and not written)

It is made of share/openapi/office.yaml, share/schema/requests.schema.json and tools/front_description.yaml.
"""
import json
import pathlib
import sys

import yaml

TOP = pathlib.Path(__file__).resolve().parent.parent
OPENAPI = TOP / "share" / "openapi" / "office.yaml"
MADE = OPENAPI.with_name("office-front.yaml")
HEAD = "# Made by tools/one_description.py of office.yaml, requests.schema.json and tools/front_description.yaml.\n"


class Dumper(yaml.SafeDumper):
    """Writes each value out where it stands."""

    def ignore_aliases(self, data):
        return True


def led(value):
    """A value whose references to the schema of requests lead to where it stands in the one file."""
    if isinstance(value, list):
        return [led(it) for it in value]
    if not isinstance(value, dict):
        return value
    return {key: place(it) if key == "$ref" and isinstance(it, str) else led(it) for key, it in value.items()}


def place(reference):
    for start in ("../schema/requests.schema.json#/$defs/", "#/$defs/"):
        if reference.startswith(start):
            return "#/components/schemas/requests." + reference.removeprefix(start)
    return reference


def of_words(words):
    values = {"const": words[0]} if len(words) == 1 else {"enum": words}
    return {"$ref": "#/components/schemas/Error", "properties": {"error": values}}


def as_json(schema):
    return {"application/json": {"schema": schema}}


def add_answers(description, front):
    """Adds the front's answers to each route of the office; where the office has one of that status too, it is either."""
    responses = description["components"]["responses"]
    for path in description["paths"].values():
        for method, operation in path.items():
            for status, name in front["answers"][method].items():
                own = operation["responses"].get(status)
                if own is None:
                    operation["responses"][status] = {"$ref": f"#/components/responses/{name}"}
                    continue
                own = responses[own["$ref"].rpartition("/")[2]] if "$ref" in own else own
                both = [own["content"]["application/json"]["schema"], {"$ref": f"#/components/schemas/{name}"}]
                told = f"{own['description']} Or, by the front: {front['responses'][name]['description']}"
                operation["responses"][status] = {"description": told, "content": as_json({"oneOf": both})}
            operation.pop("security", None)


def made():
    description, front = yaml.safe_load(OPENAPI.read_text()), yaml.safe_load((TOP / "tools" / "front_description.yaml").read_text())
    schema = json.loads((TOP / "share" / "schema" / "requests.schema.json").read_text())
    description["info"].update(front["info"])
    description.update(servers=front["servers"], security=front["security"])
    description["tags"] += front["tags"]
    components = description["components"]
    components["securitySchemes"] = front["securitySchemes"]
    for it in components["parameters"].values():
        it["description"] = it["description"].replace(" The path is taken undecoded.", "")
    for name, it in front["responses"].items():
        components["schemas"][name] = of_words(it["words"])
        content = as_json({"$ref": f"#/components/schemas/{name}"})
        if it.get("page"):
            content["text/html; charset=utf-8"] = {"schema": {"type": "string"}}
        headers = {"headers": it["headers"]} if "headers" in it else {}
        components["responses"][name] = {"description": it["description"], **headers, "content": content}
    add_answers(description, front)
    description["paths"].update(front["paths"])
    components["schemas"].update({f"requests.{name}": it for name, it in schema["$defs"].items()})
    return HEAD + yaml.dump(led(description), Dumper=Dumper, sort_keys=False, allow_unicode=True, width=150)


def main():
    if sys.argv[1:] == ["--print"]:
        print(made(), end="")
    else:
        MADE.write_text(made())


if __name__ == "__main__":
    main()
