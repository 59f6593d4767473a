"""The JSON Schemas in docs/, applied to lines of `info` and `certify`: each key of a line is in them, and no line lacks one."""

import json
import os
import unittest

import jsonschema
from built import DOT, PROGRAMS, ROOT, SAMPLES, answer
from certify_test import TEXT
from commands_test import CommandTest

RULES = [[], ["--profile", "print"], ["--profile", "print", "--allow", "held-deletion", "--allow", "emf-plus"]]

# What a line of each sort may not be: a member less, one more, or one of another type.
WRONG = [("file", None), ("file", 1), ("more", 1), ("error", 1)]


def validator(name):
    """The validator of a schema, which is one itself."""
    schema = json.loads((ROOT / "docs" / name).read_text())
    jsonschema.Draft202012Validator.check_schema(schema)
    return jsonschema.Draft202012Validator(schema)


class Schemas(CommandTest):
    """Lines of samples, of files that are rejected, and of what isn't read."""

    def setUp(self):
        super().setUp()
        self.file("text.wmf", TEXT)
        self.file("empty.wmf", b"")
        self.file("taken.wmf", DOT)
        os.makedirs(os.path.join(self.folder, "out", "taken.wmf.mpc"))
        samples = sorted(str(path) for path in SAMPLES.iterdir() if path.suffix in (".wmf", ".emf"))
        self.names = [*samples, "text.wmf", "empty.wmf", "taken.wmf", "nothing.wmf", ".", b"\xff.wmf"]

    def assert_valid(self, schema, lines):
        """Each line is valid, and isn't any more with a wrong member."""
        self.assertEqual(len(lines), len(self.names))
        for line in map(json.loads, lines):
            schema.validate(line)
            for name, value in WRONG:
                changed = {key: it for key, it in line.items() if key != name} | ({} if value is None else {name: value})
                self.assertFalse(schema.is_valid(changed), changed)

    def test_info(self):
        schema = validator("info.schema.json")
        for words in RULES:
            told = answer(PROGRAMS[0], ["info", *words, *self.names], cwd=self.folder)
            self.assert_valid(schema, told.out.splitlines())

    def test_certify(self):
        schema = validator("certify.schema.json")
        for words in RULES:
            told = answer(PROGRAMS[0], ["certify", "--replace", "--out-dir", "out", "400", "300", *words, *self.names], cwd=self.folder)
            self.assert_valid(schema, told.out.splitlines())


if __name__ == "__main__":
    unittest.main()
