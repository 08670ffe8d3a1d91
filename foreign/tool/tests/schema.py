"""Holds each line of standard input to a JSON Schema: prints the numbers, from 0 on, of the lines that
are refused, each with the reason."""
import json
import sys

from jsonschema import Draft202012Validator

with open(sys.argv[1], encoding="utf-8") as file:
    schema = json.load(file)
Draft202012Validator.check_schema(schema)
validator = Draft202012Validator(schema)
for number, line in enumerate(sys.stdin):
    for error in validator.iter_errors(json.loads(line)):
        print(number, error.json_path, error.message[:500])
