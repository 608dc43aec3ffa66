#!/usr/bin/env python3
"""Holds a file of JSON to a schema: checks/schema.py SCHEMA FILE

Of JSON Schema it knows what docs/profile.schema.json and checks/gcov.schema.json use: a keyword that it doesn't know is a
fault of the schema. A file has one object, or one on each line, and no key twice; where it ends in .gz it is unpacked.
Prints a line for each fault.
"""
import gzip
import json
import re
import sys

from called import parser_of, read_file, refuse

TYPES = {'object': dict, 'array': list, 'string': str, 'boolean': bool, 'null': type(None), 'integer': int}
SAID = {'$schema', '$defs', 'title', 'description'}  # what tells nothing of a value


def is_of(value, name):
    """Whether a value has a type; true and false are no integers, as Python has it."""
    return isinstance(value, TYPES[name]) and not (name == 'integer' and isinstance(value, bool))


def same(value, other):
    return type(value) is type(other) and value == other


class Schema:
    def __init__(self, schema):
        self.whole, self.rules = schema, {name[len('rule_'):]: getattr(self, name) for name in dir(self) if name.startswith('rule_')}
        self.rules['$ref'] = self.referred

    def faults(self, value, schema=None, path=''):
        """What is wrong with a value, each with its path."""
        schema = self.whole if schema is None else schema
        for keyword, wanted in schema.items():
            if keyword not in SAID:
                if keyword not in self.rules:
                    raise ValueError(f'the schema has the keyword {keyword}')
                yield from self.rules[keyword](value, wanted, path, schema)

    def referred(self, value, name, path, _):
        schema = self.whole
        for part in name.removeprefix('#/').split('/'):
            schema = schema[part]
        return self.faults(value, schema, path)

    def rule_type(self, value, names, path, _):
        if not any(is_of(value, name) for name in ([names] if isinstance(names, str) else names)):
            yield f'{path or "it"} is {json.dumps(value)[:60]}, and no {names}'

    def rule_const(self, value, wanted, path, _):
        if not same(value, wanted):
            yield f'{path} is {json.dumps(value)[:60]}, and not {wanted!r}'

    def rule_enum(self, value, wanted, path, _):
        if not any(same(value, one) for one in wanted):
            yield f'{path} is {json.dumps(value)[:60]}, and none of {wanted}'

    def rule_minimum(self, value, least, path, _):
        if is_of(value, 'integer') and value < least:
            yield f'{path} is {value}, below {least}'

    def rule_pattern(self, value, pattern, path, _):
        if isinstance(value, str) and not re.search(pattern, value):
            yield f'{path} is {value!r}, and not {pattern}'

    def rule_anyOf(self, value, schemas, path, _):
        if all(next(self.faults(value, schema, path), None) for schema in schemas):
            yield f'{path} is {json.dumps(value)[:60]}, which fits none of {len(schemas)}'

    def rule_items(self, value, schema, path, _):
        for number, item in enumerate(value) if isinstance(value, list) else ():
            yield from self.faults(item, schema, f'{path}[{number}]')

    def rule_required(self, value, keys, path, _):
        if isinstance(value, dict):
            yield from (f'{path}.{key} is missing' for key in keys if key not in value)

    def rule_properties(self, value, schemas, path, _):
        for key in schemas.keys() & value.keys() if isinstance(value, dict) else ():
            yield from self.faults(value[key], schemas[key], f'{path}.{key}')

    def rule_additionalProperties(self, value, is_allowed, path, schema):
        if isinstance(value, dict) and not is_allowed:
            yield from (f'{path}.{key} is not known' for key in value.keys() - schema['properties'].keys())


def once(pairs):
    """An object whose keys stand there once."""
    found = dict(pairs)
    if len(found) != len(pairs):
        raise ValueError(f'a key of {sorted(found)} stands there twice')
    return found


def no_number(text):
    raise ValueError(f'{text} is no JSON')


def parsed(text):
    """A value of JSON as its standard has it: without NaN and the like."""
    return json.loads(text, object_pairs_hook=once, parse_constant=no_number)


def values_of(name):
    """The values of a file: the only one, or that of each line."""
    text = gzip.decompress(read_file(name)) if name.endswith('.gz') else read_file(name)
    try:
        return [parsed(text)]
    except json.JSONDecodeError:
        return list(map(parsed, text.splitlines()))


def main():
    parser = parser_of(__doc__)
    parser.add_argument('schema', metavar='SCHEMA')
    parser.add_argument('file', metavar='FILE')
    words = parser.parse_args()
    try:
        schema, values = Schema(parsed(read_file(words.schema))), values_of(words.file)
    except (ValueError, OSError, EOFError) as error:
        refuse(f'{words.file}: {error}')
    faults = [fault for value in values for fault in schema.faults(value)]
    print('\n'.join([*faults, f'{len(values)} objects, {len(faults)} faults']))
    return len(faults) > 0


if __name__ == '__main__':
    sys.exit(main())
