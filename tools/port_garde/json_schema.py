"""The JSON Schema (draft 2020-12) of a source's type: it accepts what the form of `--schema` reads, but for what a `$comment` names. The
description (OpenAPI 3.1) of a route has it."""
import json
import operator
import re
from fractions import Fraction

from .borrowed import fields_of, is_held, is_map, is_named, of_whole, within_option
from .defaults import in_json
from .derives import is_skipped, of_field, options, type_names
from .everyday import UNKNOWN
from .expressions import SIGNED, UNSIGNED, range_of
from .forms import beside_dive, items_rules
from .front import OF_CODE
from .kinds import WHOLE, kind_of
from .members import fields_among, flat_part, held_part, is_closed, is_flat, is_rest, own_part, own_rules, shared_rules
from .rules import END
from .scope import is_option, is_path, is_text
from .source import all_rules
from .templates import fill
from .tokens import Refusal
from .unions import Shapes, beside_units, is_list, is_other, is_tuple, is_unit, names_of, units_of
from .words import camel

DRAFT = "https://json-schema.org/draft/2020-12/schema"
COMMENT = "no member stands twice in an object; a whole number is written by digits alone, and is not -0; nothing nests deeper than 128"
COUNTED = {"bytes": "bytes in UTF-8", "simple": "bytes in UTF-8", "graphemes": "extended grapheme clusters", "utf16": "code units of UTF-16"}
TURNED = {"<": ">", "<=": ">=", ">": "<", ">=": "<=", "==": "==", "!=": "!="}
COMPARED = {
    "<": ("exclusiveMaximum", operator.lt), "<=": ("maximum", operator.le), ">": ("exclusiveMinimum", operator.gt),
    ">=": ("minimum", operator.ge),
}
KINDS = {"Text": "string", "Number": "number", "Boolean": "boolean", "Null": "null", "List": "array", "Object": "object"}
NEVER = {"not": {}}
NO_NULL = {"not": {"type": "null"}}


class Unsaid(Exception):
    """What a schema cannot say, in words."""


def literal(text):
    """A text as a pattern that matches it."""
    return re.sub(r"([\^$\\.*+?()\[\]{}|/])", r"\\\1", text)


def joined(schemas):
    """A schema that asks all of these, as one where no word stands in two of them."""
    whole, rest = {}, []
    for it in schemas:
        if set(it) & set(whole) - {"$comment"}:
            rest.append(it)
        else:
            told = [one["$comment"] for one in (whole, it) if "$comment" in one]
            whole = {**whole, **it, **({"$comment": "; ".join(told)} if told else {})}
    return {**whole, "allOf": [*whole.get("allOf", []), *rest]} if rest else whole


def or_null(schema):
    kind = schema.get("type")
    if isinstance(kind, str) and not {"const", "enum", "oneOf", "anyOf"} & set(schema):
        return {**schema, "type": [kind, "null"]}
    return {"anyOf": [schema, {"type": "null"}]}


def kept_docs(docs):
    text = " ".join(line[3:].strip() for line in docs if not line.endswith(OF_CODE)).strip()
    return {"description": text} if text else {}


def schema_of_list(items):
    return {"type": "array", **({"prefixItems": items} if items else {}), "minItems": len(items), "maxItems": len(items)}


def bounds_of(low, high, word=""):
    """The least and the greatest number, or length, where they are known."""
    ends = (("min", low), ("max", high))
    return {f"{end}{word or 'imum'}": it for end, it in ends if it is not None}


def with_member(name, schema, is_needed=True):
    """An object whose member of this name has this schema, where it is there or has to be."""
    return {"properties": {name: schema}, **({"required": [name]} if is_needed else {})}


class JsonSchema:
    """The schemas of the types of a source that a form reads."""

    def __init__(self, writer):
        self.writer, self.source, self.items = writer, writer.source, writer.borrowed.items
        self.root = None

    def of(self, name):
        """The schema of the type of this name; without one of the only type that no other one holds."""
        tops = [it.name for it in self.items.values() if not is_named(it) and not is_held(it, self.items)]
        if name is None and len(tops) != 1:
            told = f"the types {', '.join(f'`{it}`' for it in tops)}" if tops else "no type that a form reads"
            raise Refusal(1, f"{told}, of which `--json-schema` writes one: name it by `--of TYPE`")
        item = self.items.get(name or tops[0])
        if item is None:
            raise Refusal(1, f"no type `{name}` that derives `Deserialize`")
        self.root = item.name
        held = [self.items[it] for it in dict.fromkeys(self.names_within(item)) if it != item.name]
        whole = self.of_type(item)
        told = "; ".join([COMMENT, *([whole.pop("$comment")] if "$comment" in whole else [])])
        defs = {"$defs": {it.name: self.of_type(it) for it in held}} if held else {}
        return {"$schema": DRAFT, "title": item.name, "$comment": told, **whole, **defs}

    def names_within(self, item, seen=()):
        among = [it for it, _ in fields_among(item, self.items)]
        for it, name in ((it, name) for it in fields_of(item) for name in sorted(type_names(it.type)) if name in self.items and name not in seen):
            yield from () if it in among else (name,)
            yield from self.names_within(self.items[name], (*seen, item.name, name))

    # Types.

    def of_type(self, item):
        if is_named(item):
            # the name of a variant without fields may stand in an object under a tag
            schema, tag = self.names_in(item.variants, item), options(item).get("tag")
            whole = {"type": "object", **with_member(tag.value, schema)} if tag else {}
            schema = self.closed(whole, "deny_unknown_fields" in options(item)) if tag else schema
        elif not item.variants:
            # read elsewhere, where any value passes
            schema = {}
        else:
            schema = self.of_enum(item) if item.kind == "enum" else self.inside(item.variants[0], item)
        return {**kept_docs(item.docs), **schema}

    def names_in(self, variants, item):
        """A text that is a name of some variants, or any, where one of them stands for every other name."""
        return {"type": "string"} if any(map(is_other, variants)) else {"enum": [name for it in variants for name in names_of(it, item)]}

    def of_enum(self, item):
        """A union: by its tag, by the name of its only member, or by what tells its variants apart."""
        tag, content = (options(item).get(it) for it in ("tag", "content"))
        if "untagged" in options(item):
            return self.of_untagged(item)
        variants = [self.names_in(units_of(item), item)] if units_of(item) else []
        for it in beside_units(item):
            names, others = names_of(it, item), [name for one in item.variants if one is not it for name in names_of(one, item)]
            by_name = {"type": "string", "not": {"enum": others}} if is_other(it) else {"enum": names} if names[1:] else {"const": names[0]}
            if part := held_part(it, item, self.items):
                variants.append(self.object(part.variants[0], part, {tag.value: by_name}, is_closed(it, item, self.items)))
                continue
            inside = self.inside(it, item)
            if not tag:
                variants += [{"type": "object", **with_member(name, inside), "maxProperties": 1} for name in names]
            elif content:
                needed = [tag.value, *([] if is_unit(it) else [content.value])]
                variants.append(self.closed({"type": "object", "properties": {tag.value: by_name, content.value: inside}, "required": needed}, "deny_unknown_fields" in options(item)))
            else:
                variants.append(self.object(it, item, {tag.value: by_name}))
        return {"oneOf": variants}

    def inside(self, variant, item):
        """What a struct or a variant holds, which has no name there."""
        if is_unit(variant):
            return {"type": "null"}
        if is_list(variant):
            return schema_of_list([self.value(it.type, it.attributes.rules) for it in variant.fields])
        if variant.shape == "named" and not (item.kind == "struct" and "transparent" in options(item)):
            return self.object(variant, item)
        return self.value(variant.fields[0].type, variant.fields[0].attributes.rules)

    def of_untagged(self, item):
        """A union whose variants are told apart by their kinds, or by tests, each of which chooses its variant."""
        shapes = Shapes(self.writer.borrowed)
        *front, whole = [self.inside(it, item) for it in item.variants]
        if shapes.are_of_other_kinds(item):
            return {"anyOf": [*front, whole]}
        for schema, test in reversed([*zip(front, shapes.tests(item))]):
            whole = {"if": self.test(test), "then": schema, "else": whole}
        return whole

    def test(self, test):
        word, *parts = test
        if word == "kind":
            return {"type": KINDS[parts[0]]}
        if word == "among":
            return {"enum": list(parts[0])}
        if word in ("unsigned", "whole"):
            return {"type": "integer", **({"minimum": 0, "maximum": 2**64 - 1} if word == "unsigned" else {})}
        if word in ("has", "has_with"):
            return {"type": "object", "required": parts[:1], **({"properties": {parts[0]: self.test(parts[1])}} if parts[1:] else {})}
        if word == "not":
            return {"not": self.test(parts[0])}
        return {"anyOf" if word == "any" else "allOf": [self.test(it) for it in parts]}

    def closed(self, schema, is_closed):
        return {**schema, "additionalProperties": False} if is_closed else schema

    def object(self, variant, item, before=None, is_closed=None):
        """An object with the members of a variant, behind those that stand before them."""
        members, required, asked = dict(before or {}), list(before or ()), []
        for it in (it for it in variant.fields if not is_skipped(it)):
            if is_flat(it):
                found = self.flattened(it)
                members.update(found.pop("properties", {}))
                required += found.pop("required", [])
                asked += [found] if found else []
                continue
            name = of_field(it, variant, item)
            members[name], is_there = self.member(it, item)
            required += [name] * is_there
        whole = {"type": "object", "properties": members, **({"required": required} if required else {})}
        whole = self.closed(whole, "deny_unknown_fields" in options(item) if is_closed is None else is_closed)
        return joined([whole, *asked, *(found for it in variant.fields for found in self.shared(it, variant, item))])

    def flattened(self, it):
        """The schema of the members that a field stands for, or of all other members."""
        rules = own_rules(it)
        if is_rest(it):
            return {"additionalProperties": self.value(it.type.args[1], items_rules(rules))}
        part = flat_part(it, self.items)
        if part is None:
            return {"$comment": f"the members of the type `{own_part(it, self.items).name}` are among them"}
        found = self.object(part.variants[0], part, is_closed=False)
        found.pop("type")
        told = [{"$comment": self.own(rule)} for rule in rules if rule.name == "custom"]
        if is_option(it.type):
            names = found.pop("properties")
            found = {"properties": names, "if": {"anyOf": [{"required": [name]} for name in names]}, "then": found}
        return joined([found, *told])

    # Members.

    def member(self, it, item):
        """The schema of a member, and whether it has to be there."""
        kind, rules, default = it.type, own_rules(it), self.default(it, item)
        if is_option(kind) and default is None:
            asked, whole = of_whole(rules), self.value(kind.args[0], within_option(rules))
            is_there = any(rule.name == "required" for rule in asked)
            told = [{"$comment": self.own(rule)} for rule in asked if rule.name == "custom"]
            return joined([kept_docs(it.docs), whole if is_there or it.unmade else or_null(whole), *told]), is_there
        schema = joined([kept_docs(it.docs), self.value(kind, rules)])
        return {**schema, **({"default": default[0]} if default else {})}, default is None

    def default(self, it, item):
        """The value that stands for a missing member, as a list of one; or nothing."""
        found = self.writer.borrowed.default(it, item)
        return None if found is None else [in_json(found, is_map)]

    # Values.

    def value(self, kind, rules):
        if is_option(kind):
            whole = or_null(self.value(kind.args[0], within_option(rules)))
            asked = [NO_NULL if it.name == "required" else {"$comment": self.own(it)} for it in of_whole(rules)]
            return joined([whole, *asked])
        if is_tuple(kind):
            whole = schema_of_list([self.value(it, ()) for it in kind.args]) if kind.args else {"type": "null"}
        elif is_path(kind, "Vec") or is_map(kind):
            inside, rules = items_rules(rules), [it for it in rules if it.name not in ("inner", "dive")]
            held = self.value(kind.args[-1], inside)
            whole = {"type": "array", "items": held} if kind.name == "Vec" else {"type": "object", "additionalProperties": held}
        elif kind.name in self.items:
            whole, rules = {"$ref": "#" if kind.name == self.root else f"#/$defs/{kind.name}"}, beside_dive(rules)
        else:
            known = kind_of(kind, self.source) or WHOLE
            whole = known.schema
            if known.form == "Whole":
                whole, rules = {**whole, **self.bounds(kind, rules)}, [it for it in rules if it.name != "range"]
        return joined([whole, *self.said(kind, rules)])

    def bounds(self, kind, rules):
        """The least and the greatest number that a type and its rules allow, and what is not said of them."""
        least, most = range_of(kind.name)
        for it in (it for it in rules if it.name == "range"):
            low, high = self.ends(it)
            least, most = max(least, low if low is not None else least), min(most, high if high is not None else most)
        return {"minimum": least, "maximum": most}

    def ends(self, rule):
        found = {word: self.number(it) for word, it in rule.bounds.items()}
        return found.get("min", found.get("equal")), found.get("max", found.get("equal"))

    def number(self, it):
        found = self.writer.resolved(it)
        if found.kind == "decimal" and Fraction(repr(float(found.value))) == Fraction(found.value):
            return float(found.value)
        if found.kind == "decimal":
            raise Unsaid(f"a bound that is {found.value}")
        if found.kind != "number":
            raise Unsaid(f"a bound that is `{'.'.join(it.value)}`")
        return found.value

    def said(self, kind, rules):
        """What rules ask of a value, a schema each; what none says is a comment."""
        found, is_ascii = [], any(it.name == "ascii" for it in rules)
        for it in rules:
            try:
                found.append(self.rule(kind, it, is_ascii))
            except Unsaid as unsaid:
                found.append({"$comment": str(unsaid)})
        return found

    def rule(self, kind, rule, is_ascii):
        """What a rule asks of a value that is no option."""
        if rule.known.pattern:
            return {"pattern": rule.known.pattern.format(literal(rule.text or ""))}
        if rule.name == "alphanumeric" and is_ascii:
            return {"pattern": "^[0-9A-Za-z]*" + END}
        if rule.name == "length":
            return self.length(kind, rule, is_ascii)
        if rule.name == "range":
            return bounds_of(*self.ends(rule))
        if rule.known.keyword:
            return {rule.known.keyword: self.number(rule.bounds["equal"])}
        if rule.name == "unique":
            return {"uniqueItems": True}
        if rule.name == "keys":
            return {"propertyNames": joined(self.said(kind.args[0], rule.rules))}
        if rule.name == "inner":
            word = "items" if kind.name == "Vec" else "additionalProperties"
            return {word: joined(self.said(kind.args[-1], rule.rules))}
        if rule.name == "required":
            return NO_NULL
        if rule.name == "whole_key":
            return {"pattern": f"^{'-?' if rule.mode in SIGNED else ''}(0|[1-9][0-9]*){END}", "$comment": f"it is {rule.text.removeprefix('not ')}"}
        if rule.message == UNKNOWN:
            return {"enum": [it.parts[1].value for it in (rule.place.parts if rule.place.kind == "or" else [rule.place])]}
        raise Unsaid(self.own(rule))

    def own(self, rule):
        """A rule that no schema says, in words."""
        if rule.message is not None:
            return f"the rule `{rule.message}` holds"
        if rule.name == "pattern" and rule.text:
            return f"the pattern `{rule.text}` of the crate `regex` matches"
        if rule.name == "custom":
            return f"the rule `{camel(rule.text) if rule.text else 'of a closure'}` holds"
        return rule.known.told or (f"it is the same as `{rule.text}`" if rule.name == "matches" else f"the rule `{rule.name}` holds")

    def length(self, kind, rule, is_ascii):
        """How many items, members or characters there are."""
        low, high = self.ends(rule)
        if is_text(kind) and rule.mode != "chars" and not (is_ascii and rule.mode != "graphemes"):
            ends = [f"{word} {end}" for word, end in (("at least", low), ("at most", high)) if end is not None]
            raise Unsaid(f"{' and '.join(ends)} {COUNTED[rule.mode]}")
        word = "Length" if is_text(kind) else "Items" if kind.name == "Vec" else "Properties"
        return bounds_of(low, high, word)

    # Rules that speak of other fields.

    def shared(self, it, variant, item):
        """What a field asks beside others: a schema of the whole object for each rule."""
        for rule in shared_rules(it):
            try:
                yield self.asked(rule, it, variant, item)
            except Unsaid as unsaid:
                yield {"$comment": f"`{of_field(it, variant, item)}`: {unsaid}"}

    def asked(self, rule, it, variant, item):
        """What a rule of a field asks of the whole object."""
        name = of_field(it, variant, item)
        if rule.name == "if":
            condition = self.condition(rule.place, variant, item)
            return {"if": condition, "then": joined([self.asked(one, it, variant, item) for one in rule.rules])}
        kind = it.type.args[0] if is_option(it.type) and rule.name != "required" else it.type
        if is_skipped(it):
            raise Unsaid("a rule of what is not read")
        if rule.name == "required":
            return with_member(name, NO_NULL)
        default, schema = self.writer.borrowed.default(it, item), self.rule(kind, rule, False)
        return with_member(name, schema, default is not None and self.writer.borrowed.defaults.broken(default, [rule]))

    def condition(self, it, variant, item):
        if it.kind == "bool":
            return {} if it.value == "true" else NEVER
        if it.kind == "not":
            return {"not": self.condition(it.parts[0], variant, item)}
        if it.kind in ("and", "or"):
            return {"allOf" if it.kind == "and" else "anyOf": [self.condition(part, variant, item) for part in it.parts]}
        if it.kind == "place":
            return self.where(it, {"const": True}, lambda default: default is True, variant, item)
        if it.kind == "call" and is_skipped(self.field(it.parts[0], variant)):
            raise Unsaid(f"a condition on `{it.parts[0].value[-1]}`, which is not read")
        if it.kind == "call":
            name = of_field(self.field(it.parts[0], variant), variant, item)
            some = with_member(name, NO_NULL)
            return some if it.value == "is_some" else {"not": some}
        if it.kind == "matches":
            names = self.variants(it.parts[0], it.value, variant)
            return self.where(it.parts[0], {"enum": names}, lambda default: default in names, variant, item)
        if it.kind == "contains":
            return self.contains(it, variant, item)
        if it.kind == "address":
            raise Unsaid(f"a condition that asks whether `{'.'.join(it.parts[0].value)}` is an address")
        return self.comparison(it, variant, item)

    def variants(self, place, paths, variant):
        """The names in JSON of variants; of an enum whose variants have fields a schema of the object says nothing."""
        held = self.items.get(self.field(place, variant).type.name)
        chosen = [it for it in held.variants if it.name in {path[-1] for path in paths}] if held else []
        if held is None or not is_named(held) or "tag" in options(held) or any(map(is_other, chosen)):
            raise Unsaid(f"a condition on the variant of `{place.value[-1]}`")
        return [name for it in chosen for name in names_of(it, held)]

    def contains(self, it, variant, item):
        place, asked = it.parts[0], it.value.value
        if is_text(self.field(place, variant).type):
            return self.where(place, {"pattern": literal(asked)}, lambda default: asked in default, variant, item)
        return self.where(place, {"contains": {"const": asked}}, lambda default: False, variant, item)

    def comparison(self, it, variant, item):
        (place, other), mark = it.parts, it.kind
        if self.writer.resolved(place).kind == "number":
            place, other, mark = other, place, TURNED[mark]
        known = self.writer.resolved(other)
        if place.kind != "place" or known.kind not in ("number", "text", "path"):
            raise Unsaid("a condition that compares two fields" if place.kind == known.kind else "a condition on what is computed of a field")
        if known.kind == "path":
            names = self.variants(place, [known.value], variant)
            found = self.where(place, {"enum": names}, lambda default: default in names, variant, item)
        else:
            word, compare = COMPARED.get(mark, ("const", operator.eq))
            found = self.where(place, {word: known.value}, lambda default: compare(default, known.value), variant, item)
        return {"not": found} if mark == "!=" else found

    def where(self, place, schema, holds, variant, item):
        """That a member has this schema: one that is missing has its default."""
        it = self.field(place, variant)
        name, default = of_field(it, variant, item), self.default(it, item)
        if is_skipped(it):
            return {} if holds(default[0]) else NEVER
        return with_member(name, schema, not (default and holds(default[0])))

    def field(self, place, variant):
        found = next((it for it in variant.fields if place.value[0] == "self" and it.name == place.value[-1]), None)
        if found is None:
            raise Unsaid(f"a condition on `{'.'.join(place.value)}`")
        return found


COMPONENTS = "#/components/schemas/"
# The codes of the bounds of `length` and `range`.
CODES_OF_BOUNDS = {"min": ("lower_than",), "max": ("greater_than",), "equal": ("lower_than", "greater_than")}
# The rules whose message is the author's, so that it has a code of the author's or none.
OF_AUTHORS = ("custom", "unique")


def document(schema, of, route):
    """The description (OpenAPI 3.1) of a route that takes a type as JSON, and answers by problem details (RFC 9457)."""
    whole = schema.of(of)
    root, defs = schema.root, whole.pop("$defs", {})
    del whole["$schema"]
    held = {name: among_components(it, root) for name, it in {root: whole, **defs}.items()}
    codes, has_own = codes_of([schema.items[it] for it in held])
    code = {"type": "string", "examples": codes} if has_own else {"enum": codes}
    found = json.loads(fill("description of a route", dialect=DRAFT, root=root, route=json.dumps(route), code=json.dumps(code)))
    return {**found, "components": {"schemas": {**held, **found["components"]["schemas"]}}}


def among_components(schema, root):
    """A schema whose parts stand among the components."""
    if isinstance(schema, list):
        return [among_components(it, root) for it in schema]
    if not isinstance(schema, dict):
        return schema
    found = {word: among_components(it, root) for word, it in schema.items()}
    if isinstance(found.get("$ref"), str):
        found["$ref"] = COMPONENTS + (found["$ref"].removeprefix("#/$defs/") if "/" in found["$ref"] else root)
    return found


def codes_of(items):
    """The codes that faults of these types have, in order, and whether a rule has a message of its author."""
    rules = [rule for it in items for field in fields_of(it) for rule in all_rules(field.attributes.rules)]
    found = {"wrong_form", "member_missing", "member_repeated"}
    found |= {"value_unknown"} if any(is_named(it) or it.kind == "enum" for it in items) else set()
    found |= {"member_unknown"} if any("deny_unknown_fields" in options(it) or it.kind == "enum" for it in items) else set()
    names = {name for it in items for field in fields_of(it) for name in type_names(field.type)}
    found |= {"out_of_range"} if names & {*UNSIGNED, *SIGNED} else set()
    found |= {"not_a_number"} if names & {"f32", "f64"} else set()
    found |= {it.known.code for it in rules if it.known.code}
    found |= {f"{it.name}_{end}" for it in rules if it.name in ("length", "range") for word in it.bounds for end in CODES_OF_BOUNDS[word]}
    return sorted(found), any(it.name in OF_AUTHORS for it in rules)
