"""How values are made: what `Built` makes a value of a type of."""
import functools
from dataclasses import replace

from .borrowed import below
from .layout import WIDTH, Parts, Word, arm, call, flat, ghost, literal, may_be_flat, statement, wide_call
from .members import filled, grouped
from .templates import fill
from .unions import SIDES, along, beside_units, nested, paths_of, units_of

KEPT = "    ghost kept = { λ _. refl };"


def places(parts, name):
    """The place of each part in the value of a form."""
    if len(parts) == 1:
        return [name]
    found = []
    for at, it in enumerate(parts):
        found += places(it, f"{name}.{at}") if isinstance(it, list) else [f"{name}.{at}"]
    return found


def tuple_of(parts):
    trees = [tuple_of(it) if isinstance(it, list) else Word(it) for it in parts]
    return trees[0] if len(trees) == 1 else call("", *trees)


def tuple_text(parts):
    """The same as it is stated."""
    texts = [tuple_text(it) if isinstance(it, list) else it for it in parts]
    return texts[0] if len(texts) == 1 else f"({', '.join(texts)})"


def side_pattern(path, inside):
    """What stands at the end of a path, as a pattern or a value of the code."""
    return functools.reduce(lambda tree, it: wide_call(f"Either::{SIDES[it]}", tree), reversed(path), inside)


def wide(tree):
    """A pattern of nested tuples, which may fill a line."""
    return wide_call(tree.head, *map(wide, tree.parts)) if isinstance(tree, Parts) else tree


def taking(pattern, indent):
    """The line that takes the parts by a pattern, or the lines where `parts` does not fit behind it."""
    head, line = f"{' ' * indent}let {flat(pattern)} =", f"{' ' * (indent + 4)}parts;"
    fits = may_be_flat(pattern) and len(head) <= WIDTH < len(head) + len(" parts;")
    return f"{head}\n{line}" if fits else statement(pattern, indent, "let ", " = parts;")


def ghost_tuple(first, parts):
    """A ghost member that is a tuple: on its own line or the next one where it fits, and else with a line for each part."""
    rest, rows = f"{tuple_text(parts)} }};", tuple_rows(parts, 6)
    if len(first) + 1 + len(rest) <= WIDTH or len(rows) == 1:
        return f"{first} {rest}"
    return f"{first}\n        {rest}" if 8 + len(rest) <= WIDTH else "\n".join([f"{first} (", *rows, "    ) };"])


def tuple_rows(parts, indent):
    """The lines of the parts of a tuple."""
    rows = []
    for it in parts[0] if len(parts) == 1 and isinstance(parts[0], list) else parts:
        text = f"{' ' * indent}{tuple_text(it) if isinstance(it, list) else it},"
        is_wide = isinstance(it, list) and len(text) > WIDTH
        rows += [f"{' ' * indent}(", *tuple_rows(it, indent + 2), f"{' ' * indent}),"] if is_wide else [text]
    return rows


def ghost_cases(name, cases):
    return ghost(name, f"elim [ {' | '.join(cases)} ]", " elim [\n" + "".join(f"      | {it}\n" for it in cases) + "    ]")


def names_in_code(fields):
    """What the fields of a variant are called in code."""
    return [it.name or ("value" if len(fields) == 1 else f"value_{at}") for at, it in enumerate(fields)]


class Makers:
    """The makers of the types of a file."""

    def __init__(self, schema):
        self.schema, self.writer = schema, schema.writer

    def type_name(self, item):
        return f"{item.name}<'t>" if item.params else item.name

    def value(self, item):
        """What names the type for `Built`."""
        self.writer.uses.others.add("std::marker::PhantomData")
        life = "<'_>" if item.params else ""
        return Word(f"PhantomData::<&{item.name}{life}>")

    def text(self, item):
        self.writer.item = item
        if self.writer.is_nested(item):
            return self.nested(item)
        self.schema.use("FromParts")
        self.writer.uses.prelude.add("refl")
        types, made = self.of_enum(item) if item.kind == "enum" else self.of_struct(item)
        head = {"name": item.name, "life": "<'t>" if item.params else "", "made": self.type_name(item)}
        return fill("maker", **{"kept": KEPT, **made}, **head, parts=statement(types, 4, "type Parts = ", ";"))

    def nested(self, item):
        self.schema.use("FromNested")
        self.writer.uses.prelude.add("◌≡◌")
        self.writer.uses.paths.add("Rattle.std.proofs.Common.{rules}")
        held, variant = below(self.schema.items[item.name]).name, item.variants[0]
        own = replace(variant, fields=tuple(it for it in variant.fields if it.name != held))
        names = [it.name for it in own.fields]

        def rows(whole, rest):
            return "; ".join(f"{name} = {place}" for name, place in [*zip(names, places(self.tree(own, names), whole)), (held, rest)])

        taken = [statement(wide(tuple_of(self.tree(own, names))), 8, "let ", " = own;")]
        made = ((it.name, Word("below" if it.name == held and held != "below" else it.name)) for it in variant.fields)
        given = tuple_text(self.tree(own, [f"(out-{item.name} v).{it}" for it in names]))
        return fill(
            "maker of a nested type", name=item.name, life="<'t>" if item.params else "", made=self.type_name(item),
            own=statement(self.types(own), 4, "type Own = ", ";"),
            rows=rows("own", "below"), parts=f"({given}, (out-{item.name} v).{held})", clauses=rows("own.entry", "below.entry"),
            body="\n".join([*taken, statement(literal(item.name, made), 8)]),
        )

    def types(self, variant):
        return tuple_of(self.tree(variant, [self.writer.type_text(it.type) for it in variant.fields])) if variant.fields else Word("()")

    def tree(self, variant, values):
        """These values, one for each field, as the form of the fields nests what it reads."""
        return filled(grouped(variant.fields), values)

    def of_struct(self, item):
        variant = item.variants[0]
        if not variant.fields:
            made = {"unit": item.name, "named": f"{item.name} {{}}", "tuple": f"{item.name}()"}[variant.shape]
            builds, parts_of = "    ghost builds = { λ _. record {} };", "    ghost parts_of = { λ _. tt };"
            return Word("()"), {"builds": builds, "parts_of": parts_of, "body": f"        {made}"}
        names = [it.name or str(at) for at, it in enumerate(variant.fields)]
        rows = [f"{name} = {place}" for name, place in zip(names, places(self.tree(variant, names), "parts"))]
        laid = " λ parts. record {\n" + "".join(f"      {it};\n" for it in rows) + "    }"
        builds = ghost("builds", f"λ parts. record {{ {'; '.join(rows)} }}", laid)
        parts_of = ghost_tuple("    ghost parts_of = { λ v.", self.tree(variant, [f"v.{it}" for it in names]))
        return self.types(variant), {"builds": builds, "parts_of": parts_of, "body": self.body(item, variant)}

    def body(self, item, variant):
        names, is_named = names_in_code(variant.fields), variant.shape == "named"
        if len(names) == 1:
            return statement(literal(item.name, [(names[0], Word("parts"))]), 8) if is_named else f"        {item.name}(parts)"
        pattern = wide(tuple_of(self.tree(variant, names)))
        taken = taking(pattern, 8) if is_named else statement(pattern, 8, "let ", " = parts;")
        return taken + "\n" + statement(self.made(item.name, variant, names), 8)

    def of_enum(self, item):
        known = self.schema.items[item.name]
        tree = nested([nested(it) for it in (units_of(known), beside_units(known)) if it])
        sides = paths_of(tree)
        if len(item.variants) > 1:
            self.schema.use("Either")
            self.writer.uses.sides = True
        types = self.of_tree(tree, {it.name: it for it in item.variants})
        builds, parts_of, kept, arms = [], [], [], []
        for it in item.variants:
            path, names = sides[it.name], names_in_code(it.fields)
            values = places(self.tree(it, names), "parts") if names else []
            builds.append(f"{along(path, 'parts' if names else '_')} ↦ {' '.join([it.word, *values])}")
            given = tuple_text(self.tree(it, names)) if names else "tt"
            parts_of.append(f"{' '.join([it.word, *names])} ↦ {along(path, given)}")
            kept.append(f"{along(path, '_')} ↦ refl")
            arms.append(self.arm(item, it, path, names))
        made = {"builds": ghost_cases("builds", builds), "parts_of": ghost_cases("parts_of", parts_of)}
        if len(item.variants) == 1:
            return types, {**made, **self.of_one(item, builds[0])}
        return types, {**made, "kept": ghost_cases("kept", kept), "body": "\n".join(["        match parts {", *arms, "        }"])}

    def of_one(self, item, builds):
        """What is other of an enum of one variant, whose value the form has as it is."""
        variant, made = item.variants[0], builds.replace(" ↦ ", ". ", 1)
        names = names_in_code(variant.fields)
        pattern = wide(tuple_of(self.tree(variant, names))) if names else Word("()")
        value = self.made(f"{item.name}::{variant.name}", variant, names)
        body = statement(pattern, 8, "let ", " = parts;") + "\n" + statement(value, 8)
        return {"builds": ghost("builds", f"λ {made}", f"\n        λ {made}"), "body": body}

    def of_tree(self, tree, variants):
        if not isinstance(tree, tuple):
            return self.types(variants[tree.name])
        return Parts("Either", tuple(self.of_tree(it, variants) for it in tree), WIDTH, ("<", ">"))

    def made(self, head, variant, names):
        """A struct or a variant, made of the names of its parts."""
        if variant.shape == "named":
            return literal(head, ((it, Word(it)) for it in names))
        return call(head, *names) if names else Word(head)

    def arm(self, item, variant, path, names):
        """The arm that makes a variant. The borrow checker takes no parts of parts out of a variant, so such are bound in the arm."""
        tree = self.tree(variant, names) if names else []
        taken = wide(tuple_of(tree)) if names else Word("()")
        made = self.made(f"{item.name}::{variant.name}", variant, names)
        if any(isinstance(it, list) for it in tree):
            head = statement(side_pattern(path, Word("parts")), 12, "", " => {")
            return "\n".join([head, taking(taken, 16), statement(made, 16), "            }"])
        return arm(side_pattern(path, taken), made, 12)
