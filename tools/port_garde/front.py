"""A source as the rest of the port takes it. Each name of a type stands for what the imports and the other names of types of the file say. Where
a form reads a type, a field has the type whose value JSON holds, each use of a type with parameters is a type of its own, and no field has
a name that is a keyword or a word of the statements."""
from dataclasses import replace

from .borrowed import RESERVED, is_read
from .derives import Said, all_types, fields_of, of_field, options, reading, type_names
from .expressions import VALUE, with_places
from .holes import BY_FUNCTION
from .kinds import declared
from .scope import is_path
from .source import Parser, Type, is_ported, named_type, with_doc, with_fields, with_variants
from .templates import TABLES, names

STD = ("std", "core", "alloc")
# The crates whose types the port knows by their last names alone.
LIBRARY = (*STD, "garde", "serde", "serde_derive", "regex")
OWN_CRATE = ("crate", "self", "super")
# Types of other crates that the port knows.
KNOWN = names("types of other crates")
# The types that are read as what they hold.
HOLDERS = ("Box", "Rc", "Arc", "Cow", "Cell", "RefCell", "Mutex", "RwLock", "Wrapping", "Saturating", "Reverse", "OrderedFloat", "NotNan")
# The types that are read as another one, with so many arguments.
ALIKE = {
    name: (other.split()[0], int(other.split()[1]))
    for other, alike in names("types that are read as another one, with so many arguments").items() for name in alike
}
BORROWED = {"Path": "PathBuf", "Utf8Path": "Utf8PathBuf", "str": "String"}
# The types of std and of a form that the port goes by the names of: one of the file that has such a name gets another one.
BY_NAME = set(TABLES["types by the names of which the port goes"].split())
KEYWORDS = frozenset(TABLES["keywords"].split())
# The further names that no field has in a statement; behind them those that no variable of a pattern has.
WORDS = KEYWORDS.union(RESERVED, ("Type",))
OF_PATTERNS = WORDS.union(("yes", "no", "tt", "refl"))
# How a doc ends that is of the code alone.
OF_CODE = "in the Rust source."
# How deep types with parameters hold others that are made of them.
DEEPEST = 20


class Front:
    """What the names of a source stand for. `is_form` says that a form reads its types, `root` is the type that is asked for, and `taken`
    are the types and the variants, the latter behind their type, whose names stand for something else in what is written."""

    def __init__(self, source, is_form=False, root=None, taken=()):
        self.source, self.notes, self.is_form, self.root = source, source.notes, is_form, root
        self.items = {it.name: it for it in source.items}
        self.taken = {*taken, *(BY_NAME & set(self.items))}
        self.imports, self.made, self.chosen, self.read, self.declared, self.depth = {}, {}, {}, {}, [], 0
        for path, name in source.imports:
            self.imports.setdefault(name, []).append(path)
        self.plain = {one.name for item in source.items for it in fields_of(item) for one in all_types(it.type) if len(one.path) == 1}

    def turn(self):
        """Puts the types of the source in their new form."""
        if self.is_form:
            # imports of all names of a module of another crate, but for a prelude, among which may be those of std
            known = (*LIBRARY, *OWN_CRATE, *self.items, *self.source.modules)
            globs = [it for it in self.source.globs if self.full(it[1])[0] not in known and "prelude" not in it[1]]
            told = "which may bring types of any name: import each type by its name"
            self.notes.refuse_all((line, f"the import `{'::'.join(path)}`, {told}") for line, path in globs)
            self.name_instances()
        for it in self.source.items:
            if not self.is_generic(it):
                self.read[it.name] = self.resolved(it, self.reads(it))
        fields = [one for it in self.read.values() for one in fields_of(it) if not set(BY_FUNCTION) & set(options(one))]
        named = {name for it in fields for name in type_names(it.type)}
        items = [found for name in self.declared for found in self.forms_of(self.items[name]) if found.name in named]
        items += [found for it in self.source.items for found in self.forms_of(it)]
        if self.is_form:
            items = [it for it in items if it.name in concerned(items)]
        for it in items:
            self.notes.faults += [*it.faults, *(() if self.reads(it) else it.later)]
        self.source.items[:] = [self.named(it) for it in items]

    def reads(self, item):
        return self.is_form and is_read(item)

    def is_generic(self, item):
        """Whether a type is written at each of its uses."""
        return self.reads(item) and any(it.kind != "lifetime" for it in item.params)

    def forms_of(self, item):
        """A type, or those that are made of one with parameters."""
        if not self.is_generic(item):
            return [self.read[item.name]]
        found = [self.read[name] for (of, _), name in self.made.items() if of == item.name]
        if self.root == item.name and len(found) > 1 and item.name not in self.read:
            self.notes.refuse(item.line, f"`{item.name}`, which has several uses: say `--spelled` with one of {', '.join(f'`{it.name}`' for it in found)}")
        if not found and (self.root in (None, item.name) or is_ported(item)):
            told = f"`{item.name}` has the parameter `{next(it.name for it in item.params if it.kind != 'lifetime')}` and no use at which that is a type"
            self.notes.refuse(item.line, f"{told}: write `type NAME = {item.name}<..>;` with what it holds" + (", and say `--spelled NAME`" if self.root == item.name else ""))
        return found

    def called(self, name):
        """What a type of the source is called here."""
        found = [made for (of, _), made in self.made.items() if of == name]
        name = found[0] if name not in self.read and len(found) == 1 else name
        return self.other_name(name) if name in self.read else name

    # What names stand for.

    def full(self, path):
        """A path from its crate on, where an import says that. One that is no import of std comes first."""
        for _ in range(len(self.imports) + 1):
            found = [it for it in self.imports.get(path[0], ()) if it[0] != path[0]]
            if not found or len(path) == 1 and path[0] in self.items:
                return path
            path = (*next((it for it in found if it[0] not in STD), found[0]), *path[1:])
        return path

    def resolved(self, item, is_form):
        """A type whose fields have the types that their names stand for."""
        params = {it.name for it in item.params}
        return with_fields(item, lambda it: replace(it, type=self.type_of(it.type, item, params, is_form)))

    def type_of(self, kind, item, params, is_form, seen=()):
        """What a type in an item stands for; `seen` are the other names of types through which it is reached."""
        if kind.kind in ("unread", "const"):
            return kind
        if kind.kind == "path" and kind.path == ("Self",):
            kind = replace(kind, name=item.name, path=(item.name,))
        alias = self.source.aliases.get(kind.path[0]) if len(kind.path) == 1 and kind.path[0] not in params | set(self.items) else None
        if alias is not None:
            return self.expanded(kind, alias, item, params, is_form, seen)
        kind = replace(kind, args=tuple(self.type_of(it, item, params, is_form, seen) for it in kind.args))
        if kind.kind == "path" and kind.path[0] not in params:
            kind = self.of_path(kind, item, is_form)
        is_own = kind.kind == "path" and kind.path == (kind.name,) and kind.name in self.items
        return self.instance(kind if is_own else read_as(kind)) if is_form else kind

    def expanded(self, kind, alias, item, params, is_form, seen):
        """What another name of a type stands for."""
        if alias.fault or alias.name in seen:
            told = alias.fault or "another name of a type, which stands for itself"
            return self.unread(kind, f"the type `{alias.name}`, {told}: write the type itself")
        wanted = [it for it in alias.params if it.kind != "lifetime"]
        given = [*kind.args]
        given += [it.default for it in wanted[len(given) :] if it.default is not None]
        if len(given) != len(wanted):
            return self.unread(kind, f"the type `{alias.name}` with {len(given)} arguments, which has {len(wanted)}")
        lives = zip((it.name for it in alias.params if it.kind == "lifetime"), kind.lives)
        values = {**dict(zip((it.name for it in wanted), given)), **dict(lives)}
        return self.type_of(substituted(alias.type, values), item, params, is_form, (*seen, alias.name))

    def unread(self, kind, told):
        self.notes.refuse(kind.line, told)
        return Type("unread", "", kind.line)

    def of_path(self, kind, item, is_form):
        """A type by its path: one of the file, of the libraries, or of another crate or module, which has its path as its name."""
        full = self.full(kind.path)
        last = full[-1]
        known = declared(full)
        if is_form and known and last not in (*self.declared, *self.items):
            # a type of another crate is taken for one of the file, unless that has one of its name
            self.declared.append(last)
            self.items[last] = known
            self.read.update({} if self.is_generic(known) else {last: known})
        if last in self.declared and known:
            return replace(kind, name=last, path=(last,))
        # one of this name in another module: it came under another name, or the file names both
        is_of_both = len(kind.path) > 1 and (last in self.plain or last == item.name)
        is_another = kind.path[0] != "self" and (kind.path[-1] != last or is_of_both)
        if full[0] in OWN_CRATE and last in self.items and not is_another:
            return replace(kind, name=last, path=(last,))
        if len(full) == 1 or full[0] in LIBRARY:
            return replace(kind, name=last, path=full if kind.path[-1] != last else kind.path)
        if last in KNOWN.get(full[0], ()):
            return replace(kind, name=last, path=full if is_form else kind.path)
        return replace(kind, name="::".join(full))

    # Types with parameters.

    def name_instances(self):
        """Gives each use of a type with parameters that has a name of its own, by an alias or by its defaults, this name."""
        for alias in self.source.aliases.values():
            if alias.type is not None and not alias.fault and all(it.kind == "lifetime" for it in alias.params) and alias.type.kind == "path":
                target = self.items.get(self.full(alias.type.path)[-1])
                if target is not None and self.is_generic(target):
                    self.chosen[alias.name] = alias.type
        for name, kind in list(self.chosen.items()):
            params = {it.name for it in self.source.aliases[name].params}
            args = tuple(self.type_of(it, self.items[self.full(kind.path)[-1]], params, True) for it in kind.args)
            self.instance(replace(kind, name=self.full(kind.path)[-1], args=args), name)
        for it in self.source.items:
            if self.is_generic(it) and all(one.kind == "lifetime" or one.default for one in it.params):
                self.instance(named_type(it.name, it.line), it.name)

    def instance(self, kind, name=None):
        """A use of a type with parameters, as a type of its own."""
        item = self.items.get(kind.name) if kind.kind == "path" else None
        if item is None or not self.is_generic(item):
            return kind
        wanted, given = [it for it in item.params if it.kind != "lifetime"], [*kind.args]
        given += [self.type_of(it.default, item, set(), True) for it in wanted[len(given) :] if it.default is not None]
        if len(given) != len(wanted) or self.depth > DEEPEST:
            told = f"with {len(given)} arguments, which has {len(wanted)} parameters" if self.depth <= DEEPEST else "in itself with ever other arguments"
            return self.unread(kind, f"the type `{item.name}` {told}")
        key = (item.name, ", ".join(map(shown, given)))
        if key not in self.made:
            self.made[key] = self.free_name(name or f"{item.name}Of{'And'.join(map(camel_name, given))}", item)
            self.depth += 1
            values = {"Self": named_type(self.made[key], kind.line), **dict(zip((it.name for it in wanted), given))}
            made = with_fields(item, lambda it: replace(it, type=substituted(it.type, values)))
            params, docs = tuple(it for it in item.params if it.kind == "lifetime"), told_docs(item.docs, f"{key[0]}<{key[1]}>")
            self.read[self.made[key]] = replace(self.resolved(replace(made, params=params, docs=docs), True), name=self.made[key])
            self.depth -= 1
        return replace(kind, name=self.made[key], path=(self.made[key],), args=())

    def free_name(self, name, item):
        while name in self.items and name != item.name or name in self.made.values():
            name += "_"
        return name

    # Names that stand for something else.

    def other_name(self, name):
        return f"{name}_" if name in self.taken else name

    def named(self, item):
        """A type whose names and those of its fields and variants stand for nothing else."""
        fields = {}
        if self.reads(item):
            item, fields = self.fields_named(item)
        for it in (it for it in fields_of(item) if it.name in KEYWORDS):
            self.notes.refuse(it.line, f"the field `{it.name}`, whose name is a keyword: call it `{it.name}_`, and write `#[garde(rename = \"{it.name}\")]` beside its rules")
        item = with_fields(item, lambda it: replace(it, type=self.type_named(it.type)))
        stated = [f"{it.name}_of_{item.name}" if (item.known, it.name) in self.taken else "" for it in item.variants]
        variants = [replace(it, stated=word) for it, word in zip(item.variants, stated)]
        docs = told_docs(item.docs, item.name) if item.name in self.taken else item.docs
        context = item.attributes.context
        if context:
            line, tokens = context
            names = [it._replace(text=self.other_name(it.text)) if it.kind == "name" else it for it in tokens.tokens]
            context = (line, Parser(names, tokens.text, tokens.notes))
        return replace(
            item, name=self.other_name(item.name), variants=tuple(variants), docs=docs, renames=tuple(fields.items()),
            attributes=replace(item.attributes, context=context),
        )

    def type_named(self, kind):
        args = tuple(map(self.type_named, kind.args))
        if kind.kind == "path" and kind.name in self.taken and kind.path == (kind.name,):
            return replace(kind, name=self.other_name(kind.name), path=(self.other_name(kind.name),), args=args)
        return replace(kind, args=args)

    def fields_named(self, item):
        """A type whose fields have names that may stand in code and in statements, and which of them have other ones than in the source."""
        found = {}
        for variant in item.variants:
            words, taken = WORDS if item.kind == "struct" else OF_PATTERNS, {it.name for it in variant.fields}
            for it in (it for it in variant.fields if it.name in words):
                found[it.name] = f"{it.name}_"
                while found[it.name] in taken:
                    found[it.name] += "_"
        if not found:
            return item, found
        return with_variants(item, lambda variant: [self.field_named(it, variant, item, found) for it in variant.fields]), found

    def field_named(self, it, variant, item, found):
        """A field under its name here. It keeps its name in JSON and in the paths of a walk."""
        attributes = replace(it.attributes, rules=tuple(rule_named(rule, found) for rule in it.attributes.rules))
        if it.name not in found:
            return replace(it, attributes=attributes)
        told = Said("rename", it.line, f'rename = "{of_field(it, variant, item)}"', of_field(it, variant, item))
        serde = it.serde if reading(it, "rename") is not None or {"flatten", "skip"} & set(options(it)) else (*it.serde, (told,))
        attributes = replace(attributes, rename=attributes.rename if attributes.rename is not None else it.name)
        return replace(it, name=found[it.name], attributes=attributes, serde=serde, docs=told_docs(it.docs, it.name))


def told_docs(docs, name):
    """Docs that say what something is called in the source."""
    return with_doc(docs, f"It is `{name}` {OF_CODE}")


def rule_named(rule, found):
    """A rule that speaks of fields by their names here."""
    bounds = {name: place_named(it, found) for name, it in rule.bounds.items()}
    text = found.get(rule.text, rule.text) if rule.name == "matches" else rule.text
    place = rule.place and place_named(rule.place, found)
    return replace(rule, bounds=bounds, text=text, place=place, rules=tuple(rule_named(it, found) for it in rule.rules))


def place_named(expression, found):
    """An expression that speaks of fields by their names here, and so of those of parts."""

    def change(place):
        names = [f"{it}_" if it in WORDS else it for it in place]
        if place[0] == "self":
            return ("self", *(found.get(it, it) for it in place[1:2]), *names[2:])
        return (VALUE, *names[1:]) if place[0] == VALUE else place

    return with_places(expression, change)


def concerned(items):
    """The names of the types that a form or a walk has to do with, and of those that they name. What a type that a form reads holds has to
    be read too, so of the others its context alone is reached from it."""
    found, more = set(), [it for it in items if is_read(it) or is_ported(it)]
    while more:
        found |= {it.name for it in more}
        named = {token.text for it in more if it.attributes.context for token in it.attributes.context[1].tokens}
        named |= {name for it in more if not is_read(it) for field in fields_of(it) for name in type_names(field.type)}
        more = [it for it in items if it.name in named - found]
    return found


def substituted(kind, values):
    """A type with these types and lifetimes in place of parameters."""
    if kind.kind == "path" and len(kind.path) == 1 and not (kind.args or kind.lives) and isinstance(values.get(kind.name), Type):
        return values[kind.name]
    size, lives = values.get(kind.size), [values.get(it) for it in kind.lives]
    return replace(
        kind, args=tuple(substituted(it, values) for it in kind.args), size=size.name if isinstance(size, Type) else kind.size,
        lives=tuple(one if isinstance(one, str) else it for one, it in zip(lives, kind.lives)),
    )


def read_as(kind):
    """The type whose values a form reads of a type: that within a holder, and one of the library for those that are alike in JSON."""
    types = kind.args
    if kind.kind == "ref" or is_path(kind, *HOLDERS) and len(types) == 1:
        return held(kind, types[0])
    if is_path(kind, "SmallVec") and len(types) == 1 and types[0].kind == "array":
        return of_std("Vec", kind, types[0].args)
    if is_path(kind, "Map") and kind.path[0] == "serde_json":
        return of_std("HashMap", kind, kind.args)
    if kind.kind == "path" and kind.name in ALIKE and len(types) >= ALIKE[kind.name][1]:
        name, count = ALIKE[kind.name]
        return kind if name == kind.name and count == len(types) else of_std(name, kind, types[:count])
    return kind


def of_std(name, kind, args=()):
    """A type of std in place of another one."""
    return Type("path", name, kind.line, path=("std", name), args=args)


def held(kind, one):
    """What is read of a holder or a reference: a text is that of a `String`, a list that of a `Vec`. Of bytes serde reads a text where they are
    borrowed, so they stay."""
    if is_path(one, *BORROWED):
        return kind if kind.kind == "ref" and one.name == "str" else of_std(BORROWED[one.name], kind)
    if one.kind == "slice":
        is_kept = kind.kind == "ref" or kind.name == "Cow" and is_path(one.args[0], "u8")
        return kind if is_kept else of_std("Vec", kind, one.args)
    return one


def shown(kind):
    """A type as a source has it."""
    inside = ", ".join(map(shown, kind.args))
    if kind.kind == "ref":
        return f"&{inside}"
    if kind.kind in ("slice", "array"):
        return f"[{inside}; {kind.size}]" if kind.kind == "array" else f"[{inside}]"
    if kind.kind == "tuple":
        return f"({inside})"
    inside = ", ".join([*kind.lives, *map(shown, kind.args)])
    return f"{kind.name}<{inside}>" if inside else kind.name


def camel_name(kind):
    """A type as a part of a name."""
    if kind.kind == "path":
        name = kind.name.split("::")[-1]
        return f"{name[:1].upper()}{name[1:]}" + (f"Of{'And'.join(map(camel_name, kind.args))}" if kind.args else "")
    if kind.kind == "const":
        return kind.name
    word = {"ref": "", "slice": "Slice", "array": f"Array{kind.size}", "tuple": "Tuple"}.get(kind.kind, "Unread")
    return word + "".join(map(camel_name, kind.args))
