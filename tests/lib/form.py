"""The words of a form, as the READMEs of `garde_schema` and `garde_form` have them: what is wrong with a value of JSON, in the order of
the walk, and what it spells. They are written from these documents, and share nothing with the library.

A form has two methods. `read(tree, path, walk)` puts faults on the walk, and returns what the tree spells, or NO. `some(dice, odd)`
makes a tree that has no fault, but that each choice goes wrong with the chance `odd`. A word of members has them too: its trees are the
pairs of an object, and it spells a dictionary. `names(pairs)` are the names that it knows.
"""
import functools
import re

from lib.faults import INTEGERS, fault, first
from lib.json_values import Number, Pairs, is_text, kind

NO = object()
TEXTS = ["", "a", "ab", "P", "p1", "abcde", "é", "𝄞" * 5, "漢字", "a b", "1", "null", "\n", "\x00", "\x1b[2K", 'q"\\/\b\t', "\u202e"]
TEXTS += ["a.b[0]"]
NUMBERS = "0 -0 1 -1 1.0 0.5 1e2 1E0 -7.25E-3 99.0 127 128 255 256 65535 65536".split() + ["1234567890" * 4, "-" + "9" * 40]
NUMBERS += [str(sign * 2**power + by) for sign in (1, -1) for power in (31, 32, 63, 64) for by in (-1, 0)]


class Walk(list):
    """The faults that were found: each a path and a fault. A path is names of members and indexes of items."""

    def put(self, path, code, **params):
        self.append((path, fault(code, **params)))
        return NO

    def other(self, path, wanted, tree):
        """A value of another form than the one that is wanted."""
        return self.put(path, "wrong_form", wanted=wanted, found=kind(tree))

    def ask(self, rules, value, path):
        for rule in rules:
            found, at = rule.find(value), path + getattr(rule, "under", ())
            if found:
                self.append((at, found))


def read(form, tree, path=()):
    """What a tree spells by a form, and its faults."""
    walk = Walk()
    return form.read(tree, path, walk), walk


class Under:
    """A rule on the value of members, whose fault stands under this one. `find` gets the dictionary of the members."""

    def __init__(self, name, find):
        self.under, self.find = (name,), find


class Scalar:
    """What forms of texts and numbers have in common: values to choose from, and which of them the rules allow. A tree of another type than
    the one that is wanted is a fault."""

    wanted, is_one = "Text", staticmethod(is_text)

    def read(self, tree, path, walk):
        return self.spelled(tree, path, walk) if self.is_one(tree) else walk.other(path, self.wanted, tree)

    def offer(self, values):
        self.any = list(values)
        self.right = [it for it in self.any if not read(self, it)[1]]

    def some(self, dice, odd):
        return dice.choice(self.any if dice.random() < odd else self.right)


class Text(Scalar):
    def __init__(self, *rules, like=()):
        self.rules = rules
        self.offer([*like * 4, *(near for rule in rules for near in rule.near)] + ([] if like else TEXTS))

    def spelled(self, tree, path, walk):
        walk.ask(self.rules, tree, path)
        return tree


def held(of, number, rules, path, walk):
    """A whole number, if its type holds it; else the fault is that of the bound that the nearest number is beyond, if there is one."""
    least, most = INTEGERS[of]
    nearest = min(max(number, least), most)
    if nearest == number:
        walk.ask(rules, number, path)
        return number
    bound = first([rule for rule in rules if rule.is_bound], nearest)
    walk.append((path, bound or fault("out_of_range", of=of)))
    return NO


class Whole(Scalar):
    """A whole number of this type: digits alone, perhaps behind a minus, and `-0` is none."""

    wanted = "Whole"

    def __init__(self, of, *rules):
        self.of, self.rules = of, rules
        self.offer(Number(it) for it in [*(near for rule in rules for near in rule.near), *INTEGERS[of], *NUMBERS, *range(1, 30, 4)])

    def is_one(self, tree):
        return isinstance(tree, Number) and re.fullmatch("-?[0-9]+", tree) and tree != "-0"

    def spelled(self, tree, path, walk):
        return held(self.of, int(tree), self.rules, path, walk)


class Parsed(Scalar):
    """A text that writes a whole number of this type, as `str::parse` reads it. With a message of an author's parser each other text
    gets this message."""

    def __init__(self, of, *rules, message=None):
        self.of, self.rules, self.message = of, rules, message
        near = [str(near) for rule in rules for near in rule.near]
        odd = ["+5", "007", "0" * 40 + "7", " 5", "5 ", "", "5.0", "1e3", "1_000", "0x10", "+", "-", "+-1", "--1", "many", "٣", "3\x006"]
        self.offer([*near, *near, *odd, *(it for it in NUMBERS if "." not in it)])

    def spelled(self, tree, path, walk):
        number = int(tree) if re.fullmatch("[+-]?[0-9]+", tree, re.ASCII) else None
        is_held = number is not None and INTEGERS[self.of][0] <= number <= INTEGERS[self.of][1]
        is_spelled = is_held and not (self.of[0] == "u" and tree[0] == "-")
        if self.message and not is_spelled:
            return walk.put(path, "own", text=self.message)
        if number is None:
            return walk.other(path, "Whole", tree)
        value = held(self.of, number, self.rules, path, walk)
        return value if is_spelled else NO


class OneOf(Scalar):
    """A text that is one of these names, and spells it."""

    def __init__(self, *names):
        self.known = names
        self.offer([*names, *TEXTS, *(name.upper() for name in names), *(name + " " for name in names)])

    def spelled(self, tree, path, walk):
        return tree if tree in self.known else walk.put(path, "value_unknown")


class Only(Scalar):
    """The values of one type, without rules. `null` spells that it is there."""

    def __init__(self, wanted, *values):
        self.wanted, self.any, self.right = wanted, values, values

    def is_one(self, tree):
        return any(tree is it for it in self.any)

    def spelled(self, tree, path, walk):
        return True if tree is None else tree


class Anything(Scalar):
    any = right = [None, True, Number("1"), "a", [Number("1"), Pairs([("a", None)])], Pairs()]

    def read(self, tree, path, walk):
        return True


Flag, Null, Any = Only("Boolean", True, False), Only("Null", None), Anything()


class Wrapped:
    """A form around another one: what it wraps is asked but for one tree, which spells None."""

    def __init__(self, form, none):
        self.form, self.none = form, none

    def read(self, tree, path, walk):
        is_none = tree is None if self.none is None else is_text(tree) and tree == self.none
        return None if is_none else self.form.read(tree, path, walk)

    def some(self, dice, odd):
        return self.none if dice.random() < 0.3 else self.form.some(dice, odd)


Nullable, OrEmpty = functools.partial(Wrapped, none=None), functools.partial(Wrapped, none="")


def some_count(dice, odd, rules):
    """How many items: mostly few, of those that the rules allow."""
    near = [it for rule in rules for it in rule.near]
    if dice.random() < odd:
        return dice.choice([0, *near])
    sizes = [it for it in (0, 1, 1, 2, 2, 3) if not first(rules, it)] or [1]
    return dice.choice([it for it in near if not first(rules, it)] or [1]) if dice.random() < 0.05 else dice.choice(sizes)


class ListUnder:
    """A list: the rules of how many items there are come first, then each item."""

    def __init__(self, rules, form):
        self.rules, self.form = rules, form

    def read(self, tree, path, walk):
        if not isinstance(tree, list) or isinstance(tree, Pairs):
            return walk.other(path, "List", tree)
        walk.ask(self.rules, len(tree), path)
        values = [self.form.read(item, (*path, index), walk) for index, item in enumerate(tree)]
        return NO if NO in values else values

    def some(self, dice, odd):
        return [self.form.some(dice, odd) for _ in range(some_count(dice, odd, self.rules))]


class MapUnder:
    """An object of any names: the rules of how many members there are come first. A name that came before is a fault, each time."""

    names = ("", "cpu", "a.b", "disk", "né", "[0]", "memory", "files", "10", "a\nb", "\u202e", "x y", '"')

    def __init__(self, rules, form):
        self.rules, self.form = rules, form

    def read(self, tree, path, walk):
        if not isinstance(tree, Pairs):
            return walk.other(path, "Object", tree)
        walk.ask(self.rules, len(tree), path)
        values, before = [], set()
        for name, part in tree:
            value = walk.put((*path, name), "member_repeated") if name in before else self.form.read(part, (*path, name), walk)
            values.append(NO if value is NO else (name, value))
            before.add(name)
        return NO if NO in values else values

    def some(self, dice, odd):
        count = some_count(dice, odd, self.rules)
        names = dice.sample(self.names, count) if count <= len(self.names) else [f"r{number}" for number in range(count)]
        return Pairs((name, self.form.some(dice, odd)) for name in names)


class Member:
    """One member of this name. `absent` is its value where there is none, and without it the member has to be there."""

    def __init__(self, name, form, absent=NO, is_null_absent=False):
        self.name, self.form, self.absent, self.is_null_absent = name, form, absent, is_null_absent

    def names(self, pairs):
        return {self.name}

    def read(self, pairs, path, walk):
        there, at = [part for name, part in pairs if name == self.name], (*path, self.name)
        if len(there) > 1:
            return walk.put(at, "member_repeated")
        if not there or (self.is_null_absent and there[0] is None):
            return walk.put(at, "member_missing") if self.absent is NO else {self.name: self.absent}
        value = self.form.read(there[0], at, walk)
        return NO if value is NO else {self.name: value}

    def some(self, dice, odd):
        if self.absent is not NO and dice.random() < 0.3:
            return [(self.name, None)] if self.is_null_absent and dice.random() < 0.5 else []
        return [(self.name, self.form.some(dice, odd))]


Optional, Nullish = functools.partial(Member, absent=None), functools.partial(Member, absent=None, is_null_absent=True)
WithDefault = Member


class All:
    """Members in turn."""

    def __init__(self, *members):
        self.members = members

    def names(self, pairs):
        return {name for member in self.members for name in member.names(pairs)}

    def read(self, pairs, path, walk):
        values = [member.read(pairs, path, walk) for member in self.members]
        return NO if NO in values else {name: value for part in values for name, value in part.items()}

    def some(self, dice, odd):
        return [pair for member in self.members for pair in member.some(dice, odd)]


class Closed(All):
    """These members and no other: each other one is a fault under its name, behind the faults of these, in the order of the text."""

    def read(self, pairs, path, walk):
        value, known = super().read(pairs, path, walk), self.names(pairs)
        for name, _ in pairs:
            if name not in known:
                walk.put((*path, name), "member_unknown")
        return value


class Tagged:
    """An object that is one of these variants, each closed, by the text of the member of this name. Where that is at fault nothing
    else is asked."""

    def __init__(self, tag, **variants):
        self.tag, self.variants, self.choose = tag, variants, Member(tag, OneOf(*variants))

    def read(self, tree, path, walk):
        if not isinstance(tree, Pairs):
            return walk.other(path, "Object", tree)
        choice = self.choose.read(tree, path, walk)
        if choice is NO:
            return NO
        return Closed(self.choose, self.variants[choice[self.tag]]).read(tree, path, walk)

    def some(self, dice, odd):
        name = dice.choice(list(self.variants))
        return Pairs([(self.tag, name), *self.variants[name].some(dice, odd)])


class Checked:
    """A form, or members, and then rules on the value, where there is one."""

    def __init__(self, form, *rules):
        self.form, self.rules = All(*form) if isinstance(form, tuple) else form, rules

    def names(self, pairs):
        return self.form.names(pairs)

    def read(self, tree, path, walk):
        value = self.form.read(tree, path, walk)
        if value is not NO:
            walk.ask(self.rules, value, path)
        return value

    def some(self, dice, odd):
        for _ in range(20):
            tree = self.form.some(dice, odd)
            if odd or not read(self, tree)[1]:
                break
        return tree


class Object:
    """An object with these members."""

    def __init__(self, *members):
        self.members = members[0] if len(members) == 1 else All(*members)

    def read(self, tree, path, walk):
        return self.members.read(tree, path, walk) if isinstance(tree, Pairs) else walk.other(path, "Object", tree)

    def some(self, dice, odd):
        pairs = self.members.some(dice, odd)
        if dice.random() < 0.2:
            dice.shuffle(pairs)
        return Pairs(pairs)
