"""The page of a form with its faults, as the README of `garde_html` has it."""
import base64
import functools
import hashlib
import html
import re
import string
import typing

from lib import repository, tables


class Field(typing.NamedTuple):
    """A field: a line of this type, or boxes, each with the text that is sent and its label. An empty hint or attribute is none."""
    name: str
    label: str
    kind: str = "text"
    boxes: tuple = ()
    hint: str = ""
    autocomplete: str = ""
    inputmode: str = ""
    required: bool = False


class Form(typing.NamedTuple):
    language: str
    title: str
    faulty_title: str
    summary: str
    send: str
    fields: tuple
    direction: str = "ltr"
    action: str = "/"


PAGE = string.Template(tables.text_of("page.html"))
# Where Rust's `trim` cuts: the property `White_Space` of Unicode.
WHITE = "\t\n\v\f\r \x85\xa0\u1680\u2000\u2001\u2002\u2003\u2004\u2005\u2006\u2007\u2008\u2009\u200a\u2028\u2029\u202f\u205f\u3000"


@functools.cache
def style():
    """The stylesheet of the pages."""
    return re.search(r'\(\n +"(.*?)"\n', repository.text_of("crates/garde_html/src/style.rt"), re.DOTALL)[1]


def source():
    """The stylesheet as a policy names it (Content Security Policy, section 2.3.1)."""
    return f"sha256-{base64.b64encode(hashlib.sha256(style().encode()).digest()).decode()}"


def text(given):
    """A text within HTML."""
    return html.escape(given).replace("&#x27;", "&#39;")


def entry(form, path, message):
    """A fault in the summary, which leads to its field if the form has one."""
    if not path:
        return f"<li>{text(message)}</li>\n"
    for field in form.fields:
        if field.name == path[0]:
            label = "" if field.label in message else f"{text(field.label)}: "
            return f'<li><a href="#field-{text(field.name)}">{label}{text(message)}</a></li>\n'
    return f"<li><bdi>{text(str(path[0]))}</bdi>: {text(message)}</li>\n"


def summary(form, faults):
    entries = "".join(entry(form, *fault) for fault in faults)
    head = f'<div class="summary" role="alert" tabindex="-1" autofocus="">\n<h2>{text(form.summary)}</h2>\n'
    return f"{head}<ul>\n{entries}</ul>\n</div>\n" if faults else ""


def attributes(**said):
    """Attributes, but for those that are None or False. One that is True has no text."""
    there = {name.replace("_", "-"): "" if it is True else text(it) for name, it in said.items() if it not in (None, False)}
    return "".join(f' {name}="{it}"' for name, it in there.items())


def control(field, typed, faulty):
    """The line or the boxes of a field, with what was typed, and with what a browser and a screen reader are told."""
    name, label = text(field.name), text(field.label)
    hint = f'<p class="hint" id="hint-{name}">{text(field.hint)}</p>\n' if field.hint else ""
    told = attributes(
        autocomplete=field.autocomplete or None, inputmode=field.inputmode or None, aria_required="true" if field.required else None,
        aria_invalid="true" if faulty else None,
        aria_describedby=" ".join(f"{part}-{field.name}" for part, it in (("hint", field.hint), ("faults", faulty)) if it) or None,
    )
    if not field.boxes:
        shown = "" if field.kind == "password" else text(next((it for at, it in typed if at == field.name), ""))
        line = f'<input id="field-{name}" name="{name}" dir="auto" type="{text(field.kind)}" value="{shown}"{told}>'
        return f'<label for="field-{name}">{label}</label>\n{hint}{line}'
    boxes = ""
    for value, said in field.boxes:
        checked = attributes(checked=(field.name, value) in typed)
        boxes += f'<label><input type="checkbox" name="{name}" value="{text(value)}"{checked}{told}> {text(said)}</label>\n'
    return f'<fieldset id="field-{name}" tabindex="-1"><legend>{label}</legend>\n{hint}{boxes}</fieldset>'


def field_of(field, typed, faults):
    """A field with what was typed, and with the messages at it and under it."""
    messages = "".join(f"<li>{text(message)}</li>\n" for path, message in faults if path and path[0] == field.name)
    listed = f'\n<ul class="faults" id="faults-{text(field.name)}">\n{messages}</ul>' if messages else ""
    return f'<div class="field">\n{control(field, typed, bool(messages))}{listed}\n</div>\n'


def within(main, language, direction, title, said=None):
    """A page with this in its middle, under this heading. What it says as its title is the heading, if it is nothing else."""
    texts = {"language": language, "direction": direction, "title": title, "said": said or title}
    return PAGE.substitute({name: text(it) for name, it in texts.items()}, style=style(), main=main)


def worded(form, typed, faults, said):
    """Faults as a page words them, by the texts of a language: of a field that was left empty, and of a password that was right."""
    fields, first = {it.name: it for it in form.fields}, dict(reversed(typed))
    at = {path[0] for path, _ in faults if path}
    for path, message in faults[:100]:
        field = fields.get(path[0]) if path else None
        is_left = field and not field.boxes and not first.get(field.name, "").strip(WHITE)
        yield path, said["field_empty"].format(label=field.label) if is_left else message
    for field in form.fields:
        if field.kind == "password" and first.get(field.name) and field.name not in at:
            yield (field.name,), said["field_again"].format(label=field.label)


def page(form, typed, faults):
    """The page of a form, with each name that was sent and its text, and with faults, each a path and a message."""
    fields = "".join(field_of(it, typed, faults) for it in form.fields)
    head, end = f'<form method="post" action="{text(form.action)}" novalidate>\n', f"<button>{text(form.send)}</button>\n</form>\n"
    main = f"{summary(form, faults)}{head}{fields}{end}"
    return within(main, form.language, form.direction, form.title, form.faulty_title if faults else form.title)
