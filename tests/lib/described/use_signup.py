"""The program use_signup, by crates/use_signup/README.md: a web form, in any language, its page with faults, and its service."""
import codecs
import re

from lib import command_line, languages, pages, repository, requests, tables
from lib.described import Case
from lib.faults import ALPHANUMERIC, REQUIRED, between, chars, fault, items, length, prefix
from lib.form import Checked, Closed, ListUnder, Member, Object, OneOf, Optional, OrEmpty, Parsed, Text, Under, read
from lib.json_values import Pairs
from lib.reports import lines, quoted
from lib.requests import Request, bytes_of, field_of, fields_of, path_of, rejected, requests_of, some_coding
from lib.spoiled import LISTED, many, missing, renamed, repeated, some_bytes, some_of, unknown, wrong_type

PHONES = ("+420777123456", "+42077712", "+4207771", "+" + "4" * 16, "420777123456")
PASSWORDS = ("analytical engine", "é" * 128, "a+b=c&d%e f?")
OTHER = fault("matches_field_mismatch", field="password")
REPEATED = Under("password_again", lambda it: None if it["password_again"] == it["password"] else OTHER)
ACCEPTED = Under("terms", lambda it: None if it["terms"] else fault("terms"))
FORM = Object(Closed(
    Member("name", Text(chars(1, 40), like=("Ada Lovelace", "Zoë O'Brien", 'a"b\\\n\x1b'))),
    Member("username", Text(ALPHANUMERIC, chars(3, 25))),
    Checked((Member("password", Text(chars(12, 128), like=PASSWORDS)), Member("password_again", Text(like=PASSWORDS))), REPEATED),
    Member("age", Checked(OrEmpty(Parsed("u8", between(18, 120))), REQUIRED)),
    Optional("phone", OrEmpty(Text(prefix("+"), length(9, 16), like=PHONES))),
    Optional("topics", ListUnder([items(0, 2)], OneOf("news", "events"))),
    Checked(Optional("terms", OneOf("on")), ACCEPTED),
))
LISTS = ("topics",)
# The words of the program's own, by the first subtag of their language.
README = repository.text_of("crates/use_signup/README.md")
WORDS = {tag: said for tag, *said in re.findall(r"^\| `(\w+)` \| ([^|]+) \| ([^|]+) \|$", README, re.MULTILINE)}
NAMES = ("name", "username", "password", "password_again", "age", "phone", "topics", "terms")
KINDS = {"password": "password", "password_again": "password", "phone": "tel"}
# What a browser is told of the fields, whatever the language is.
TOLD = {
    "name": {"autocomplete": "name"},
    "username": {"autocomplete": "username"},
    "password": {"autocomplete": "new-password"},
    "password_again": {"autocomplete": "new-password"},
    "age": {"inputmode": "numeric"},
    "phone": {"autocomplete": "tel"},
}
OPTIONAL = ("phone", "topics")
# The texts of the pages in each language, by their names: of a field its label, of `FIELD?` its hint, and of `FIELD=VALUE` the label of
# a box.
SAID = {it.title: dict(line.split(": ", 1) for line in it.text.splitlines()) for it in tables.cases("sign-up")}
MEDIA = "application/x-www-form-urlencoded"
PAGE = ("content-type", "text/html; charset=utf-8")
POLICY = f"default-src 'none'; style-src '{pages.source()}'; form-action 'self'; frame-ancestors 'none'; base-uri 'none'"
GUARDS = (
    ("content-security-policy", POLICY), ("x-content-type-options", "nosniff"), ("referrer-policy", "same-origin"),
    ("cache-control", "no-store"),
)
REFUSED = {
    400: ("Bad request", "What came is no request."),
    404: ("Not found", "There is no such page."),
    405: ("Method not allowed", "This page has other methods."),
    413: ("Content too large", "The form is too long."),
    415: ("Unsupported media type", "The body is no web form."),
    501: ("Not implemented", "The method or the coding is not known."),
}
METHODS = {"/": "GET, HEAD, POST", "/thanks": "GET, HEAD"}
OTHER_MEDIA = (MEDIA.upper(), f"{MEDIA}; charset=utf-8", f"{MEDIA}x", "multipart/form-data; boundary=x", "text/plain", "")
PATHS = ("/", "/", "/", "/?x=1", "/thanks", "/thanks?", "/thank", "/thanks/", "//", "/form", "form", "x:80", "*", "http://x/thanks")
ASKED = (
    "", "cs", "ar", "ar-EG", "cs-CZ,cs;q=0.9,en;q=0.8", "de", "en;q=0.5, ar", "cs;q=0", "de, *", "AR;q=0.2,CS;q=0.3", "cs,,ar", "x;q=2",
)
SERVE = ("--serve", "--no-date")
TEXTS = [it.decode() for it in LISTED["texts of a web form"]]
# Pieces of bodies as no browser sends them.
PIECES = LISTED["pieces of a web form"]


def large():
    """Forms whose first field, which is known or not, has more than 64 KiB: what stands behind it is read too."""
    rest = b"&username=ada123&password=analytical+engine&password_again=analytical+engine&age=36&terms=on&topics=news&topics=events&city=x"
    for name in b"name", b"note":
        yield Case(("--language", "en"), name + b"=" + b"%C3%A9+" * 20_000 + rest)
    # A page has the first hundred faults.
    yield Case(("--page",), b"a=1&" * 16_000)
    yield Case(("--page",), b"topics=x&" * 7_000)


def some_body(dice):
    """A body, and how it was spoiled."""
    ways = (missing, repeated, wrong_type, unknown, renamed, many)
    value, how = some_of(dice, FORM, lambda dice: dice.choice(TEXTS), ways)
    fields = [(name, text) for name, texts in value for text in (texts if isinstance(texts, list) else [texts])]
    body, cuts = some_bytes(dice, b"&".join(field_of(dice, *field) for field in fields), PIECES)
    return body, how | cuts


def some_request(dice, body):
    """A request, most often with a form."""
    asked, coding = dice.choice(ASKED), some_coding(dice)
    if dice.random() < 0.7:
        return Request(body, media=MEDIA, language=asked, coding=coding)
    method = dice.choice(("POST", "GET", "GET", "HEAD", "PUT", "DELETE", "OPTIONS"))
    media = dice.choice((MEDIA, MEDIA, MEDIA, *OTHER_MEDIA))
    return Request(body if method != "HEAD" else b"", method, dice.choice(PATHS), media, asked, coding)


def some(dice):
    """A form, or one to three requests of one connection."""
    body, ways = some_body(dice)
    if dice.random() < 0.6:
        return Case((*command_line.some_language(dice), *dice.choice(((), ("--page",)))), body, ways)
    bodies = [body, *(some_body(dice)[0] for _ in range(dice.choice((0, 0, 1, 2))))]
    return Case(SERVE, b"".join(bytes_of(some_request(dice, it)) for it in bodies), ways)


def object_of(fields):
    """The object of the fields: a listed name is one member, at the place of the first, with the texts of all."""
    listed = {name: [text for other, text in fields if other == name] for name in LISTS}
    firsts = [at for at, (name, _) in enumerate(fields) if name not in LISTS or name not in [before for before, _ in fields[:at]]]
    return Pairs((fields[at][0], listed.get(fields[at][0], fields[at][1])) for at in firsts)


def form_of(tag):
    """The form on the page in a language."""
    said = SAID[tag]

    def field(name):
        boxes = tuple((key.partition("=")[2], label) for key, label in said.items() if key.startswith(f"{name}="))
        told = {"hint": said.get(f"{name}?", ""), "required": name not in OPTIONAL, **TOLD.get(name, {})}
        return pages.Field(name, said[name], KINDS.get(name, "text"), boxes, **told)

    texts = (said[it] for it in ("title", "faulty_title", "summary", "send"))
    return pages.Form(tag, *texts, tuple(map(field, NAMES)), said["direction"])


def told(tag, form, fields, faults):
    """What a page in the language of a tag tells of these faults, with the labels of the form."""
    language, labels = language_of(tag), {it.name: it.label for it in form.fields}
    found = [(path, it._replace(params={key: labels.get(said, said) for key, said in it.params.items()}).text(language)) for path, it in faults]
    return [*pages.worded(form, fields, found, languages.OF_FIELDS[languages.OTHER_TAGS.get(tag, tag)])]


def page_of(tag, fields, faults):
    """The page with these fields that were sent and these faults, in the language of a tag and with the labels that there are."""
    form = form_of(tag if tag in SAID else "en")
    return pages.page(form, fields, told(tag, form, fields, faults))


def language_of(tag):
    return {**languages.of_tag(tag), "terms": WORDS[tag.split("-")[0]][1]}


def fields_of_page(tag):
    """The fields of a page in a language."""
    return PAGE, ("content-language", tag), ("vary", "accept-language"), *GUARDS


def answer(request):
    """The status, the fields and the body of the answer to a request."""
    tag = languages.asked(request.language, tuple(SAID)) or "en"
    said, fields = SAID[tag], fields_of(request.body)
    if found := rejected(request, METHODS, MEDIA):
        title, text = REFUSED[found[0]]
        return found[0], (PAGE, *found[1]), pages.within(f"<p>{text}</p>\n", "en", "ltr", title).encode()
    if path_of(request) == "/thanks":
        page = pages.within(f"<p>{said['signed_up']}</p>\n", tag, said["direction"], said["thanks"])
        return 200, fields_of_page(tag), page.encode()
    if request.method != "POST":
        return 200, fields_of_page(tag), page_of(tag, [], []).encode()
    _, faults = read(FORM, object_of(fields))
    if not faults:
        return 303, (("location", "/thanks"),), b""
    return 422, fields_of_page(tag), page_of(tag, fields, faults).encode()


def knows(case):
    """Whether the answer to a stored case is described: of the service alone what requests with the fields of the random ones are
    answered, and no form in a file."""
    if "--serve" in case.words:
        return case.words == SERVE and requests.are_requests(case.given)
    return all(word.startswith("-") or before == "--language" for before, word in zip(("", *case.words), case.words))


def body_of(case):
    return [*requests_of(case.given)][-1].body if "--serve" in case.words else case.given


def with_body(case, body):
    return case._replace(given=requests.with_body(case.given, body) if "--serve" in case.words else body)


def wanted(case):
    if "--serve" in case.words:
        return 0, requests.answers(requests_of(case.given), answer), b""
    tag = command_line.asked(case.words).tag
    if tag is None:
        return command_line.no_language("use_signup")
    # As of a file, a byte order mark at the beginning and white space at the end are left out.
    given = case.given.rstrip(b" \t\n\x0c\r").removeprefix(codecs.BOM_UTF8)
    welcome, fields, language = WORDS[tag.split("-")[0]][0], fields_of(given), language_of(tag)
    who, faults = read(FORM, object_of(fields))
    if faults:
        said = page_of(tag, fields, faults) if "--page" in case.words else lines(faults, language)
        return 1, said.encode("utf-8"), b""
    said = [f"{welcome}, {quoted(who['name'])} ({who['age']})", *(f"    {topic}" for topic in who["topics"] or ())]
    return 0, "".join(f"{it}\n" for it in said).encode("utf-8"), b""
