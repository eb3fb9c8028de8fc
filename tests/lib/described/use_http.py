"""The program use_http, by crates/use_http/README.md: orders in JSON over HTTP, and problem details in the language that is asked for.
The order is that of `example_order` too."""
import json
import re

from lib import languages, repository, requests
from lib.described import Case
from lib.faults import between, chars, items, prefix
from lib.form import TEXTS, Closed, ListUnder, Member, Object, Optional, Parsed, Text, Whole, WithDefault, read
from lib.json_values import NoJson, Pairs, of_bytes, printed
from lib.reports import details
from lib.requests import PHRASES, Request, are_requests, bytes_of, field_of, fields_of, path_of, rejected, requests_of, some_coding
from lib.spoiled import missing, renamed, repeated, some_json, some_of, unknown, wrong_type

ORDER = Object(Closed(
    Member("customer", Text(chars(1, 80), like=("Ada", "Žofie", "\x00", '"\\/'))),
    Member("lines", ListUnder([items(1, 50)], Object(Closed(
        Member("code", Text(prefix("P"), like=("P22", "P\x00"))),
        Member("count", Whole("u32", between(1, 99))),
    )))),
))
LISTING = Object(Closed(
    Optional("customer", Text(chars(1, 80), like=("Ada", "Žofie", "\x00", "a b&c=d%e+f", "#?/"))),
    WithDefault("page", Parsed("u32", between(1, 10_000)), 1),
    WithDefault("limit", Parsed("u32", between(1, 100)), 20),
))
# What is written by its number in a query, beside white space.
ESCAPED = b'%&+="#<>\\^`{|}' + bytes(range(0x7F, 0x100))
SERVE = ("--no-date",)
METHODS = {"/orders": "GET, HEAD, POST", "/health": "GET, HEAD", "/openapi.json": "GET, HEAD"}
ORDERS = Request(target="/orders", media="application/json")
DESCRIPTION = "tools/tests/library/order.openapi.json"
MEDIA = ("", "text/plain", "application/json; charset=utf-8", "application/jsonp", "APPLICATION/JSON")
PATHS = (
    "/orders", "/orders?x=1", "/health", "/openapi.json", "/openapi.json?x", "/openapi", "/", "/orders/1", "orders", "x:80", "*",
    "http://x/orders", "http://x", "/orders/", "//orders", "/orders//", "/./orders", "/x/../orders", "/%6frders", "/orders%2F", "/orders%00",
    "/orders?", "/orders??", "/orders?&&", "/orders?page", "/orders?page=2&page=2", "/orders?page=%32&limit=+7", "/orders?customer=%FF",
    "http://x/orders?limit=9", "/health?page=0",
)
RANGES = (
    "en", "cs", "cs-CZ", "CS", "csb", "de-AT-1901", "zh-Hant-TW", "zh-CN", "pt", "ja", "ar-EG", "tlh", "*", "e", "", "fr--ca",
    "hi-abcdefghi",
)
WEIGHTS = ("", "", ";q=0.5", ";q=0", "; q=1.000", " ;Q=0.1", ";q=0.501", ";q=1.001", ";q=", ";level=1")
PROBLEM = ("content-type", "application/problem+json")
JSON = ("content-type", "application/json")
TITLE = "the input has faults"


def refused(status, offers=()):
    """The answer in which no order is judged: problem details of the type `about:blank` (RFC 9457, section 4.2.1)."""
    return status, (PROBLEM, *offers), printed({"type": "about:blank", "title": PHRASES[status], "status": status})


def no_json(title, why):
    """Problem details of what is no JSON, as a pattern."""
    text = printed({"title": title, "status": 400, "detail": "WHY", "errors": []}).decode()
    return re.compile(re.escape(text).replace("WHY", str(why)).encode("utf-8"))


def resolved(tree, pointer):
    """What a pointer leads to (RFC 6901, section 4)."""
    for part in (it.replace("~1", "/").replace("~0", "~") for it in pointer.split("/")[1:]):
        tree = tree[int(part) if isinstance(tree, list) else part]
    return tree


def judged(body, tag):
    """The answer to the body of an order in the language of a tag."""
    spoken = (PROBLEM, ("content-language", tag), ("vary", "accept-language"))
    try:
        _, faults = read(ORDER, of_bytes(body))
    except NoJson as why:
        return 400, spoken, no_json("the body is not read as JSON", languages.no_json(str(why), languages.said_in(tag)))
    if not faults:
        return 204, (), b""
    for it in details(faults, languages.of_tag(tag)):
        above = it["pointer"].rpartition("/")[0]
        resolved(json.loads(body.decode("utf-8-sig")), above if it["code"] == "member_missing" else it["pointer"])
    return faulty(faults, tag)


def faulty(faults, tag):
    """The answer that tells these faults in the language of a tag."""
    spoken = (PROBLEM, ("content-language", tag), ("vary", "accept-language"))
    return 422, spoken, printed({"title": TITLE, "status": 422, "errors": details(faults, languages.of_tag(tag))})


def listed(query, tag):
    """The answer to this query."""
    asked, faults = read(Object(Member("query", LISTING)), Pairs([("query", Pairs(fields_of(query.encode())))]))
    if faults:
        return faulty(faults, tag)
    return 200, (JSON,), printed({"page": asked["query"]["page"], "orders": []})


def answer(request):
    """The status, the fields and the body of the answer to a request."""
    if found := rejected(request, METHODS, ORDERS.media):
        return refused(*found)
    tag = languages.asked(request.language) or "en"
    if request.method == "POST":
        return judged(request.body, tag)
    if path_of(request) == "/orders":
        return listed(request.target.partition("?")[2], tag)
    if path_of(request) == "/health":
        return 200, (), b""
    return 200, (JSON,), repository.text_of(DESCRIPTION).encode()


# ---- random requests

def some_field(dice):
    """A field `Accept-Language`, with some faults of its grammar."""
    elements = [dice.choice(RANGES) + dice.choice(WEIGHTS) for _ in range(dice.choice((0, 1, 1, 2, 3)))]
    return dice.choice((",", ", ", " ,\t")).join(elements).strip()


def some_query(dice):
    """A request with a query, and how that was spoiled."""
    value, ways = some_of(dice, LISTING, lambda dice: dice.choice(TEXTS), (missing, repeated, wrong_type, unknown, renamed))
    fields = [field_of(dice, name, text, ESCAPED) for name, text in value if isinstance(text, str)]
    method, target = dice.choice(("GET", "GET", "HEAD")), f"/orders?{dice.choice(('&', '&', '&&')).join(it.decode('latin-1') for it in fields)}"
    return Request(method=method, target=target, language=some_field(dice)), ways


def some_request(dice):
    """A request, and how its body or its query was spoiled."""
    if dice.random() < 0.2:
        return some_query(dice)
    body, ways = some_json(dice, ORDER)
    if dice.random() < 0.9:
        return ORDERS._replace(body=body, language=some_field(dice), coding=some_coding(dice)), ways
    method = dice.choice(("POST", "GET", "HEAD", "PUT", "DELETE", "OPTIONS", "get", "Post"))
    return Request(body, method, dice.choice(PATHS), dice.choice(MEDIA), coding=some_coding(dice)), {"no order"}


def some(dice):
    """One to twenty requests of one connection."""
    made = [some_request(dice) for _ in range(dice.choice((1, 1, 1, 1, 2, 3, 20)))]
    return Case(SERVE, b"".join(bytes_of(it) for it, _ in made), frozenset().union(*(ways for _, ways in made)))


def knows(case):
    """Whether the answer to a stored case is described: that to requests with the fields of the random ones, and no long target."""
    return case.words == SERVE and len(case.given) < 65_536 and are_requests(case.given)


def body_of(case):
    return [*requests_of(case.given)][-1].body


def with_body(case, body):
    return case._replace(given=requests.with_body(case.given, body))


def wanted(case):
    return 0, requests.answers(requests_of(case.given), answer), b""
