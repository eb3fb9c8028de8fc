"""Requests of HTTP and their answers, as bytes one behind the other, and which of them every service rejects. The fields of a web form and
of a query are those that `urllib.parse` reads."""
import re
import typing
import urllib.parse

PHRASES = {
    200: "OK", 204: "No Content", 303: "See Other", 400: "Bad Request", 404: "Not Found", 405: "Method Not Allowed",
    413: "Content Too Large", 414: "URI Too Long", 415: "Unsupported Media Type", 422: "Unprocessable Entity",
    431: "Request Header Fields Too Large", 501: "Not Implemented", 505: "HTTP Version Not Supported",
}
# Which method alone may name a host and a port, which are no path, or `*` (RFC 9112, section 3.2).
TARGETS = {"": "CONNECT", "*": "OPTIONS"}
FIELDS = ("Content-Type", "Accept-Language", "Content-Encoding")
CODINGS = ("gzip", "identity", "Identity", "identity, br")


class Request(typing.NamedTuple):
    body: bytes = b""
    method: str = "POST"
    target: str = "/"
    media: str = ""
    language: str = ""
    coding: str = ""


def path_of(request):
    """The path of a target: none of `host:port`, and `*` of `*`."""
    target = request.target
    if "://" in target:
        target = "/" + target.partition("://")[2].partition("/")[2]
    elif target != "*" and not target.startswith("/"):
        target = ""
    return target.partition("?")[0]


def fields_of(body):
    """The names and texts of a body. Each byte is read as a character of Latin 1, so what is no UTF-8 is decoded at the end."""
    pairs = urllib.parse.parse_qsl(body.decode("latin-1"), keep_blank_values=True, encoding="latin-1", separator="&")
    return [tuple(part.encode("latin-1").decode("utf-8", "replace") for part in pair) for pair in pairs]


def byte_of(dice, byte, special):
    """A byte of a name or a text: as it is where it may be, or by its number."""
    if byte == 0x20 and dice.random() < 0.8:
        return b"+"
    plain = byte > 0x20 and byte not in special
    return bytes([byte]) if plain and dice.random() < 0.95 else b"%" + f"{byte:02{dice.choice('xX')}}".encode()


def field_of(dice, name, text, special=b"%&+="):
    """A field, with these bytes by their numbers."""
    name, text = (b"".join(byte_of(dice, it, special) for it in part.encode("utf-8")) for part in (name, text))
    return name + (b"" if name and not text and dice.random() < 0.3 else b"=") + text


def rejected(request, methods, media):
    """The status of the answer to a request that a service rejects before it reads the body, and the fields that say what would do; or
    nothing. It has these methods by its paths, and its bodies are of this type. No service undoes a coding."""
    path = path_of(request)
    if path not in methods:
        return (501 if request.method == TARGETS[path] else 400) if path in TARGETS else 404, ()
    if request.method not in methods[path].split(", "):
        return 405, [("allow", methods[path])]
    if request.method == "POST" and not re.fullmatch(f"{re.escape(media)}([; \t].*)?", request.media, re.IGNORECASE):
        return 415, [("accept", media)]
    is_plain = request.method != "POST" or request.coding.lower() in ("", "identity")
    return None if is_plain else (415, [("accept-encoding", "identity")])


def some_coding(dice):
    """The coding of a body, most often none."""
    return dice.choice(CODINGS) if dice.random() < 0.1 else ""


def bytes_of(request):
    named = zip(FIELDS, (request.media, request.language, request.coding))
    fields = [("Host", "x"), ("Content-Length", len(request.body)), *((name, value) for name, value in named if value)]
    head = "".join(f"{name}: {value}\r\n" for name, value in fields)
    return f"{request.method} {request.target} HTTP/1.1\r\n{head}\r\n".encode() + request.body


def requests_of(given):
    """The requests of these bytes. Raises where one has another field, or is none."""
    while given:
        head, _, rest = given.partition(b"\r\n\r\n")
        first, *lines = head.decode().split("\r\n")
        fields = dict(line.split(": ", 1) for line in lines)
        method, target, version = first.split(" ")
        length, host = int(fields.pop("Content-Length", "0")), fields.pop("Host", "")
        body, given, named = rest[:length], rest[length:], [fields.pop(name, "") for name in FIELDS]
        if fields or (version, host) != ("HTTP/1.1", "x") or len(body) < length:
            raise ValueError(head)
        yield Request(body, method, target, *named)


def are_requests(given):
    """Whether these bytes are requests of this form."""
    try:
        list(requests_of(given))
    except ValueError:
        return False
    return True


def with_body(given, body):
    """The bytes of requests with another body in the last one."""
    *first, last = requests_of(given)
    return b"".join(map(bytes_of, (*first, last._replace(body=body))))


def written(request, status, fields, body):
    """An answer without a date, as a pattern. Its body is bytes, or a pattern of them; that to a HEAD is left out."""
    lines = [f"HTTP/1.1 {status} {PHRASES[status]}", *(f"{name}: {value}" for name, value in fields)]
    head, is_known = re.escape("".join(f"{it}\r\n" for it in lines).encode()), isinstance(body, bytes)
    if status != 204 and (fields or request.method != "HEAD"):
        head += b"content-length: %s\r\n" % (b"%d" % len(body) if is_known else rb"\d+")
    shown = re.escape(body) if is_known else body.pattern
    return head + b"\r\n" + (b"" if request.method == "HEAD" else shown)


def answers(requests, answer):
    """What a connection with these requests is answered, as a pattern. `answer` gives the status, the fields and the body of one."""
    return re.compile(b"".join(written(it, *answer(it)) for it in requests), re.DOTALL)
