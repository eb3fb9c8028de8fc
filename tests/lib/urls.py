"""What is wrong with a text as an absolute URL: a small reading of the URL Standard, sections 3.5 and 4.4, for the texts that
`tests/random` makes. It has no IPv6 addresses, no port beyond an empty one, and no file URLs."""
import re
import unicodedata
from urllib.parse import unquote

SPECIAL = ("http", "https", "ws", "wss", "ftp")
RELATIVE = "relative URL without a base"
EMPTY = "empty host"
NO_DOMAIN = "invalid international domain name"
NO_ADDRESS = "invalid IPv4 address"
NO_HOST = "invalid domain character"
# The reasons as a code has them.
NAMES = {
    RELATIVE: "RelativeUrlWithoutBase", EMPTY: "EmptyHost", NO_DOMAIN: "IdnaError", NO_ADDRESS: "InvalidIpv4Address",
    NO_HOST: "InvalidDomainCharacter",
}
# The forbidden host code points but for controls, and those that a domain may not have either.
FORBIDDEN = set("\0\t\n\r #/:<>?@[\\]^|")
FORBIDDEN_IN_DOMAINS = FORBIDDEN | {"%", "\x7f"} | {chr(code) for code in range(32)}
# UTS #46, section 4: the characters that are left out of a domain, as a soft hyphen and a byte order mark.
IGNORED = re.compile("[\u00ad\u034f\u180b-\u180d\u180f\u200b\u2060\u2064\ufe00-\ufe0f\ufeff\U000e0100-\U000e01ef]")


class Unsaid(Exception):
    """An input of which this module does not say what is answered."""


def number(part):
    """The number that a part of an IPv4 address writes, or None."""
    base, digits = 10, part
    if part[:2] in ("0x", "0X"):
        base, digits = 16, part[2:]
    elif len(part) > 1 and part[0] == "0":
        base, digits = 8, part[1:]
    pattern = {16: "[0-9a-fA-F]*", 10: "[0-9]+", 8: "[0-7]*"}[base]
    return int(digits or "0", base) if re.fullmatch(pattern, digits) else None


def ends_in_a_number(domain):
    parts = domain.split(".")
    last = parts[-2] if len(parts) > 1 and not parts[-1] else parts[-1]
    return bool(re.fullmatch("[0-9]+|0[xX][0-9a-fA-F]*", last))


def is_address(domain):
    """Whether a domain that ends in a number is an IPv4 address."""
    parts = domain.removesuffix(".").split(".")
    numbers = [number(part) for part in parts]
    if len(parts) > 4 or None in numbers:
        return False
    return all(value < 256 for value in numbers[:-1]) and numbers[-1] < 256 ** (5 - len(parts))


def domain_fault(host):
    """What is wrong with the host of a special URL."""
    domain = unicodedata.normalize("NFKC", IGNORED.sub("", unquote(host))).casefold()
    if not domain:
        return EMPTY
    if FORBIDDEN_IN_DOMAINS & set(domain):
        return NO_DOMAIN
    # RFC 5893, section 2: each label of such a domain begins with a letter of a direction.
    starts = [unicodedata.bidirectional(label[0]) for label in domain.split(".") if label]
    is_bidi = any(unicodedata.bidirectional(letter) in ("R", "AL", "AN") for letter in domain)
    if is_bidi and not all(start in ("L", "R", "AL") for start in starts):
        return NO_DOMAIN
    return NO_ADDRESS if ends_in_a_number(domain) and not is_address(domain) else None


def url_fault(text):
    """What is wrong with a text as an absolute URL, or None."""
    text = re.sub("[\t\n\r]", "", text.strip("".join(map(chr, range(33)))))
    found = re.match("([A-Za-z][A-Za-z0-9+.-]*):", text)
    if not found:
        return RELATIVE
    is_special, rest = found[1].lower() in SPECIAL, text[found.end() :]
    if is_special:
        rest = rest.lstrip("/\\")
    elif rest.startswith("//"):
        rest = rest[2:]
    else:
        return None
    authority = re.match(r"[^/\\?#]*" if is_special else "[^/?#]*", rest)[0]
    _, has_user, host = authority.rpartition("@")
    host, has_port, port = host.partition(":")
    if port:
        raise Unsaid(f"a port: {text!r}")
    if is_special:
        return domain_fault(host)
    if not host and (has_user or has_port):
        return EMPTY
    return NO_HOST if FORBIDDEN & set(host) else None
