"""check [LANGUAGE]: checks the body on standard input, writes the problem details of what is wrong to standard output, and ends
with the status of the check. Where memory runs out it ends with 3, and where anything else fails with 10.

Of a library that takes a schema it is check SCHEMA [LANGUAGE], with the file of one. The details of a schema that is none are
written too, and it ends with 10.
"""
import sys

MEMORY, FAILED = 3, 10


def main() -> int:
    import order_check

    checker = order_check
    # begin: of a schema
    with open(sys.argv.pop(1), "rb") as file:
        schema = file.read()
    if wrong := order_check.problem(schema):
        sys.stdout.buffer.write(wrong.details)
        return FAILED
    checker = order_check.Validator(schema)
    # end: of a schema
    found = checker.problem(sys.stdin.buffer.read(), language="".join(sys.argv[1:2]))
    sys.stdout.buffer.write(found.details if found else b"")
    sys.stdout.buffer.flush()
    return found.status if found else 0


def status() -> int:
    """The status of `main`. An exception is not left to Python, which would end with 1: that is the status of faults."""
    try:
        return main()
    except MemoryError:
        return MEMORY
    except Exception as error:
        print(f"check: {error}", file=sys.stderr)
        return FAILED


if __name__ == "__main__":
    sys.exit(status())
