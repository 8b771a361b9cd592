"""Well-formed UTF-8 by table 3-7 of the Unicode Standard, written apart from our code so that the two can be compared.

As a program it holds what it says of texts against what the Rust says in `both cases texts`, given on standard input.
"""

import re
import sys

# A row of the table each.
ROWS = (rb"[\x00-\x7f]", rb"[\xc2-\xdf][\x80-\xbf]", rb"\xe0[\xa0-\xbf][\x80-\xbf]", rb"[\xe1-\xec][\x80-\xbf]{2}",
        rb"\xed[\x80-\x9f][\x80-\xbf]", rb"[\xee-\xef][\x80-\xbf]{2}", rb"\xf0[\x90-\xbf][\x80-\xbf]{2}",
        rb"[\xf1-\xf3][\x80-\xbf]{3}", rb"\xf4[\x80-\x8f][\x80-\xbf]{2}")
TEXT = re.compile(b"(?:" + b"|".join(ROWS) + b")*")


def is_text(data):
    return TEXT.fullmatch(data) is not None


def main():
    count = 0
    for line in sys.stdin:
        case, answer = line.rstrip("\n").split("\t")
        told = "text" if is_text(bytes.fromhex(case)) else "no text"
        if told != answer:
            sys.exit(f"{case}: {told}, by the Rust {answer}")
        count += 1
    if count == 0:
        sys.exit("no texts given")
    print(f"what utf8.py says of {count} texts is what the Rust says")


if __name__ == "__main__":
    main()
