#!/usr/bin/env bash
# Renders samples/overtaking_call.svg with librsvg, which knows no variables in style sheets, and sees that it shows dark lines
# and letters on a light page, and no black field. With a program, sees that it draws just that picture of the sample's case;
# that it marks the calls that never ended, and no others; and that its page of a case of 5,000 records is well formed, has each
# of them once in the picture and once in the table, that each name in it is the only one, each link leads to one, and nothing
# is asked of elsewhere.
# usage: tests/picture.sh [PROGRAM]      (it wants Debian's librsvg2-bin and imagemagick)
set -uo pipefail
top=$(realpath "$(dirname "$0")/..")
sample=$top/samples/overtaking_call.svg
for tool in rsvg-convert convert; do
    command -v "$tool" >/dev/null || { echo "nothing tested: missing $tool (apt-get install librsvg2-bin imagemagick)"; exit 2; }
done
failed=0

# of a thousand pixels, how many are darker than grey
dark=$(rsvg-convert "$sample" | convert png:- -colorspace Gray -threshold 50% -format '%[fx:round(1000*(1-mean))]' info:)
if [ "${dark:-1000}" -lt 5 ] || [ "${dark:-1000}" -gt 100 ]; then
    echo "failed: $dark of a thousand pixels are dark, and 5 to 100 must be"
    failed=1
fi
if [ -n "${1:-}" ]; then
    program=$(realpath "$1")
    room=$(mktemp -d) || exit 2
    trap 'rm -rf "$room"' EXIT
    (cd "$top/samples" && "$program" --quiet draw overtaking_call.json --out "$room/drawn.svg") >/dev/null
    cmp "$room/drawn.svg" "$sample" || failed=1
    python3 - "$program" "$room" <<'END' || failed=1
import collections, html.parser, json, os, re, struct, subprocess, sys
program, room = sys.argv[1:]
os.chdir(room)
ROUNDS = 833                # each of 6 records, and 2 records more


def frame(*words):
    return struct.pack("<2I", 0, len(words)) + b"".join(struct.pack("<Q", word) for word in words)


def message(tag, data, pointers):
    return frame(1 << 32 | 1 << 48, tag, len(data) << 32 | pointers << 48, *data, *[0] * pointers)


def passed(kind, call, bytes_sent, connection=0):
    return struct.pack("<BIQII", kind, connection, call, 0, len(bytes_sent)) + bytes_sent


def make(call):
    return struct.pack("<BQQQH", 5, call, 1, 0x1234, 2)


first, second = b"", b""
for call in range(1, ROUNDS + 1):    # a Bootstrap, its Return with an exception, and the Finish
    for number, own, bytes_sent in [(call, True, message(8, [0], 1)), (0, False, message(3, [1 << 48], 1)), (0, True, message(4, [0], 0))]:
        first += passed(10 if own else 11, number, bytes_sent)
        second += passed(11 if own else 10, number, bytes_sent)
for vat, log in [(1, first), (2, second)]:
    log += struct.pack("<BQQ", 1, 1, 1)    # an object, so that there are 5,000 records
    open(f"{vat}.log", "wb").write(b"VATLOG02" + struct.pack("<I", vat) + log)
json.dump({"logs": ["1.log", "2.log"], "links": [[0, 1, 2]]}, open("case.json", "w"))
ran = subprocess.run([program, "--quiet", "draw", "case.json", "--out", "page.html", "--html"], stdout=subprocess.PIPE)
assert ran.stdout == b"yes vats 2 records 5000 delivered 0 under_way 0\n", ran.stdout


class Page(html.parser.HTMLParser):
    def __init__(self):
        super().__init__()
        self.open, self.names, self.links = [], collections.Counter(), collections.Counter()

    def handle_starttag(self, tag, attributes):
        self.handle_startendtag(tag, attributes)
        if tag != "meta":
            self.open.append(tag)

    def handle_startendtag(self, tag, attributes):
        assert tag not in ("script", "img", "link", "iframe", "object", "use", "image"), tag
        for name, value in attributes:
            assert name not in ("src", "style") and not name.startswith("on"), name
            if name == "id":
                self.names[value] += 1
            if name == "href":
                self.links[value] += 1

    def handle_endtag(self, tag):
        assert self.open.pop() == tag, tag


page, text = Page(), open("page.html", encoding="utf-8").read()
page.feed(text)
page.close()
assert not page.open, page.open
assert set(page.names.values()) == {1} and set(page.links.values()) == {1}
rows = {f"{of}-{vat}-{number}" for of in ("row", "record") for vat in (1, 2) for number in range(2500)}
assert {name for name in page.names if name != "tip"} == rows
assert {link.removeprefix("#") for link in page.links} == rows
assert "http" not in text.replace("http://www.w3.org/2000/svg", "") and "@import" not in text
print(f"passed: a page of {len(rows) // 2} records, {len(text)} bytes")

assert "never ended" not in text
own = [struct.pack("<BQQ", 1, 1, 1)]            # an object; calls that are made, delivered, and answered or not
own += [make(1), struct.pack("<BQQ", 7, 1, 1), struct.pack("<BQI", 8, 1, 0)]
own += [make(2), struct.pack("<BQ", 9, 2), make(3), struct.pack("<BQQ", 12, 3, 2), make(4), struct.pack("<BQQ", 7, 4, 1)]
own += [passed(10, 5, message(8, [0], 1)), passed(11, 0, message(3, [1 << 48], 1)), passed(10, 0, message(4, [0], 0))]
own += [passed(10, 6, message(8, [0], 1)), passed(10, 7, message(8, [1], 1)), passed(11, 0, message(3, [1 | 1 << 48], 1), 1)]
own += [make(8), passed(10, 8, message(8, [2], 1)), passed(10, 0, message(3, [2 | 1 << 48], 1))]
for vat, log in [(1, b"".join(own)), (2, b"")]:
    open(f"{vat}.log", "wb").write(b"VATLOG02" + struct.pack("<I", vat) + log)
json.dump({"logs": ["1.log", "2.log"], "links": [[0, 1, 2], [1, 1, 2]]}, open("case.json", "w"))
for page in [[], ["--html"]]:
    subprocess.run([program, "--quiet", "draw", "case.json", "--out", "drawn", *page], stdout=subprocess.DEVNULL)
    text = open("drawn", encoding="utf-8").read()
    marked = [int(number) for number in re.findall(">([0-9]+) [^<]*, never ended</text>", text)]
    assert sorted(marked) == [8, 13, 14, 17] and text.count("never ended") == 4, (page, marked)
print("passed: the calls that never ended")
END
fi
[ "$failed" = 0 ] && echo "passed: $dark of a thousand pixels are dark"
exit "$failed"
