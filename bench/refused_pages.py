#!/usr/bin/env python3
"""Runs the built program html2text_program on 20 pages with each of its requests for memory refused in turn.

    bench/refused_pages.py PROGRAM [WORD..]

With words, only the pages whose name has one of them. Each page is rendered at 1, 20 and 72 columns. A run in which a
request was refused must answer as the run in which none is (status, standard output and standard error), or write
nothing, say that memory ran out, and end with status 1 (the page), 2 (the words) or 3 (the table of references). A line
is of a page: its bytes; the requests of its runs at the three widths, each of which was refused; how many of these
runs ended with each status after an allocation failure; how many answered all the same; and how many did anything else,
each of which is reported. `refuse.c` is built by `cc` and preloaded.
"""

import concurrent.futures
import os
import subprocess
import sys
import tempfile

HERE = os.path.dirname(os.path.abspath(__file__))
WIDTHS = 1, 20, 72
MEMORY = b"html2text: out of memory\n"
REFERENCES = '{"&not":{"codepoints":[172]},"&notin;":{"codepoints":[8713]},"&acE;":{"codepoints":[8766,819]}}'


def paragraphs(count):
    """Paragraphs with marks and links, as they are written where all goes well."""
    for number in range(count):
        yield f"<p>One <em>two</em> three <a href='/page/{number}'>four five</a> <strong>six</strong>, seven."


def spans(count):
    """A table with spans of both kinds, a head, and rows that are too short."""
    yield "<table><caption>out</caption><thead><tr><th>a<th colspan=2>wide head<tbody>"
    for number in range(count):
        yield f"<tr><td rowspan={number % 3 + 1}>{number} long<td colspan={number % 4}>b<br>c<tr><td>d e f"
    yield "<tfoot><tr><td>out</table>"


def long_spans(count):
    """Spans of ten and more digits."""
    yield "<table>"
    for number in range(count):
        digits = ("1000000000", "99999999999999999999", "18446744073709551615", "-1")[number % 4]
        yield f"<tr><td rowspan={digits}>{number}<td colspan={digits}>x<td>y z"
    yield "</table>"


def tables_within(count):
    """Tables within one another, with a text and two cells."""
    yield "<table><tr><td>a<td>b " * count
    yield "c" + "</table>" * count


def lists(count):
    """Lists within lists, with numbers of one more digit at their end, and items without a list."""
    for number in range(count):
        yield f"<ul><li>a b<ol start={9 + number}><li>c<li>d e<ol start=99998><li>f<li>g</ol></ol>"
        yield "<li></ul><li>alone<dl><dt>t<dd>d e f</dl>"


def quotes(count):
    """Quotes and divisions within one another, and headings."""
    for number in range(count):
        yield f"<h{number % 6 + 1}>Title</h{number % 6 + 1}><blockquote><div>a b<blockquote>c d e f</div>g"
        yield "</blockquote></blockquote>"


def links(count):
    """Links with long targets, within words and within one another, and without one."""
    for number in range(count):
        yield f"w<a href='http://www.example.com/{number}'>ord <b>b</b></a>s <a href=x>in <a href=y>out</a></a>"
        yield "<a>z</a> "


def marks(count):
    """Each element that is marked, within others."""
    for _ in range(count):
        yield "<em>a <strong>b <s>c d <code>e</code></s></strong></em> <sup>12</sup><sup>x <i>y</i></sup>"
        yield "<del>f</del><ins>g</ins> "


def fragments(count):
    """Elements that have an identifier or a name, empty ones too, at the ends of blocks and in cells."""
    for number in range(count):
        yield f"<p id=p{number}>a<span id=s{number}></span><a name=n{number}>b</a><div id=d{number}></div>"
        yield f"<table id=t{number}><tr id=r{number}><td id=c{number}>x</table><ul><li id=l{number}>y</ul>"


def preserved(count):
    """Preformatted text with tabs, long lines, line ends of each kind, and marks."""
    for _ in range(count):
        yield "<pre>\na\tbc\r\n  d <b>e\tf</b>\rgggggggggggggggggggggggggg\n\n<code>h</code> \u00a0</pre>i"
        yield "<textarea>\nj\tk</textarea>"


def images(count):
    """Images with and without titles and sources, in links, and drawings with a title."""
    for number in range(count):
        yield f"<img src='a/{number}.png' alt='a title'> <img src=b.png> <img alt=c><a href=d><img src=e.png alt=f></a>"
        yield "<svg><title>g h</title><path d='x'/></svg><svg><desc>i</desc></svg>"


def misnested(count):
    """Marks that end in another order than they began, over blocks, and four alike."""
    for _ in range(count):
        yield "<b>1<i>2<p>3</b>4</i>5</p><a>x<div>y<a>z</div></a><u><u><u><u>q</p>r</u><font a=1><nobr>s<nobr>t"
        yield "</font></em></br></p></h1>"


def fostered(count):
    """What no table may hold, cells and rows without a table, and ends that fit nothing."""
    for _ in range(count):
        yield "a<td>b</td><tr>c</tr><tbody>d<table>x<b>y<tr>z<td>e<p>f</b></tbody></table>g<table><td>h<col><caption>i"
        yield "<select><option>j<optgroup><option>k<tr><td>l</table></div></table>"


def unclosed(count):
    """Elements that are left open, each within the last."""
    for number in range(count):
        yield f"<div class=c{number}><p>a<span title='b c' lang=x><em>d<ul><li>e<button>f<object>"


def references(count):
    """References by name and by number, whole, cut, unknown and of no character."""
    for number in range(count):
        yield f"&lt;a&amp &notit; &notin; &acE;&#x{number:x}; &#128; &#0; &#xD800; &#99999999999; &unknown; &#; & "
        yield f"<a href='?a&lt=b&amp;c&not'>x</a>"


def never_ended(count):
    """A title that never ends, after text."""
    yield "<p>a<title>"
    yield "word <b>word</b> &amp; <!-- --> </titl> " * count


def raw(count):
    """Scripts, styles, comments, sections, documents' types, and a comment that never ends."""
    for number in range(count):
        yield f"<!doctype html><script>a<!--<script>b</script>--></script><style>p{{}}</style><!-- c{number} -->d"
        yield "<noscript><p>e</noscript><xmp>f<b></xmp><![CDATA[g]]><?h?><iframe>i</iframe></j k>"
    yield "<!-- l -- m"


def foreign(count):
    """Drawings and formulas, what leads out of them, templates, and attributes of the page's own elements."""
    for number in range(count):
        yield f"<html lang=x{number}><body class=y{number}><math><mi>a<mtext><b>b</b></mtext><annotation-xml "
        yield "encoding='text/html'><p>c</p></annotation-xml></math><svg><foreignObject><p>d</p></foreignObject>"
        yield "<![CDATA[e]]><p>f</svg><template><tr><td>g</template><ruby>h<rt>i</ruby>"


def characters(count):
    """Wide characters, marks above letters, spaces of no width, bytes that are not UTF-8, and U+FEFF."""
    yield b"\xef\xbb\xbf\xef\xbb\xbf"
    for number in range(count):
        yield "漢字 e\u0301e\u0336 a\u200bb \U0001f600\u00ad\u3000" + "<s>漢x</s>"
        yield bytes([0x20, 0x80 + number % 128, 0xF0, 0x9F, 0x98, 0x61, 0xED, 0xA0, 0x80, 0x00, 0xC3])


# of each page: its name, its maker, a count, and the words of its command line
PAGES = [
    ("paragraphs with marks and links", paragraphs, 36, []),
    ("a table with spans", spans, 36, []),
    ("spans of ten and more digits", long_spans, 36, []),
    ("tables within one another", tables_within, 12, ["--no-decorate"]),
    ("lists", lists, 20, []),
    ("quotes and headings", quotes, 30, []),
    ("links with their targets", links, 36, ["--no-decorate", "--footnotes"]),
    ("marked text", marks, 36, []),
    ("marked text, rich", marks, 36, ["--rich"]),
    ("elements with identifiers", fragments, 24, ["--rich"]),
    ("preformatted text", preserved, 36, []),
    ("images and drawings", images, 30, ["--rich", "--footnotes"]),
    ("misnested marks", misnested, 18, []),
    ("what no table may hold", fostered, 18, []),
    ("elements left open", unclosed, 20, ["--no-decorate"]),
    ("references", references, 36, ["--references", "references.json", "page"]),
    ("a title that never ends", never_ended, 120, []),
    ("raw text, comments and sections", raw, 60, []),
    ("foreign elements and templates", foreign, 24, ["--rich"]),
    ("characters, and bytes that are none", characters, 60, []),
]


def written(maker, count):
    """The bytes of a page."""
    return b"".join(part if isinstance(part, bytes) else part.encode() for part in maker(count))


def built_library(folder):
    """Builds refuse.c into a folder."""
    source, library = os.path.join(HERE, "refuse.c"), os.path.join(folder, "refuse.so")
    subprocess.run(["cc", "-shared", "-fPIC", "-o", library, source, "-ldl"], check=True)


class Runs:
    """Runs of a program on a page, in a folder of their own."""

    def __init__(self, room, words, page=os.devnull):
        self.room, self.words, self.page = room, words, page
        self.out, self.err, self.counted = (os.path.join(room, name) for name in ("out", "err", "count"))

    def run(self, number):
        """Status, standard output and standard error where the request of that number is refused, and all requests."""
        env = {"REFUSE": str(number), "REFUSE_COUNT": self.counted, "LD_PRELOAD": os.path.join(self.room, "refuse.so")}
        flags = os.O_WRONLY | os.O_CREAT | os.O_TRUNC
        files = [
            (os.POSIX_SPAWN_OPEN, 0, self.page, os.O_RDONLY, 0),
            (os.POSIX_SPAWN_OPEN, 1, self.out, flags, 0o600),
            (os.POSIX_SPAWN_OPEN, 2, self.err, flags, 0o600),
        ]
        child = os.posix_spawn(self.words[0], self.words, env, file_actions=files)
        status = os.waitstatus_to_exitcode(os.waitpid(child, 0)[1])
        with open(self.out, "rb") as out, open(self.err, "rb") as err:
            return status, out.read(), err.read()

    def requests(self):
        """How many requests the last run made."""
        with open(self.counted, encoding="ascii") as counted:
            return int(counted.read())


def room_for(folder, program, page, words, width):
    """A folder with the page, the table and the program of a run, and its words."""
    room = tempfile.mkdtemp(dir=folder)
    for name, content in ("page", page), ("references.json", REFERENCES.encode()):
        with open(os.path.join(room, name), "wb") as file:
            file.write(content)
    os.symlink(os.path.join(folder, "refuse.so"), os.path.join(room, "refuse.so"))
    named = [os.path.join(room, word) if word in ("references.json", "page") else word for word in words]
    return Runs(room, [program, "--width", str(width), *named], os.path.join(room, "page"))


def kind_of(answer, whole):
    """What a run came to: a status after an allocation failure, an answer all the same, or anything else."""
    if answer == whole:
        return "answered"
    status, out, err = answer
    return status if status in (1, 2, 3) and out == b"" and err == MEMORY else "other"


def refuse_each(runs, name):
    """Refuses each request of a run in turn: how many there are, and how many runs came to each kind."""
    whole = runs.run(0)
    requests = runs.requests()
    kinds = {1: 0, 2: 0, 3: 0, "answered": 0, "other": 0}
    for number in range(1, requests + 1):
        answer = runs.run(number)
        kind = kind_of(answer, whole)
        kinds[kind] += 1
        if kind == "other":
            print(f"{name}, {runs.words[1:]}, request {number}: status {answer[0]}, {answer[2][:200]!r}", flush=True)
    return requests, kinds, whole


def measure(folder, program, kind):
    """Refuses each request of a page at each width, and gives its line, and the sums."""
    name, maker, count, words = kind
    page = written(maker, count)
    asked, sums, ends = [], {1: 0, 2: 0, 3: 0, "answered": 0, "other": 0}, []
    for width in WIDTHS:
        requests, kinds, whole = refuse_each(room_for(folder, program, page, words, width), f"{name}, {width} columns")
        asked.append(requests)
        ends.append(f"{whole[1].count(10):,}" if whole[0] == 0 else "-")
        for key, value in kinds.items():
            sums[key] += value
    shown = f"`{' '.join(words)}`" if words else ""
    figures = [f"{len(page):,}", " ".join(ends), " ".join(f"{n:,}" for n in asked)]
    figures += [f"{sums[key]:,}" for key in (1, 2, 3, "answered", "other")]
    return f"| {name} | {shown} | {' | '.join(figures)} |", asked, sums


def main():
    if len(sys.argv) < 2:
        sys.exit(__doc__)
    program, wanted = os.path.abspath(sys.argv[1]), sys.argv[2:]
    kinds = [kind for kind in PAGES if not wanted or any(word in kind[0] for word in wanted)]
    total, sums = 0, {}
    with tempfile.TemporaryDirectory() as folder:
        built_library(folder)
        print("| page | words | bytes | lines | requests | 1 | 2 | 3 | answered | else |\n" + "|---" * 10 + "|")
        with concurrent.futures.ThreadPoolExecutor(2) as pool:
            for line, asked, kinds_of in pool.map(lambda kind: measure(folder, program, kind), kinds):
                print(line, flush=True)
                total += sum(asked)
                for key, value in kinds_of.items():
                    sums[key] = sums.get(key, 0) + value
    figures = [f"{sums[key]:,}" for key in (1, 2, 3, "answered", "other")]
    print(f"| all | | | | {total:,} | {' | '.join(figures)} |")
    sys.exit(1 if sums["other"] else 0)


if __name__ == "__main__":
    main()
