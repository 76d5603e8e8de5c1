"""A strict reader of the text format in which figures are scraped, with the conventions of names that Prometheus' own
`promtool check metrics` asks for: what it takes, Prometheus takes too. Where there is a promtool, that looks at each page
as well."""
import itertools
import math
import re
import shutil
import subprocess
from decimal import Decimal

from reading import Fault, need

NAME = r"[a-z_][a-z0-9_]*"
LABEL = rf'{NAME}="(?:[^"\\\n]|\\["\\n])*"'
HELP = re.compile(rf"# HELP ({NAME}) (\S[^\\\n]*)")
TYPE = re.compile(rf"# TYPE ({NAME}) (gauge|counter|histogram)")
BOUND = re.compile(r'le="(\+Inf|[0-9]+\.[0-9]+)"')
SAMPLE = re.compile(rf"({NAME})(?:\{{({LABEL}(?:,{LABEL})*)\}})? (\+Inf|[0-9]+(?:\.[0-9]+)?)")
# Units of which a name may have one, as its last word in front of _total, and words that it may not have: other units, types.
UNITS = ("seconds", "bytes")
WORDS = """nanoseconds microseconds milliseconds minutes hours days weeks ns us ms sec s m h d bits kilobytes megabytes gigabytes
    b kb mb gb kib mib gib percent counter gauge histogram summary""".split()
ENDS = {"counter": ("_total",), "gauge": (), "histogram": ()}


def need_name(family, kind):
    """What holds of the name of a family, by its type."""
    for end in ("_total", "_bucket", "_sum", "_count"):
        need(family.endswith(end) == (end in ENDS[kind]), f"{family} is a {kind}, and has the wrong end")
    *words, last = family.removesuffix("_total").split("_")
    need(not {*words, last} & {*WORDS}, f"{family} has no unit of Prometheus, or its type in its name")
    need(not {*words} & {*UNITS}, f"{family} has its unit inside")


def need_family(family, kind, rows):
    """What holds of the samples behind the lines of a family, by its type."""
    need_name(family, kind)
    need(kind != "counter" or all(isinstance(value, int) for _, _, value in rows), f"{family} counts no whole number")
    need(kind == "gauge" or math.inf not in [value for _, _, value in rows], f"{family} has no end, and is a {kind}")
    names = [f"{family}_{it}" for it in ("bucket", "sum", "count")] if kind == "histogram" else [family]
    labels = {tuple(re.findall(rf"({NAME})=", labels or "")) for _, labels, _ in rows}
    for name, _, _ in rows:
        need(name in names, f"{name} stands behind the type of {family}")
    if kind == "histogram":
        need(rows, f"{family} has no sample")
        need_histograms(family, rows)
    else:
        need(len(labels) <= 1, f"samples of {family} have different labels")
        need(not {"le", "quantile"} & {it for found in labels for it in found}, f"{family} has a label of another type")


def labels_apart(family, name, labels):
    """The labels of a sample, but for the bound of a bucket."""
    if name != f"{family}_bucket" or not labels:
        return labels
    *others, last = re.findall(LABEL, labels)
    return (",".join(others) or None) if BOUND.fullmatch(last) else labels


def need_histograms(family, rows):
    """There is one for each choice of its labels, and none comes in parts."""
    found = [(of, list(group)) for of, group in itertools.groupby(rows, lambda it: labels_apart(family, *it[:2]))]
    need(len({of for of, _ in found}) == len(found), f"a histogram of {family} comes in parts")
    for of, group in found:
        need_histogram(family, of, group)


def need_histogram(family, of, rows):
    """It has buckets by rising bound whose counts don't fall, the last of them +Inf with the number of all, and then
    this sum and this count, with the same labels."""
    need([it[:2] for it in rows[-2:]] == [(f"{family}_sum", of), (f"{family}_count", of)],
         f"{family} doesn't end with its sum and its count")
    buckets, number = rows[:-2], rows[-1][2]
    ends = [re.findall(LABEL, labels or "")[-1:] for _, labels, _ in buckets]
    found = [name == f"{family}_bucket" and BOUND.fullmatch("".join(end)) for (name, _, _), end in zip(buckets, ends)]
    need(found and all(found), f"{family} has no bucket, or one without a bound")
    *bounds, last = [it.group(1) for it in found]
    need(last == "+Inf" and "+Inf" not in bounds, f"the last bucket of {family}, and no other, is that of +Inf")
    bounds, counts = list(map(Decimal, bounds)), [count for _, _, count in buckets]
    need(bounds == sorted(set(bounds)), f"the bounds of {family} don't rise")
    need(counts == sorted(counts), f"the counts of {family} fall")
    need(all(isinstance(it, int) for it in (*counts, number)), f"{family} counts no whole number")
    need(buckets[-1][2] == number, f"the last bucket of {family} isn't its count")


def number_of(text):
    return math.inf if text == "+Inf" else Decimal(text) if "." in text else int(text)


def samples_of(text):
    """The samples of a page, each by its name and the text of its labels. Every sample stands behind the two lines of its
    family, no family and no sample comes twice, and the last line is `# EOF`."""
    need(text.endswith("\n"), "the page ends inside a line")
    lines = text[:-1].split("\n")
    need(lines[-1] == "# EOF", f"the last line is {lines[-1]!r}")
    kinds, rows, samples, helped = {}, {}, {}, None
    for line in lines[:-1]:
        told, found = TYPE.fullmatch(line), HELP.fullmatch(line)
        need(bool(told) == (helped is not None), f"no type behind the line of its help: {line!r}")
        if found:
            helped = found.group(1)
            continue
        if told:
            family = told.group(1)
            need(family == helped, f"the help of {helped}, and the type of {family}")
            need(family not in kinds, f"the type of {family} comes twice")
            kinds[family], rows[family], helped = told.group(2), [], None
            continue
        found = SAMPLE.fullmatch(line)
        need(found, f"no line of the format: {line!r}")
        name, labels, value = found.groups()
        need(kinds, f"{name} stands before any type")
        need((name, labels) not in samples, f"a sample comes twice: {line!r}")
        samples[name, labels] = number_of(value)
        rows[family].append((name, labels, samples[name, labels]))
    need(helped is None, f"a help without a type: {helped}")
    for family, kind in kinds.items():
        need_family(family, kind, rows[family])
    return samples


def need_promtool(text):
    """What promtool says of the page, where there is one: nothing."""
    if tool := shutil.which("promtool"):
        ran = subprocess.run([tool, "check", "metrics"], input=text, capture_output=True, text=True, timeout=60)
        need((ran.returncode, ran.stdout + ran.stderr) == (0, ""), f"promtool: {ran.stdout}{ran.stderr}")


def families_of(text):
    """The names of a page's samples, without labels."""
    return {name for name, _ in samples_of(text)}


# Each with a line of help in front of each type.
WRONG = (
    "", "# EOF", "\n# EOF\n", "a 1\n# EOF\n", "# TYPE a gauge\na 1\n", "# TYPE a gauge\na 1 \n# EOF\n",
    "# TYPE a gauge\na  1\n# EOF\n", "# TYPE a gauge\nb 1\n# EOF\n", "# TYPE a gauge\na 1\na 1\n# EOF\n",
    "# TYPE a gauge\n# TYPE a gauge\na 1\n# EOF\n", '# TYPE a gauge\na{b="c} 1\n# EOF\n',
    "# TYPE a gauge\na{b=c} 1\n# EOF\n", "# TYPE a gauge\na x\n# EOF\n", "# TYPE a\na 1\n# EOF\n",
    "# TYPE a gauge\na 1\n\n# EOF\n", "# TYPE 1a gauge\n1a 1\n# EOF\n", "# TYPE a gauge\na 1\n# EOF\na 2\n",
    '# TYPE a gauge\na{b="\\x"} 1\n# EOF\n', "# TYPE a gauge\na{} 1\n# EOF\n", "# TYPE a gauge\r\na 1\r\n# EOF\n",
    "# TYPE a counter\na 1\n# EOF\n", "# TYPE a_total counter\na 1\n# EOF\n", "# TYPE a gauge\na_sum 1\n# EOF\n",
    "# TYPE a_total summary\na_total 1\n# EOF\n", "# TYPE a gauge\na Inf\n# EOF\n", "# TYPE a gauge\na +inf\n# EOF\n",
    "# TYPE a gauge\na -Inf\n# EOF\n", "# TYPE a gauge\na NaN\n# EOF\n", "# TYPE a gauge\na +Inf1\n# EOF\n",
    "# TYPE a gauge\na +1\n# EOF\n", "# TYPE a gauge\na -1\n# EOF\n", "# TYPE a gauge\na .5\n# EOF\n", "# TYPE a gauge\na 1.\n# EOF\n",
    "# TYPE a_total counter\na_total 1.5\n# EOF\n", "# TYPE a_total gauge\na_total 1\n# EOF\n", "# TYPE A gauge\nA 1\n# EOF\n",
    "# TYPE a_count gauge\na_count 1\n# EOF\n", "# TYPE a_ms gauge\na_ms 1\n# EOF\n", '# TYPE a gauge\na{le="1.0"} 1\n# EOF\n',
    "# TYPE a_milliseconds gauge\na_milliseconds 1\n# EOF\n", "# TYPE seconds_of_a gauge\nseconds_of_a 1\n# EOF\n",
    "# TYPE bytes_of_a_total counter\nbytes_of_a_total 1\n# EOF\n", "# TYPE gauge_a gauge\ngauge_a 1\n# EOF\n",
    '# TYPE a gauge\na{b="c"} 1\na{d="c"} 1\n# EOF\n',
    "# TYPE a gauge\na +Inf\na +Inf\n# EOF\n", "# TYPE a_total counter\na_total +Inf\n# EOF\n",
)

# As they stand.
WRONG_HELP = (
    "# TYPE a gauge\na 1\n# EOF\n", "# HELP a\n# TYPE a gauge\na 1\n# EOF\n", "# HELP b x\n# TYPE a gauge\na 1\n# EOF\n",
    "# HELP a x\na 1\n# EOF\n", "# HELP a x\n# HELP a x\n# TYPE a gauge\na 1\n# EOF\n", "# HELP a x\n# EOF\n",
    "# TYPE a gauge\n# HELP a x\na 1\n# EOF\n", "# HELP a x\\\n# TYPE a gauge\na 1\n# EOF\n",
)

# A histogram as it should be, and what makes another of it that is wrong.
HISTOGRAM = """# TYPE a histogram
a_bucket{le="0.1"} 2
a_bucket{le="1.0"} 3
a_bucket{le="+Inf"} 4
a_sum 9.5
a_count 4
# EOF
"""
LABELLED = """# TYPE a histogram
a_bucket{b="c",le="+Inf"} 1
a_sum{b="c"} 0.5
a_count{b="c"} 1
a_bucket{b="d",le="+Inf"} 0
a_sum{b="d"} 0
a_count{b="d"} 0
# EOF
"""
WRONG_LABELS = (
    ('a_count{b="c"} 1\n', ""), ('a_sum{b="d"} 0\n', 'a_sum{b="c"} 0\n'), ('b="d",le="+Inf"', 'b="c",le="+Inf"'),
    ('b="d",le="+Inf"', 'le="+Inf",b="d"'), ('a_sum{b="c"} 0.5\na_count{b="c"} 1\n', ""), ('a_count{b="d"} 0', 'a_count{b="e"} 0'),
)
WRONG_ROWS = (
    ('a_bucket{le="0.1"} 2\n', 'a_bucket{le="1.0"} 2\n'), ('a_bucket{le="0.1"} 2\n', 'a_bucket{le="1.5"} 2\n'),
    ('a_bucket{le="0.1"} 2\n', 'a_bucket{le="+Inf"} 2\n'), ('a_bucket{le="0.1"} 2\n', 'a_bucket{le="x"} 2\n'),
    ('a_bucket{le="0.1"} 2\n', "a_bucket 2\n"), ('a_bucket{le="0.1"} 2\n', 'a_bucket{of="1"} 2\n'),
    ('a_bucket{le="0.1"} 2\n', 'a_sum{le="0.1"} 2\n'), ('a_bucket{le="0.1"} 2\n', "a 2\n"),
    ('a_bucket{le="0.1"} 2\n', 'b_bucket{le="0.1"} 2\n'),
    ('a_bucket{le="0.1"} 2\n', 'a_bucket{le="0.1"} 4\n'), ('a_bucket{le="+Inf"} 4\n', 'a_bucket{le="+Inf"} 2\n'),
    ('a_bucket{le="+Inf"} 4\n', 'a_bucket{le="+Inf"} 5\n'), ('a_bucket{le="+Inf"} 4\n', ""),
    ('a_bucket{le="+Inf"} 4\n', 'a_bucket{le="2.0"} 4\n'), ("a_sum 9.5\n", ""), ("a_sum 9.5\n", 'a_sum{b="c"} 9.5\n'),
    ("a_sum 9.5\n", "a_sum 9.5\na_sum 9.5\n"), ("a_sum 9.5\n", "a_sum +Inf\n"), ("a_count 4\n", ""),
    ("a_count 4\n", "a_count 90\n"),
    (HISTOGRAM, "# TYPE a histogram\n# EOF\n"), (HISTOGRAM, "# TYPE a histogram\na_sum 0\na_count 0\n# EOF\n"),
    ("a histogram\n", "a gauge\n"), ("a histogram\n", "a_bucket gauge\n"),
)


# Pages and what they have.
RIGHT = {
    '# TYPE a gauge\na{b="c",d="e"} 1\na{b="c",d="f"} 2\n# EOF\n': {("a", 'b="c",d="e"'): 1, ("a", 'b="c",d="f"'): 2},
    '# TYPE a gauge\na{b="\\\\\\"\\n"} +Inf\n# EOF\n': {("a", 'b="\\\\\\"\\n"'): math.inf},
    "# TYPE a_seconds gauge\na_seconds 0.250\n# EOF\n": {("a_seconds", None): Decimal("0.25")},
    "# TYPE a_bytes_total counter\na_bytes_total 3\n# EOF\n": {("a_bytes_total", None): 3},
    LABELLED: {("a_bucket", 'b="c",le="+Inf"'): 1, ("a_sum", 'b="c"'): Decimal("0.5"), ("a_count", 'b="c"'): 1,
               ("a_bucket", 'b="d",le="+Inf"'): 0, ("a_sum", 'b="d"'): 0, ("a_count", 'b="d"'): 0},
    HISTOGRAM: {("a_bucket", 'le="0.1"'): 2, ("a_bucket", 'le="1.0"'): 3, ("a_bucket", 'le="+Inf"'): 4,
                ("a_sum", None): Decimal("9.5"), ("a_count", None): 4},
}


def with_help(text):
    return re.sub(r"^# TYPE (\S+)", r"# HELP \1 x\n\g<0>", text, flags=re.M)


def refuses_wrong_pages():
    wrong = map(with_help, (*WRONG, *(HISTOGRAM.replace(old, new) for old, new in WRONG_ROWS),
                             *(LABELLED.replace(old, new) for old, new in WRONG_LABELS)))
    for text in (*wrong, *WRONG_HELP):
        try:
            samples_of(text)
        except Fault:
            continue
        raise Fault(f"the reader takes {text!r}")
    for text, samples in RIGHT.items():
        need(samples_of(with_help(text)) == samples, f"the reader reads another page than {text!r}")
