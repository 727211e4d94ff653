#!/usr/bin/env bash
# The page of `swistopal report --html` in a real browser: its numbers and its plots, as headless Chromium has them, against `report --json`; that
# it loads nothing, prints on A4 and can be drawn. Then each number of each page is changed once, which has to be noticed.
# Run after the tool is built; a first argument or SWISTOPAL names another one. Where there is no chromium, Debian's package is installed.
# Prints what differs, exit 1 then.
set -euo pipefail
cd "$(dirname "$0")/.."
tool="${1:-${SWISTOPAL:-target/cli/release/swistopal}}"
[ -x "$tool" ] || { echo "report page: no $tool; 'cargo test' or 'make cli' makes it" >&2; exit 1; }
folder=$(mktemp -d)
trap 'rm -rf "$folder"' EXIT

install_chromium() {
    apt-get update -qq && DEBIAN_FRONTEND=noninteractive apt-get install -qq -y --no-install-recommends chromium
}
# A mirror may be away for a moment.
for pause in 5 20 60 0; do
    command -v chromium > /dev/null && break
    echo "report page: chromium is not there and is installed"
    install_chromium > "$folder/installed" 2>&1 || sleep "$pause"
done
command -v chromium > /dev/null || { cat "$folder/installed" >&2; exit 1; }

# browser PAGE OPTION..: what Chromium prints of a page; what it says beside that is shown only if it fails
browser() {
    timeout 120 chromium --headless --no-sandbox --disable-gpu --disable-dev-shm-usage --hide-scrollbars --no-first-run \
        --user-data-dir="$folder/profile" "${@:2}" "file://$1" 2> "$folder/said" || { cat "$folder/said" >&2; return 1; }
}

# page NAME STORE STATUS OPTION..: a report as JSON and as a page, and what the browser makes of that
page() {
    local name=$1 store=$2 status=$3 found=0
    "$tool" report "$store" "${@:4}" --json --html "$folder/$name.html" > "$folder/$name.json" 2> "$folder/said" || found=$?
    [ "$found" = "$status" ] || { echo "report page: $name: exit status $found, not $status" >&2; cat "$folder/said" >&2; exit 1; }
    browser "$folder/$name.html" --dump-dom > "$folder/$name.dom"
    browser "$folder/$name.html" --no-pdf-header-footer --print-to-pdf="$folder/$name.pdf" > /dev/null
    browser "$folder/$name.html" --window-size=1000,1400 --screenshot="$folder/$name.png" > /dev/null
}

"$tool" demo "$folder/store" > /dev/null 2>&1
page whole "$folder/store" 0
page hour "$folder/store" 0 --from-time 2026-03-02T06:00:00Z --to-time 2026-03-02T06:04:00.000Z
printf 'SORTER_TRIM 0\nNOWHERE 3\n' > "$folder/queues"
page named "$folder/store" 0 --queues "$folder/queues"
page none "$folder/store" 0 --to-time 1
cp -r "$folder/store" "$folder/damaged"
printf 'X' | dd of="$folder/damaged/commitlog/00000000000000065536" bs=1 seek=4 conv=notrunc status=none
page damaged "$folder/damaged" 1

python3 - "$folder" whole hour named none damaged <<'PYTHON'
import json, os, re, struct, sys
from html.parser import HTMLParser

VOID = {"meta", "line"}
PLOTS = {"records": "records", "bytes": "body_bytes"}


class Page(HTMLParser):
    """The elements of a page: name, attributes, text, children."""

    def __init__(self, text):
        super().__init__()
        self.root = {"name": "", "attributes": {}, "text": "", "children": []}
        self.open = [self.root]
        self.feed(text)

    def handle_starttag(self, name, attributes):
        element = {"name": name, "attributes": dict(attributes), "text": "", "children": []}
        self.open[-1]["children"].append(element)
        if name not in VOID:
            self.open.append(element)

    def handle_endtag(self, name):
        if name not in VOID:
            while self.open.pop()["name"] != name:
                pass

    def handle_data(self, text):
        for element in self.open:
            element["text"] += text


def below(element):
    for child in element["children"]:
        yield child
        yield from below(child)


def find(element, name=None, **attributes):
    wanted = {key.replace("_", "-"): value for key, value in attributes.items()}
    return [e for e in below(element)
            if name in (None, e["name"]) and all(k in e["attributes"] and v in (True, e["attributes"][k]) for k, v in wanted.items())]


def number(text):
    digits = text.replace(",", "")
    return int(digits) if digits.isdigit() else text


def row(element):
    """The numbers of a table's row by their names, and its first cell."""
    cells = {e["attributes"]["data-figure"]: number(e["text"]) for e in find(element, "td", data_figure=True)}
    shares = [e["text"] for e in find(element, "td") if e["text"].endswith(" %")]
    return {"": find(element, "th")[0]["text"], **cells, **({"share": shares[0]} if shares else {})}


def share(records, whole):
    thousandths = (records * 2000 // max(whole, 1) + 1) // 2
    return f"{thousandths // 10}.{thousandths % 10} %"


def numbers_of(root):
    """What a page says, apart from its plots."""
    table = lambda name: find(root, "table", data_table=name)[0]
    reading = {e["attributes"]["data-figure"]: e["text"] for e in find(table("reading"), "td", data_figure=True)}
    return {
        "figures": {e["attributes"]["data-figure"]: number(e["text"]) for e in find(root, "dd", data_figure=True)},
        "types": [row(e) for e in find(table("types"), "tr", data_type=True)],
        "queues": [row(e) for e in find(table("queues"), "tr", data_queue=True)],
        "unlisted": [row(e) for e in find(table("queues"), "tr", data_unlisted=True)],
        "hours": [(e["attributes"]["data-hour"], row(e)) for e in find(table("hours"), "tr", data_hour=True)],
        "reading": {name: text for name, text in reading.items() if name != "sentence"},
    }


def expected_of(told):
    """The same of a report's JSON."""
    whole = told["records"]
    records = lambda first, count, **more: {"": first, **more, "records": count, "share": share(count, whole)}
    names = ("records", "body_bytes", "items")
    time = lambda name: "-" if told[name] is None else f"{told[name + '_rfc3339']} ({told[name]})"
    limit = lambda name, none: f"no limit ({none})" if told[name] == none else time(name)
    return {
        "figures": {name: told[name] for name in ("records", "body_bytes", "items", "smallest", "largest", "blanks")},
        "types": [records(name, count) for name, count in told["types"].items()],
        "queues": [records(queue["topic"], queue["records"], queue=queue["queue"]) for queue in told["queues"]],
        "unlisted": [records("queues that are not listed", told["unlisted"])],
        "hours": [(str(hour["hour"]), {"": hour["hour_rfc3339"].replace(".000", ""), **{name: hour[name] for name in names}})
                  for hour in told["hours"]],
        "reading": {
            "from_time": limit("from_time", 0), "to_time": limit("to_time", 2**48 - 1), "first_time": time("first_time"), "last_time": time("last_time"),
            **{name: "-" if told[name] is None else str(told[name]) for name in ("first_record", "last_record", "start", "end", "stop")},
        },
    }


def plots_of(root):
    """Each plot's numbers, as its rectangles' titles have them, and how long the rectangles are for them."""
    plots = {}
    for svg in find(root, "svg", role="img"):
        title, about = svg["attributes"]["aria-labelledby"].split()
        assert find(svg, "title", id=title)[0]["text"] and find(svg, "desc", id=about)[0]["text"]
        rectangles = find(svg, "rect")
        side = "height" if title.split("-")[0] in PLOTS else "width"
        lengths = [float(e["attributes"][side]) for e in rectangles]
        titles = [find(e, "title")[0]["text"] for e in rectangles]
        values = [number(re.search(r": ([\d,]+)(?= record| byte| \()", text)[1]) for text in titles]
        plots[title.split("-")[0]] = (values, lengths)
    return plots


def faults_of(name, root, told):
    found, expected = numbers_of(root), expected_of(told)
    faults = [f"{name}: {part} are {found[part]}, not {expected[part]}" for part in expected if found[part] != expected[part]]
    wanted = {plot: [hour[figure] for hour in told["hours"] if hour[figure]] for plot, figure in PLOTS.items() if told["hours"]}
    wanted["types"] = list(told["types"].values())
    wanted["queues"] = sorted((queue["records"] for queue in told["queues"]), reverse=True)
    plots = plots_of(root)
    if {plot: values for plot, (values, _) in plots.items()} != wanted:
        faults.append(f"{name}: the plots are {plots}, not {wanted}")
    for plot, (values, lengths) in plots.items():
        most, longest = max(values), max(lengths)
        if any(abs(length - longest * value / max(most, 1)) > 1 for value, length in zip(values, lengths)):
            faults.append(f"{name}: the rectangles of {plot} are {lengths} for {values}")
    return faults


def loads(name, text):
    return [f"{name}: the page has {word}" for word in ("http:", "https:", "src=", "href=", "url(", "@import", "<script", "<link") if word in text]


def prints(name, path):
    boxes = re.findall(rb"/MediaBox\s*\[\s*([\d.]+) ([\d.]+) ([\d.]+) ([\d.]+)\s*\]", open(path, "rb").read())
    sizes = [[float(side) for side in box] for box in boxes]
    a4 = lambda box: box[:2] == [0, 0] and abs(box[2] - 595.28) < 1 and abs(box[3] - 841.89) < 1
    return [] if sizes and all(map(a4, sizes)) else [f"{name}: printed, its pages are {sizes}, not A4"]


def is_drawn(name, path):
    head = open(path, "rb").read(24)
    size = struct.unpack(">II", head[16:]) if head.startswith(b"\x89PNG\r\n\x1a\n") else None
    return [] if size == (1000, 1400) and os.path.getsize(path) > 10_000 else [f"{name}: drawn, it is {size}"]


def changed(root, name, told):
    """Each number of a page, once with another one in its place: what is not noticed."""
    faults, tried = [], 0
    for element in below(root):
        if "data-figure" in element["attributes"] and element["attributes"]["data-figure"] != "sentence":
            old, element["text"] = element["text"], element["text"][:-1] + ("8" if element["text"].endswith("7") else "7")
            tried += 1
            if not faults_of(name, root, told):
                faults.append(f"{name}: {element['text']} for {old} is not noticed")
            element["text"] = old
    return faults, tried


folder, names = sys.argv[1], sys.argv[2:]
faults, read, tried = [], 0, 0
for name in names:
    place = lambda kind: os.path.join(folder, f"{name}.{kind}")
    told, text = json.load(open(place("json"))), open(place("dom"), encoding="utf-8").read()
    root = Page(text).root
    faults += faults_of(name, root, told) + loads(name, text) + loads(name, open(place("html"), encoding="utf-8").read())
    faults += prints(name, place("pdf")) + is_drawn(name, place("png"))
    more, count = changed(root, name, told)
    faults, tried, read = faults + more, tried + count, read + told["records"]
assert read > 1000, f"only {read} records in all pages"
print(*faults, sep="\n", end="\n" if faults else "")
if faults:
    sys.exit(1)
print(f"report page: {len(names)} pages in Chromium say what their JSON says; each of {tried} numbers, changed, is noticed; nothing is loaded; A4")
PYTHON
