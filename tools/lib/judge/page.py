"""The page of a judgement: one file with the summary, the pictures, and the table with a filter."""

import re
from html import escape

from picture import lanes as lanes_drawing
from picture import stream as stream_drawing
from judge.findings import COLUMNS, FIRST_LINE
from judge.zoom import Around
from reading.lane_bits import Lane
from reading.words import Span

MARK = "<!-- made by judge of interlaken -->"
MOST_ROWS, MOST_PICTURES = 5000, 12
# Lanes of so many bytes together are drawn from their first bit to their last.
DRAWN_WHOLE = 1 << 20
STYLE = """body{font:14px sans-serif;margin:1.5em;color:#17202a}pre{background:#f4f6f7;padding:.8em;overflow:auto}svg{max-width:100%}
table{border-collapse:collapse;font-size:13px}th,td{border:1px solid #d5d8dc;padding:2px 7px;text-align:left;vertical-align:top}th{background:#eaf2f8;position:sticky;top:0}
tr.follows td{color:#566573}tr:target td{background:#fcf3cf}.bar{margin:.6em 0}input,select{font:inherit;padding:2px 4px}figure{margin:1em 0;overflow:auto}figcaption{margin:.2em 0}"""
SCRIPT = """const text = document.getElementById("filter"), kind = document.getElementById("what"), roots = document.getElementById("roots"), count = document.getElementById("count");
const rows = Array.from(document.querySelectorAll("#table tbody tr"));
function apply() {
  const words = text.value.toLowerCase().split(/\\s+/).filter(Boolean);
  let shown = 0;
  for (const row of rows) {
    const said = row.textContent.toLowerCase();
    const fits = words.every(word => said.includes(word)) && (!kind.value || row.dataset.what === kind.value) && !(roots.checked && row.className === "follows");
    row.hidden = !fits;
    shown += fits;
  }
  count.textContent = shown + " of " + rows.length + " rows";
}
for (const part of [text, kind, roots]) part.addEventListener("input", apply);
const asked = new URLSearchParams(location.hash.slice(1));
if (asked.has("filter")) text.value = asked.get("filter");
if (asked.has("what")) kind.value = asked.get("what");
if (asked.has("roots")) roots.checked = true;
apply();"""


def is_own_page(folder, name):
    """Whether a file is a page that judge made."""
    return folder.has(name) and MARK.encode() in folder.beginning(name, 200)


def page_text(judged, name, shown, most):
    """The page, with the findings that are shown."""
    rows = shown[:most or MOST_ROWS]
    title = "%s: %s" % (name, "%d findings" % len(judged.findings) if judged.findings else "no finding")
    parts = ["<!DOCTYPE html>", MARK, '<html lang="en"><head><meta charset="utf-8"><title>%s</title><style>%s</style></head><body>' % (escape(title), STYLE),
             "<h1>%s</h1>" % escape(title), '<pre id="summary">%s</pre>' % escape("\n".join(judged.lines))]
    parts += list(overview(judged)) + list(around(judged, rows)) + list(table(rows, len(judged.findings))) + ["<script>%s</script></body></html>" % SCRIPT, ""]
    return "\n".join(parts)


def figure(picture, caption):
    """A picture of its own, in which the page's text is not."""
    return "<figure>%s<figcaption>%s</figcaption></figure>" % ("\n".join(picture.lines + ["</svg>"]), escape(caption))


# ---- the pictures

def overview(judged):
    """The lanes and the stream as wholes, but for what is quiet in them."""
    run = judged.run
    if sum(lane.count for lane in run.lanes) > 8 * DRAWN_WHOLE:
        return
    lanes = [Lane(number, bytes(lane.data), run.plan) for number, lane in enumerate(run.lanes)]
    for lane, events in zip(lanes, run.events):
        for bit, event in events:
            if event != "lock":
                lane.events.setdefault(bit, []).append(event)
    yield "<h2>Lanes and stream</h2>"
    yield figure(lanes_drawing.Drawing(lanes, run.plan, False).draw(), "The lanes; below each what inspect tells of its words")
    if run.stream.count:
        came = {channel: [record.data for record in records] for channel, records in zip(run.plan.channels, run.came)}
        yield figure(stream_drawing.Drawing(run.stream, run.plan, spans_of(run), {}, came, faults_of(run)).draw(), "The words that the lanes carry, by the numbers of the column `word`")


def spans_of(run):
    """The fault spans by words."""
    ends = [[None if group == "-" else run.places.slot_at(int(group), int(index)) for group, index in (row[:2], row[2:4])] for row in run.spans]
    return [Span(*pair, row[4], True, [None, None]) for pair, row in zip(ends, run.spans)]


def faults_of(run):
    return {word: [rule if channel is None else "%s of channel %d" % (rule, channel) for rule, channel in faults] for word, faults in run.faults.items()}


def around(judged, rows):
    """The words around the first findings that follow from no other, each kind once before others come again."""
    own = [finding for finding in rows if not finding.cause and finding.bit is not None]
    chosen = first_of_each(own)[:MOST_PICTURES]
    if not chosen:
        return
    drawn = Around(judged.run, judged.findings, judged.skews)
    yield "<h2>Around the findings</h2>"
    for finding in sorted(chosen, key=lambda finding: finding.place):
        line = finding.place + FIRST_LINE
        told = ["%s %s" % (name, value) for name, value in (("expected", finding.expected), ("found", finding.found)) if value not in (None, "")]
        told = ", ".join(told + [finding.note] * bool(finding.note))
        yield figure(drawn.picture(finding), "Line %d: %s at bit %d of lane %d%s" % (line, finding.what, finding.bit, finding.lane, ": " + told if told else ""))
    if len(own) > len(chosen):
        yield "<p>%d findings that follow from no other are not drawn.</p>" % (len(own) - len(chosen))


def first_of_each(findings):
    """Findings, the first of each kind before the second of any."""
    turns, ranked = {}, []
    for finding in findings:
        turns[finding.what] = turns.get(finding.what, -1) + 1
        ranked.append((turns[finding.what], finding.place, finding))
    return [finding for _, _, finding in sorted(ranked, key=lambda one: one[:2])]


# ---- the table

def table(rows, count):
    yield "<h2>Table</h2>"
    kinds = "".join('<option>%s</option>' % kind for kind in sorted({finding.what for finding in rows}))
    yield ('<div class="bar">filter <input id="filter" placeholder="words of a row"> what <select id="what"><option></option>%s</select> '
           '<label><input type="checkbox" id="roots"> without what follows from others</label> <span id="count"></span></div>' % kinds)
    if len(rows) < count:
        yield "<p>The first %d of %d rows.</p>" % (len(rows), count)
    yield '<table id="table"><thead><tr><th>line</th>%s</tr></thead><tbody>' % "".join("<th>%s</th>" % column for column in COLUMNS)
    for finding in rows:
        line = finding.place + FIRST_LINE
        cells = "".join("<td>%s</td>" % linked(escape(str(field))) for field in finding.fields())
        yield '<tr id="line-%d" data-what="%s"%s><td>%d</td>%s</tr>' % (line, finding.what, ' class="follows"' if finding.cause else "", line, cells)
    yield "</tbody></table>"


def linked(text):
    """The names of other rows as links to them."""
    return re.sub(r"follows from line (\d+)", r'follows from <a href="#line-\1">line \1</a>', text)
