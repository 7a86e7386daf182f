"""A page with the timeline of a board: a column for each field, a row for each line and each vector. One file of HTML without scripts, fonts or
anything else that a browser would have to fetch. What stands in it is board_words' reading of the states."""
from html import escape

import board_words
from script_words import byte

MOST = 2000  # columns: the last ones of a longer run

STYLE = """\
:root { color-scheme: light dark; --ink: #1b2430; --paper: #fff; --faint: #667183; --rule: #d9dee6; --band: #f3f5f8;
  --line: #2f5f9e; --flight: #cfe0f5; --requested: #f7d774; --service: #9ed6ae; --lost: #c62f2f; --on-lost: #fff; --here: #fff4cc; }
@media (prefers-color-scheme: dark) { :root { --ink: #e4e8ee; --paper: #14181e; --faint: #97a2b2; --rule: #323a46; --band: #1c222b;
  --line: #7fb2f0; --flight: #24446c; --requested: #7d6413; --service: #1f6b3a; --lost: #e2574c; --on-lost: #14181e; --here: #3c3514; } }
* { box-sizing: border-box; }
body { margin: 1.5rem; font: 15px/1.45 system-ui, sans-serif; color: var(--ink); background: var(--paper); }
h1 { font-size: 1.35rem; margin: 0 0 .3rem; }
h2 { font-size: 1.1rem; margin: 1.8rem 0 .5rem; }
p { margin: .3rem 0; max-width: 60rem; }
code { font: .92em/1.4 ui-monospace, monospace; }
a { color: inherit; }
.faint { color: var(--faint); }
.legend { display: flex; flex-wrap: wrap; gap: .35rem 1.3rem; list-style: none; margin: .5rem 0; padding: 0; }
.legend li { display: flex; align-items: center; gap: .45rem; }
.legend li:first-child { color: var(--faint); min-width: 4.5rem; }
.legend b { width: 2.1rem; height: 1.5rem; border: 1px solid var(--rule); flex: none; }
.scroll { overflow: auto; width: fit-content; max-width: 100%; max-height: 88vh; border: 1px solid var(--rule); border-radius: 6px; margin-top: .8rem; }
table { border-collapse: separate; border-spacing: 0; }
th, td { padding: 0; border-right: 1px solid var(--rule); border-bottom: 1px solid var(--rule); font-weight: normal; }
td { min-width: 2.1rem; height: 1.75rem; text-align: center; }
td, .legend b { font: 600 .8rem/1.6rem ui-monospace, monospace; text-align: center; }
thead th { position: sticky; top: 0; z-index: 2; background: var(--paper); vertical-align: bottom; }
thead a { display: block; padding: .4rem 0; text-decoration: none; writing-mode: vertical-rl; transform: rotate(180deg); margin: 0 auto;
  max-height: 17rem; overflow: hidden; white-space: nowrap; font: .8rem/1.3 ui-monospace, monospace; }
thead a:hover, thead a:focus { background: var(--here); }
thead span { display: block; text-align: center; color: var(--faint); font-size: .75rem; }
.name { position: sticky; left: 0; z-index: 1; background: var(--paper); text-align: left; padding: 0 .7rem; white-space: nowrap; }
thead .name { z-index: 3; padding-bottom: .4rem; }
.group th, .group td { background: var(--band); height: 1.5rem; font-size: .8rem; color: var(--faint); }
.number { font-weight: 400; color: var(--faint); }
.changed { color: var(--ink); font-weight: 700; }
.up { box-shadow: inset 0 4px 0 var(--line); }
.down { box-shadow: inset 0 -2px 0 var(--faint); }
.flight { background: var(--flight); }
.requested { background: var(--requested); }
.service { background: var(--service); }
.both { background: linear-gradient(135deg, var(--service) 50%, var(--requested) 50%); }
.lost { background: var(--lost); color: var(--on-lost); }
ol { padding: 0; margin: 0; list-style: none; }
ol li { padding: .35rem .6rem; border-bottom: 1px solid var(--rule); scroll-margin-top: 1rem; }
ol li:target { background: var(--here); }
ol p { margin: 0; }
ol .stands { padding-left: 2.2rem; }
.no { display: inline-block; min-width: 2.2rem; color: var(--faint); }
"""

# What a cell shows in each group of rows: its letters and its look.
LEGENDS = (
    ("a line", (
        ("", "up", "up"),
        ("", "down", "down"),
        ("M", "", "its entry is masked"),
        ("F", "flight", "in flight: sent, and not ended"),
        ("FA", "flight", "in flight, and asked for once more"),
        ("F!", "lost", "in flight, but lost: its vector is neither requested nor in service as level-triggered"),
    )),
    ("a vector", (
        ("R", "requested", "requested"),
        ("S", "service", "in service"),
        ("SR", "both", "in service, and requested once more"),
        ("r, s", "", "small letters: edge-triggered"),
    )),
)


def page(name, steps, others, end):
    """The page of a run, by its fields of the board."""
    shown = steps[-MOST:]
    first = len(steps) - len(shown) + 1
    boards = [step["board"] for step in shown]
    title = f"Where interrupts stand: {name}"
    return "".join(line + "\n" for line in (
        "<!DOCTYPE html>", '<html lang="en">', "<head>", '<meta charset="utf-8">',
        '<meta name="viewport" content="width=device-width, initial-scale=1">',
        f"<title>{escape(title)}</title>", f"<style>\n{STYLE}</style>", "</head>", "<body>", f"<h1>{escape(title)}</h1>",
        f"<p>{escape(about(len(steps), len(shown), others, end))}</p>",
        '<p class="faint">A line asks at its entry of the I/O APIC. A level-triggered entry is in flight while its vector is requested or in service; the EOI'
        " ends it. The highest request is accepted if its class, the vector&#8217;s first digit, is above that of PPR.</p>",
        "<h2>At the end</h2>", *stands(boards[-1]), "<h2>Timeline</h2>", *legends(),
        '<div class="scroll" tabindex="0" role="region" aria-label="timeline">', "<table>",
        *head(shown, first), *(line for group in (priorities, entries, vectors) for line in group(boards)),
        "</table>", "</div>", "<h2>Field by field</h2>", "<ol>", *(item(step, number) for number, step in enumerate(shown, first)), "</ol>",
        "</body>", "</html>",
    ))


def about(count, shown, others, end):
    words = [f"{count} field{'s' if count > 1 else ''} of the board"]
    if shown < count:
        words.append(f"the last {shown} of them are shown")
    if others:
        words.append(f"{others} of other chips, which it is apart from")
    return f"{'; '.join(words)}. {end['words'][0].upper()}{end['words'][1:]}."


def stands(board):
    registers, *lines = board_words.told(board)
    yield f'<p class="stands faint">{escape(registers)}</p>'
    for line in lines:
        yield f'<p class="stands">{escape(line)}</p>'


def legends():
    for name, cells in LEGENDS:
        shown = "".join(f'<li><b{looks(look)}>{letters}</b>{escape(words)}</li>' for letters, look, words in cells)
        yield f'<ul class="legend"><li>{name}</li>{shown}</ul>'


def head(steps, first):
    yield '<thead><tr><th class="name" scope="col">after each field</th>'
    for number, step in enumerate(steps, first):
        title = escape(f"{number}: {step['text']} -> {step['answer']}")
        yield f'<th scope="col" title="{title}"><a href="#field{number}">{escape(step["text"])}</a><span>{number}</span></th>'
    yield "</tr></thead>"


def group(name, rows, width):
    if rows:
        yield f'<tbody><tr class="group"><th class="name" scope="rowgroup">{name}</th><td colspan="{width}"></td></tr>'
        for label, cells in rows:
            yield f'<tr><th class="name" scope="row">{label}</th>{"".join(cells)}</tr>'
        yield "</tbody>"


def looks(look):
    return f' class="{look}"' if look else ""


def cell(letters, look, title):
    return f'<td{looks(look)} title="{escape(title)}">{letters}</td>'


def priorities(boards):
    return group("priority", [("TPR", numbers([board.tpr for board in boards])), ("PPR", numbers([board.ppr for board in boards]))], len(boards))


def numbers(values):
    """Each with a mark where it changed."""
    return [f'<td class="number{" changed" if value != before else ""}">{value:02x}</td>' for before, value in zip([values[0], *values], values)]


def entries(boards):
    gsis = sorted({gsi for board in boards for gsi in board_words.concerned(board)})
    return group("lines and their entries", [(f"GSI {gsi}", [entry(board, gsi) for board in boards]) for gsi in gsis], len(boards))


def entry(board, gsi):
    masked = "M" if board_words.is_masked(board.entries[gsi]) else ""
    look, letters = "up" if gsi in board.up else "down", masked
    if gsi in board.in_flight:
        lost = board_words.is_lost(board, gsi)
        look += " lost" if lost else " flight"
        letters = "F" + ("!" if lost else "") + ("A" if gsi in board.deferred else "") + masked
    elif gsi not in board.up:
        look += " faint"  # it wants nothing
    return cell(letters, look, f"GSI {gsi}: {board_words.entry_words(board, gsi)}")


def vectors(boards):
    found = sorted({vector for board in boards for vector in (*board.requested, *board.in_service)}, reverse=True)
    return group("vectors, the highest first", [(f"vector {byte(v)}", [vector(board, v) for board in boards]) for v in found], len(boards))


def vector(board, v):
    requested, serving = v in board.requested, v in board.in_service
    if not requested and not serving:
        return "<td></td>"
    letters = "S" * serving + "R" * requested
    look = "both" if requested and serving else "service" if serving else "requested"
    title = f"vector {byte(v)}: {board_words.trigger(board, v)}, {board_words.vector_words(board, v)}"
    return cell(letters if v in board.level else letters.lower(), look, title)


def item(step, number):
    says = f"{step['meaning']} → {step['answer']}" if step["meaning"] else step["answer"]
    field = f'<p><span class="no">{number}</span><code>{escape(step["text"])}</code> {escape(says)}</p>'
    return f'<li id="field{number}">{field}{"".join(stands(step["board"]))}</li>'
