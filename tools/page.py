"""Self-contained pages: one file of HTML with its style inside, no script, nothing fetched."""

from html import escape

STYLE = """
:root { --paper: #fbfaf7; --card: #fff; --ink: #23272f; --soft: #667080; --line: #e2ddd2; --on: #2f3b52;
  --off: #eceae4;
  --one: #1f6f8b; --other: #b3541e; --mark: #d9822b; --good: #2d7a4f; }
@media (prefers-color-scheme: dark) { :root { --paper: #16181d; --card: #1f2229; --ink: #e7e6e2; --soft: #9aa3b2;
  --line: #343944; --on: #c3cbdb; --off: #2b2f38; --one: #5fb3d1; --other: #e29a6a; --mark: #f0a04b;
  --good: #6cc492; } }
* { box-sizing: border-box; }
body { margin: 0; background: var(--paper); color: var(--ink);
  font: 16px/1.55 system-ui, "Segoe UI", Roboto, sans-serif; }
main { max-width: 1180px; margin: 0 auto; padding: 2.5rem 1.25rem 4rem; }
h1 { font-size: 2rem; line-height: 1.2; margin: 0 0 .5rem; letter-spacing: -.01em; }
h2 { font-size: 1.2rem; margin: 2.5rem 0 .75rem; }
h3 { font-size: 1rem; margin: 0 0 .5rem; }
p { margin: .4rem 0; max-width: 46rem; }
.lead { font-size: 1.1rem; color: var(--soft); }
.card { background: var(--card); border: 1px solid var(--line); border-radius: .75rem; padding: 1.1rem 1.2rem;
  min-width: 0; }
.columns { display: grid; grid-template-columns: repeat(auto-fit, minmax(16rem, 1fr)); gap: 1rem;
  align-items: start; }
.one { border-top: 4px solid var(--one); } .other { border-top: 4px solid var(--other); }
  .public { border-top: 4px solid var(--good); }
.tag { float: right; font-size: .72rem; letter-spacing: .06em; text-transform: uppercase; color: var(--soft);
  border: 1px solid var(--line); border-radius: 1rem; padding: .05rem .6rem; }
.public .tag { color: var(--good); border-color: var(--good); }
.strip { display: grid; grid-template-columns: 1fr auto 1fr auto 1fr auto 1fr auto 1fr; gap: .5rem;
  align-items: center; }
.strip figure { margin: 0; min-width: 0; } .strip figcaption { font-size: .85rem; text-align: center;
  margin-top: .4rem; }
.strip figcaption small { color: var(--soft); display: block; }
.sign { font-size: 1.4rem; color: var(--soft); text-align: center; padding-bottom: 2.2rem; }
.bits { width: 100%; height: auto; display: block; background: var(--off); border-radius: .3rem; }
.bits .set { fill: var(--on); } .bits .mark { fill: var(--mark); } .bits .unset { fill: var(--mark); opacity: .32; }
.scroll { overflow: auto; max-height: 26rem; }
table { border-collapse: collapse; width: 100%; font-variant-numeric: tabular-nums; font-size: .92rem; }
th, td { padding: .28rem .55rem; text-align: center; border-bottom: 1px solid var(--line); }
th { color: var(--soft); font-weight: 600; } td.name, th.name { text-align: left; }
  td.number, th.number { text-align: right; }
.grade { display: inline-block; min-width: 1.7rem; border-radius: .35rem; padding: 0 .4rem; color: #fff;
  font-weight: 600; }
.wins { color: var(--good); font-weight: 700; }
.facts { display: flex; flex-wrap: wrap; gap: .6rem 2.2rem; margin: 1.2rem 0 0; padding: 0; list-style: none; }
.facts b { display: block; font-size: 1.35rem; line-height: 1.2; font-variant-numeric: tabular-nums; }
.facts span { color: var(--soft); font-size: .9rem; }
pre { white-space: pre-wrap; word-break: break-all; font-size: .8rem; color: var(--soft); max-height: 16rem;
  overflow: auto; }
ul.plain { padding-left: 1.1rem; max-width: 46rem; } ul.plain li { margin: .3rem 0; }
@media (max-width: 760px) { .strip { grid-template-columns: 1fr; } .sign { padding: 0; }
  .strip svg { max-width: 15rem; margin: 0 auto; } }
@media print { body { background: #fff; } .scroll, pre { max-height: none; } .card { break-inside: avoid; } }
"""


def page(title, *parts):
    """A whole page of HTML; the parts are HTML already."""
    return "\n".join([
        "<!DOCTYPE html>", '<html lang="en">', "<head>", '<meta charset="utf-8">',
        '<meta name="viewport" content="width=device-width, initial-scale=1">', f"<title>{escape(title)}</title>",
        f"<style>{STYLE}</style>", "</head>", "<body>", "<main>", *parts, "</main>", "</body>", "</html>", ""])


def facts(entries):
    """Key figures, each with what it counts."""
    items = "".join(f"<li><b>{escape(str(number))}</b><span>{escape(what)}</span></li>" for number, what in entries)
    return f'<ul class="facts">{items}</ul>'


def table(head, rows, classes):
    """A table; cells are HTML already, and each column has a class."""
    def line(cells, tag):
        return "<tr>" + "".join(f'<{tag} class="{name}">{cell}</{tag}>' for cell, name in zip(cells, classes)) + "</tr>"

    body = "\n".join(line(row, "td") for row in rows)
    return f'<div class="scroll"><table><thead>{line(head, "th")}</thead><tbody>\n{body}\n</tbody></table></div>'
