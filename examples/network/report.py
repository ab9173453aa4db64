"""One page about a run, with nothing from outside."""

from html import escape

import charts
import verdict
from history import percentile
from simulation import Result

STYLE = """
:root { color-scheme: light; }
body { font: 14px/1.45 system-ui, sans-serif; color: #1c2733; background: #fff; margin: 0 auto; padding: 24px 28px;
  max-width: 1120px; }
h1 { font-size: 22px; margin: 0 0 4px; } h2 { font-size: 16px; margin: 28px 0 6px; }
p { margin: 4px 0 10px; max-width: 80ch; }
.verdict { display: inline-block; padding: 3px 10px; border-radius: 4px; font-weight: 600; margin: 6px 0; }
.good { background: #d9f0e1; color: #14532d; } .bad { background: #fbdcd8; color: #8a1c10; }
table { border-collapse: collapse; font-size: 12.5px; font-variant-numeric: tabular-nums; }
th, td { padding: 2px 9px; text-align: right; border-bottom: 1px solid #e4e8ec; }
th { color: #54616e; font-weight: 600; border-bottom-color: #9aa5b1; }
dl { display: grid; grid-template-columns: repeat(auto-fill, minmax(330px, 1fr)); gap: 2px 24px; margin: 8px 0; }
dl div { display: flex; justify-content: space-between; gap: 16px; border-bottom: 1px solid #eef1f4; } dd { margin: 0; }
dt { color: #54616e; }
svg { width: 100%; height: auto; display: block; font: 11px system-ui, sans-serif; }
svg text { fill: #3b4855; } svg .head { fill: #54616e; font-weight: 600; } svg .note { fill: #54616e; font-size: 10.5px; }
.grid { stroke: #e9edf1; } .moment { stroke: #9aa5b1; stroke-dasharray: 3 3; } .level { stroke: #54616e; }
.edge { fill: none; stroke: #b9c2cb; } .edge.kept { stroke: #2b7a4b; stroke-width: 1.6; }
rect.accepted { fill: #dff1e6; stroke: #2b7a4b; } rect.rejected { fill: #f4f5f7; stroke: #b9c2cb; }
rect.split { fill: #fbdcd8; stroke: #b3261e; }
.id { font-family: ui-monospace, monospace; } .maker { font-size: 10.5px; }
.node { fill: none; stroke: #2f6db5; stroke-opacity: .35; stroke-width: 1.3; }
.node.late { stroke: #d9730d; stroke-opacity: .9; } .node.killed { stroke: #b3261e; stroke-opacity: .9; }
.bar.accepted { fill: #2b7a4b; stroke: none; } .bar.caught { fill: #d9730d; } .bar.rejected { fill: #c3cad1; stroke: none; }
.dot { fill: #2f6db5; fill-opacity: .3; } .dot.late { fill: #d9730d; fill-opacity: .6; }
.dot.killed { fill: #b3261e; fill-opacity: .6; }
.legend span { margin-right: 18px; white-space: nowrap; } .legend i { display: inline-block; width: 12px; height: 12px;
  border-radius: 2px; margin-right: 6px; vertical-align: -2px; }
@media print { body { padding: 0; max-width: none; font-size: 11px; } table { font-size: 10px; }
  svg, tr, dl { break-inside: avoid; }
  h2 { break-after: avoid; } * { print-color-adjust: exact; -webkit-print-color-adjust: exact; } @page { margin: 14mm; } }
"""


def _legend(*entries: tuple[str, str]) -> str:
    return ('<p class="legend">'
            + "".join(f'<span><i style="background:{colour}"></i>{escape(name)}</span>' for colour, name in entries)
            + "</p>")


def _facts(result: Result) -> str:
    options, waited = result.options, result.history.waiting_times()
    params = options.params

    def within(share: int) -> str:
        value = percentile(waited, share)
        return "-" if value is None else f"{value / 1000:.2f} s"

    facts = (
        ("nodes", f"{options.nodes}, of which {options.late} join late, {options.kill} killed"),
        ("liars", f"{options.liars}, {options.liars_share():.0%} of the first weight, {options.lie}"),
        ("k, alphas, beta, repolls", ", ".join(map(str, params))),
        ("loss, delay", f"{options.loss:.0%}, {options.delay[0]} to {options.delay[1]} ms"),
        ("timeout, tries", f"{options.timeout} ms, {options.tries}"),
        ("a proposal every", f"{options.interval} ms; {options.conflicts:.0%} have a rival"),
        ("validators change", f"at height {options.heights // 2}" if options.change else "never"),
        ("faults planted", ", ".join(options.faults) or "none"),
        ("seed", str(options.seed)),
        ("simulated time", f"{result.ended / 1000:.2f} s"),
        ("messages", f"{result.router.carried:,}, {result.router.lost:,} lost"),
        ("time to decide, median", within(50)),
        ("time to decide, 99 of 100", within(99)),
    )
    return "<dl>" + "".join(f"<div><dt>{escape(name)}</dt><dd>{escape(value)}</dd></div>"
                            for name, value in facts) + "</dl>"


def _verdict(result: Result) -> str:
    parted, told = verdict.disagreements(result.nodes), verdict.complaints(result)
    if not parted:
        head = '<p class="verdict good">Honest nodes agree: their accepted lists are fronts of one another.</p>'
    else:
        head = '<p class="verdict bad">Honest nodes disagree.</p>'
    return head + "".join(f"<p>{escape(str(text))}</p>" for text in (*parted, *told))


def _table(result: Result) -> str:
    head = "".join(f"<th>{escape(name)}</th>" for name in verdict.HEADINGS)
    rows = "".join("<tr>" + "".join(f"<td>{escape(word)}</td>" for word in row) + "</tr>"
                   for row in verdict.rows(result))
    return f"<table><thead><tr>{head}</tr></thead><tbody>{rows}</tbody></table>"


def _tree(result: Result) -> str:
    tree = charts.Tree(result)
    others = len(result.history.proposals) - len(tree.places)
    legend = _legend(("#2b7a4b", "accepted"), ("#b9c2cb", "rejected by those that had issued it"),
                     ("#b3261e", "accepted by some, while others accepted a rival"))
    about = (f"<p>Each row is a height. A box has the first digits of a block's identifier and the node that made it; "
             f"a line leads up to its parent. {others} more blocks were made that no node decided on: they were "
             f"invalid, came too late, or their parent was never known.</p>")
    return about + legend + "".join(tree.pictures())


def page(result: Result) -> str:
    """The page."""
    lines = _legend(("#2f6db5", "honest node"), ("#d9730d", "joined late"), ("#b3261e", "killed, came back"))
    bars = _legend(("#2b7a4b", "accepted"), ("#d9730d", "accepted while catching up"), ("#c3cad1", "rejected"))
    sections = (
        ("Nodes", _table(result)),
        ("Heights over time", lines + charts.heights(result)),
        ("Decisions over time", bars + charts.decisions(result)),
        ("Time to decide", "<p>From a block's making to a node's own decision, a dot for each.</p>"
         + charts.waits(result)),
        ("Tree of blocks", _tree(result)),
    )
    body = "".join(f"<h2>{escape(name)}</h2>{inside}" for name, inside in sections)
    return (f'<!DOCTYPE html>\n<html lang="en"><head><meta charset="utf-8">'
            f'<meta name="viewport" content="width=device-width"><title>A network of nodes</title>'
            f"<style>{STYLE}</style></head><body><h1>A network of nodes</h1>{_verdict(result)}{_facts(result)}{body}"
            f"</body></html>\n")
