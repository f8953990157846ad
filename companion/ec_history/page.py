"""Timelines as a page in HTML, which tells what is pointed at."""

from __future__ import annotations

import json
from html import escape
from typing import Dict, List, Optional, Sequence

from .axis import Axis
from .moments import Moment
from .svg import ROW, TOP, Layout, svg_of
from .timelines import Spell, Timeline

STYLE = """\
body { margin: 0; font: 14px system-ui, sans-serif; color: #222 }
#told { position: sticky; bottom: 0; background: #fff; border-top: 1px solid #ccc;
  padding: 8px 16px; min-height: 9em }
#told h2 { font-size: 14px; margin: 0 0 4px } #told ul { margin: 0; padding-left: 18px }
#told .holds { font-weight: bold }
#picture { overflow-x: auto }
#cursor { stroke: #b00; stroke-dasharray: 3 3; pointer-events: none }
.line.pointed > text { font-weight: bold }
noscript { padding: 8px 16px; display: block }
"""

SCRIPT = """\
"use strict";
const data = JSON.parse(document.getElementById("data").textContent);
const low = BigInt(data.low), span = BigInt(data.high) - low;
const told = document.getElementById("told");
const svg = document.querySelector("svg");
const cursor = document.getElementById("cursor");
let pinned = false;

function shown(place) {
  if (data.shown === "number") return String(place);
  const text = new Date(Number(place) * 1000).toISOString();
  if (data.shown === "day") return text.slice(0, 10);
  return text.slice(0, data.shown === "minute" ? 16 : 19) + "Z";
}

function rounded(place) {
  const step = {number: 1n, second: 1n, minute: 60n, day: 86400n}[data.shown];
  let rest = place % step;
  if (rest < 0n) rest += step;
  return rest * 2n < step ? place - rest : place - rest + step;
}

function spellOf(line, place) {
  return line.spells.find(spell =>
    (spell.after === null || BigInt(spell.after) < place) &&
    (spell.until === null || place <= BigInt(spell.until)));
}

function add(parent, tag, text, name) {
  const element = parent.appendChild(document.createElement(tag));
  element.textContent = text;
  if (name) element.className = name;
  return element;
}

function tell(place, row) {
  const x = data.left + Number((place - low) * 1000000n / span) / 1000000 * data.width;
  cursor.setAttribute("x1", x);
  cursor.setAttribute("x2", x);
  cursor.style.display = "";
  document.querySelectorAll(".line").forEach((line, number) =>
    line.classList.toggle("pointed", number === row));
  told.replaceChildren();
  if (row !== null && data.lines[row]) {
    const line = data.lines[row], spell = spellOf(line, place);
    add(told, "h2", line.label + " at " + shown(place));
    add(told, "div", spell ? spell.words : "", spell && spell.holds ? "holds" : "");
    return;
  }
  const holding = data.lines.filter(line => (spellOf(line, place) || {}).holds);
  add(told, "h2", "at " + shown(place) + ": " + holding.length + " of " +
    data.lines.length + " hold");
  const list = add(told, "ul", "");
  for (const line of holding) {
    add(list, "li", line.label + ": " + spellOf(line, place).words);
  }
}

function pointed(event) {
  const box = svg.getBoundingClientRect();
  const x = event.clientX - box.left, y = event.clientY - box.top;
  let fraction = (x - data.left) / data.width;
  fraction = Math.min(Math.max(fraction, 0), 1);
  const place = rounded(low + span * BigInt(Math.round(fraction * 1000000)) / 1000000n);
  const row = Math.floor((y - data.top) / data.row);
  tell(place, row >= 0 && row < data.lines.length ? row : null);
}

function follow() {
  const asked = new URLSearchParams(location.hash.slice(1));
  if (!asked.has("at")) return;
  const at = asked.get("at"), row = asked.get("row");
  const date = Date.parse(at);
  const place = /^-?\\d+$/.test(at) ? BigInt(at) : BigInt(Math.floor(date / 1000));
  tell(place, row === null ? null : Number(row));
  pinned = true;
}

svg.addEventListener("mousemove", event => { if (!pinned) pointed(event); });
svg.addEventListener("click", event => { pinned = !pinned; pointed(event); });
window.addEventListener("hashchange", follow);
follow();
"""


def page_of(lines: Sequence[Timeline], axis: Axis, title: str, layout: Layout) -> str:
    """The page. It needs nothing but itself.

    `#at=T` behind its address points at an instant, and `#at=T&row=N` at a row there,
    counted from 0.
    """
    cursor = (
        f'<line id="cursor" style="display: none" y1="{TOP - 6}" '
        f'y2="{layout.bottom:g}"/>'
    )
    picture = svg_of(lines, axis, title, layout, cursor)
    # `<` would end the script where a name has `</script>` in it
    data = json.dumps(_data(lines, axis, layout)).replace("<", "\\u003c")
    return (
        '<!doctype html>\n<html lang="en">\n<meta charset="utf-8">\n'
        f"<title>{escape(title)}</title>\n<style>{STYLE}</style>\n"
        f'<div id="picture">{picture}</div>\n'
        '<div id="told">Point at a property to read why it holds there, or does not; '
        "at the axis to read all that holds then. A click holds the place.</div>\n"
        f'<script id="data" type="application/json">{data}</script>\n'
        f"<script>\n{SCRIPT}</script>\n</html>\n"
    )


def _data(lines: Sequence[Timeline], axis: Axis, layout: Layout) -> Dict[str, object]:
    """What the script reads. Places are texts, as they may need 64 bits."""
    return {
        "low": str(axis.low),
        "high": str(axis.high),
        "shown": axis.shown,
        "left": layout.left,
        "width": layout.width,
        "top": TOP,
        "row": ROW,
        "lines": [
            {"label": line.label, "spells": _spells(line, axis)} for line in lines
        ],
    }


def _spells(line: Timeline, axis: Axis) -> List[Dict[str, object]]:
    def place(moment: Optional[Moment]) -> Optional[str]:
        return None if moment is None else str(axis.place(moment))

    def spell_data(spell: Spell) -> Dict[str, object]:
        return {
            "after": place(spell.after),
            "until": place(spell.until),
            "holds": spell.holds,
            "words": spell.words,
        }

    return [spell_data(spell) for spell in line.spells]
