"""The style and the script of a timeline's page. The page works without the script, which shows what stands on a span
where it lies, and takes the arrow keys from span to span."""
from .picture import COLOURS, STRIPED

FIXED = """
:root { color-scheme: light dark; --ground: #f9fafb; --card: #ffffff; --ink: #101828; --soft: #475467; --rule: #d0d5dd;
  --faint: #f2f4f7; --mark: #5925dc; --stripe: rgb(255 255 255 / 24%); --on: #101828; }
@media (prefers-color-scheme: dark) { :root { --ground: #0c111d; --card: #161b26; --ink: #f2f4f7; --soft: #98a2b3;
  --rule: #333b4a; --faint: #1f2735; --mark: #bdb4fe; --stripe: rgb(0 0 0 / 28%); } }
* { box-sizing: border-box; }
body { margin: 0; background: var(--ground); color: var(--ink); font: 15px/1.5 ui-sans-serif, system-ui, sans-serif; }
main { max-width: 84rem; margin: 0 auto; padding: 1.5rem 1.25rem 6rem; }
h1 { font-size: 1.6rem; line-height: 1.25; margin: 0 0 .25rem; letter-spacing: -.01em; }
h2 { font-size: 1.25rem; margin: 2rem 0 .25rem; } h3 { font-size: 1rem; margin: 2rem 0 .5rem; }
p { margin: .25rem 0; max-width: 70rem; } .soft { color: var(--soft); }
code { font: .86em ui-monospace, monospace; overflow-wrap: break-word; }
a { color: inherit; } a:focus-visible, .picture:focus-visible { outline: 3px solid var(--mark); outline-offset: 1px; }
.legend { display: flex; flex-wrap: wrap; gap: .35rem 1.25rem; list-style: none; margin: 1rem 0 .75rem; padding: 0; }
.legend li { display: flex; align-items: center; gap: .45rem; font-size: .87rem; }
.key { width: 1.1rem; height: .8rem; border-radius: 3px; }
.picture, .scroll { background: var(--card); border: 1px solid var(--rule); border-radius: 10px; overflow-x: auto; }
.picture { padding: 0 1rem .75rem 0; }
.row { display: grid; grid-template-columns: 17rem 1fr; align-items: center; }
.name { position: sticky; left: 0; z-index: 2; background: var(--card); padding: .12rem .9rem .12rem 1.6rem; width:
  17rem;
  font-size: .87rem; overflow-wrap: anywhere; }
.track { display: grid; grid-auto-rows: 1.5rem; column-gap: 2px; align-items: center; min-width: 0; }
.axis { border-bottom: 1px solid var(--rule); color: var(--soft); font-size: .74rem; margin-bottom: .25rem; }
.axis .name { color: var(--soft); font-size: .74rem; padding-left: 1rem; }
.axis .track span { font-variant-numeric: tabular-nums; white-space: nowrap; grid-row: 1; border-left: 1px solid
  var(--rule);
  padding-left: .25rem; }
.lane { position: relative; padding-bottom: .3rem; }
.lane + .lane { border-top: 1px solid var(--rule); }
.lane h4 { position: sticky; left: 0; width: max-content; max-width: min(70rem, 90vw); margin: .55rem 0 .2rem 1rem;
  font-size: .93rem; }
.span { grid-row: 1; min-width: 0; height: 1.25rem; border-radius: 4px; overflow: hidden; white-space: nowrap;
  text-overflow: ellipsis;
  font-size: .74rem; line-height: 1.25rem; padding: 0 .4rem; text-decoration: none; color: var(--on); display: block; }
.span:hover, .span:focus { filter: brightness(1.08) saturate(1.15); box-shadow: 0 0 0 2px var(--ink); }
.held { color: #ffffff; } .gone, .gone-by-own-calls, .doubted { color: #ffffff; }
.not-yet { background: none; border: 1px dashed var(--rule); color: var(--soft); }
@media (prefers-color-scheme: dark) { .held, .gone, .gone-by-own-calls, .doubted { color: #101828; } }
.mark { grid-row: 1; justify-self: end; color: var(--mark); font-size: .74rem; white-space: nowrap; padding-right:
  .3rem; }
.mark::after { content: ""; position: absolute; top: 2.1rem; bottom: .3rem; margin-left: .25rem;
  border-left: 2px dashed var(--mark); pointer-events: none; z-index: 1; }
table { border-collapse: collapse; width: 100%; font-size: .87rem; }
caption { text-align: left; color: var(--soft); padding: .6rem .8rem; }
th, td { text-align: left; vertical-align: top; padding: .38rem .8rem; border-top: 1px solid var(--rule); }
th { color: var(--soft); font-weight: 600; white-space: nowrap; } td.number { text-align: right; white-space: nowrap;
  font-variant-numeric: tabular-nums; }
tbody tr:hover { background: var(--faint); }
tr:target { background: var(--faint); box-shadow: inset 4px 0 0 var(--mark); }
.exposure th { white-space: normal; }
td.text { min-width: 13rem; } td.sum code { display: block; width: 8rem; overflow: hidden; text-overflow: ellipsis; }
td ul { margin: .2rem 0 0; padding-left: 1.1rem; } summary { cursor: pointer; }
.chip { white-space: nowrap; } .chip .key { display: inline-block; margin-right: .4rem; vertical-align: -.05rem; }
#told { position: fixed; inset: auto 0 0 0; background: var(--card); border-top: 1px solid var(--rule); z-index: 3;
  box-shadow: 0 -8px 24px rgb(16 24 40 / 16%); padding: .7rem 1.25rem .9rem; max-height: 40vh; overflow: auto; }
#told dl { display: grid; grid-template-columns: max-content 1fr; gap: .1rem 1rem; margin: 0 auto; max-width: 82rem; }
#told code { overflow-wrap: anywhere; } #told dt { color: var(--soft); } #told dd { margin: 0; overflow-wrap:
  anywhere; } #told[hidden] { display: none; }
@media print { #told { display: none; } .picture, .scroll { overflow: visible; } }
"""
# What is told is taken from the table's own row, as nodes: no text is ever read as tags.
SCRIPT = """
"use strict";
(function () {
  var told = document.getElementById("told");
  function row(span) { return document.getElementById(span.getAttribute("href").slice(1)); }
  function show(span) {
    var from = row(span), list = document.createElement("dl"), heads = from.closest("table").tHead.rows[0].cells;
    Array.prototype.forEach.call(from.cells, function (cell, at) {
      if (!cell.textContent.trim() || at === from.cells.length - 1) { return; }
      var name = document.createElement("dt"), text = document.createElement("dd"), summary;
      name.textContent = heads[at].textContent;
      summary = cell.querySelector("summary");
      if (summary) { text.textContent = summary.textContent; }
      else { Array.prototype.forEach.call(cell.childNodes, function (node) { text.appendChild(node.cloneNode(true));
        }); }
      list.appendChild(name); list.appendChild(text);
    });
    told.replaceChildren(list); told.hidden = false;
  }
  function middle(one) { var box = one.getBoundingClientRect(); return box.left + box.width / 2; }
  function next(span, key) {
    var track = span.parentElement, tracks = Array.prototype.slice.call(document.querySelectorAll(".track.of-spans"));
    if (key === "ArrowLeft") { return span.previousElementSibling; }
    if (key === "ArrowRight") { return span.nextElementSibling; }
    var other = tracks[tracks.indexOf(track) + (key === "ArrowUp" ? -1 : 1)], here = middle(span);
    return other && Array.prototype.slice.call(other.children).sort(function (one, two) {
      return Math.abs(middle(one) - here) - Math.abs(middle(two) - here); })[0];
  }
  document.querySelectorAll("a.span").forEach(function (span) {
    span.addEventListener("focus", function () { show(span); });
    span.addEventListener("mouseenter", function () { show(span); });
    span.addEventListener("keydown", function (event) {
      if (event.key === "Escape") { told.hidden = true; return; }
      if (["ArrowLeft", "ArrowRight", "ArrowUp", "ArrowDown"].indexOf(event.key) < 0) { return; }
      var other = next(span, event.key);
      event.preventDefault();
      if (other) { other.focus(); }
    });
  });
}());
"""


def colours(place: int) -> str:
    """The colours of the classes, in the light (0) or in the dark (1)."""
    return " ".join(f".{kind} {{ background-color: {both[place]}; }}" for kind, both in COLOURS.items()
                    if kind != "not-yet")


def stripes() -> str:
    """The pattern of the classes that have one."""
    names = ", ".join(f".{kind}" for kind in STRIPED)
    return (f"{names} {{ background-image: repeating-linear-gradient(135deg, var(--stripe) 0 3px, transparent 3px 8px);"
            " }")


def columns(count: int) -> str:
    """The places of so many columns: no element has a style of its own."""
    wide = 2.6 if count <= 40 else 1.1 if count <= 150 else 0.5
    tracks = [f".track {{ grid-template-columns: repeat({count}, minmax(0, 1fr)); }}",
              f".row, .lane {{ min-width: {17 + wide * count:.1f}rem; }}"]
    begins = [f".b{at} {{ grid-column-start: {at}; }}" for at in range(1, count + 1)]
    return "\n".join([*tracks, *begins, *(f".e{at} {{ grid-column-end: {at}; }}" for at in range(2, count + 2))])


def style(count: int) -> str:
    """The whole style of a page whose widest picture has so many columns."""
    return "\n".join([FIXED, colours(0), f"@media (prefers-color-scheme: dark) {{ {colours(1)} }}", stripes(),
                      columns(count), ""])
