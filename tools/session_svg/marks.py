"""SVG elements, the colours and the legend."""

from __future__ import annotations

from xml.sax.saxutils import escape

INK, FAINT, GRID = "#1a1a1a", "#595959", "#d9d9d9"
HEARD, SENT = "#00674f", "#5b2a86"
BARS = {"finished": "#0b5fa5", "failed": "#b34700", "running": "#6b6b6b"}
HELD_FILL, ANGLE_FILL, HELD_EDGE = "#fff3cf", "#ffcf4d", "#8a6d00"
REFUSED = "#8f2d00"
LANES = ("#ffffff", "#f4f6f8")

DEFS = (
    '<defs><pattern id="hatch" width="8" height="8" patternUnits="userSpaceOnUse" patternTransform="rotate(45)">'
    f'<rect width="8" height="8" fill="{BARS["failed"]}"/><rect width="2" height="8" fill="#e8a06f"/></pattern></defs>'
)


def text(x: float, y: float, said: str, fill: str = INK, size: int = 12, **more: str) -> str:
    """A text with a white edge, so that lines behind it don't cross it."""
    extra = "".join(f' {name.replace("_", "-")}="{escape(value)}"' for name, value in more.items())
    halo = '' if "plain" in more else ' stroke="#ffffff" stroke-width="3" paint-order="stroke" stroke-linejoin="round"'
    extra = extra.replace(' plain="1"', "")
    return f'<text x="{x:.1f}" y="{y:.1f}" font-size="{size}" fill="{fill}"{halo}{extra}>{clean(said)}</text>'


def clean(said: str) -> str:
    """A text for SVG: escaped, without control characters."""
    return escape("".join(c if c.isprintable() else "?" for c in said))


def line(x1: float, y1: float, x2: float, y2: float, stroke: str, width: float = 1, dash: str = "") -> str:
    dashes = f' stroke-dasharray="{dash}"' if dash else ""
    return f'<line x1="{x1:.1f}" y1="{y1:.1f}" x2="{x2:.1f}" y2="{y2:.1f}" stroke="{stroke}" stroke-width="{width}"{dashes}/>'


def box(x: float, y: float, width: float, height: float, fill: str, edge: str = "none", about: str = "", name: str = "") -> str:
    kind = f' class="{name}"' if name else ""
    inner = f"<title>{clean(about)}</title>" if about else ""
    size = f'x="{x:.1f}" y="{y:.1f}" width="{width:.1f}" height="{height:.1f}"'
    return f'<rect{kind} {size} rx="3" fill="{fill}" stroke="{edge}">{inner}</rect>'


def arrow(x: float, y: float, fill: str, about: str, name: str) -> str:
    """A triangle that points down, its tip at y."""
    points = f"{x - 4:.1f},{y - 8:.1f} {x + 4:.1f},{y - 8:.1f} {x:.1f},{y:.1f}"
    return f'<polygon class="{name}" points="{points}" fill="{fill}"><title>{clean(about)}</title></polygon>'


def diamond(x: float, y: float, about: str) -> str:
    points = f"{x:.1f},{y - 6:.1f} {x + 6:.1f},{y:.1f} {x:.1f},{y + 6:.1f} {x - 6:.1f},{y:.1f}"
    style = f'fill="#ffffff" stroke="{INK}" stroke-width="1.5"'
    return f'<polygon class="look" points="{points}" {style}><title>{clean(about)}</title></polygon>'


def badge(x: float, y: float, number: str, about: str) -> str:
    """A refusal's number in a rounded box, x its left side."""
    width = 10 + 8 * len(number)
    shape = f'<rect x="{x:.1f}" y="{y:.1f}" width="{width}" height="16" rx="8" fill="#ffffff" stroke="{REFUSED}" stroke-width="2"/>'
    said = text(x + width / 2, y + 12.5, number, REFUSED, 12, text_anchor="middle", font_weight="bold", plain="1")
    return f'<g class="refusal"><title>{clean(about)}</title>{shape}{said}</g>'


def legend(y: float) -> str:
    """What the marks mean, in one line."""
    parts = [arrow(24, y, HEARD, "", "key"), text(34, y, "frame heard", HEARD)]
    parts += [arrow(134, y, SENT, "", "key"), text(144, y, "frame sent", SENT)]
    x = 236.0
    for how, said in (("finished", "operation, finished"), ("failed", "failed"), ("running", "still running")):
        parts += [box(x, y - 12, 28, 14, "url(#hatch)" if how == "failed" else BARS[how]), text(x + 34, y, said)]
        x += 58 + 6.6 * len(said)
    parts += [box(x, y - 12, 28, 14, ANGLE_FILL, HELD_EDGE), text(x + 34, y, "reading held, the angle")]
    parts += [box(x + 210, y - 12, 28, 14, HELD_FILL, HELD_EDGE), text(x + 244, y, "another reading")]
    parts += [diamond(x + 372, y - 5, ""), text(x + 384, y, "looked at")]
    parts += [badge(x + 470, y - 13, "16", ""), text(x + 504, y, "refused, by number; E: no event")]
    return "".join(parts)
