"""What the pictures share: colours for a light and a dark page, and the words of SVG that they use.

A picture has no background of its own. It takes its colours from classes: `ink` and `soft` for text, `line` and
`faint` for strokes, `wait`, `weigh`, `pause` and `mark` for what is filled.
"""

LIGHT = {"ink": "#1f2328", "soft": "#57606a", "faint": "#afb8c1", "wait": "#9ec5f0", "weigh": "#8fd19e", "pause": "#f0c674", "mark": "#b3261e"}
DARK = {"ink": "#e6edf3", "soft": "#9aa4af", "faint": "#56606b", "wait": "#1f4e80", "weigh": "#1f6b3a", "pause": "#7a5a12", "mark": "#ff8a80"}


def rules(colours):
    filled = "".join(f".{name}{{fill:{colours[name]}}}" for name in ("ink", "soft", "wait", "weigh", "pause", "mark"))
    drawn = f".line{{fill:none;stroke:{colours['ink']}}}.faint{{fill:none;stroke:{colours['faint']}}}"
    return filled + drawn + f".alarm{{fill:none;stroke:{colours['mark']}}}"


def document(width, height, title, parts):
    """The whole picture; the title is what a reader without eyes for it is told."""
    style = rules(LIGHT) + "@media (prefers-color-scheme: dark){" + rules(DARK) + "}"
    head = [
        f'<svg xmlns="http://www.w3.org/2000/svg" width="{width}" height="{height}" viewBox="0 0 {width} {height}"'
        ' font-family="sans-serif" font-size="12">',
        f"<title>{title}</title>",
        f"<style>{style}</style>",
    ]
    return "\n".join(head + parts + ["</svg>"])


def text(x, y, words, kind="ink", anchor="start", size=12):
    return f'<text class="{kind}" x="{x:g}" y="{y:g}" text-anchor="{anchor}" font-size="{size}">{words}</text>'


def rect(x, y, width, height, kind):
    return f'<rect class="{kind}" x="{x:g}" y="{y:g}" width="{width:g}" height="{height:g}"/>'


def circle(x, y, radius, kind):
    return f'<circle class="{kind}" cx="{x:g}" cy="{y:g}" r="{radius:g}"/>'


def path(steps, kind, dashed=False):
    return f'<path class="{kind}" d="{steps}"' + (' stroke-dasharray="4 3"' if dashed else "") + "/>"


def span(left, right, y, kind="line"):
    """A line with an arrowhead at each end."""
    heads = f"M{left + 5:g} {y - 3:g}L{left:g} {y:g}L{left + 5:g} {y + 3:g}M{right - 5:g} {y - 3:g}L{right:g} {y:g}L{right - 5:g} {y + 3:g}"
    return path(f"M{left:g} {y:g}H{right:g}{heads}", kind)
