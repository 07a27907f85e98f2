"""A picture in SVG, for light pages and dark ones: it follows what the reader's system prefers (`prefers-color-scheme`)."""

from xml.sax.saxutils import escape

# a class, and its fill in light and in dark
FILLS = {
    "page": ("#ffffff", "#0d1117"),
    "text": ("#1f2328", "#e6edf3"),
    "dim": ("#59636e", "#9da7b3"),
    "old": ("#b6d7fb", "#1f4a7d"),
    "new": ("#a9e3b8", "#1d5b34"),
    "none": ("#e1e5ea", "#2d343e"),
    "panel": ("#f6f8fa", "#161b22"),
    "good": ("#1a7f37", "#4cc76a"),
    "bad": ("#c9252d", "#ff7b72"),
    "mark": ("#0969da", "#6cb6ff"),
    "second": ("#bc4c00", "#f0883e"),
    "rule": ("#d1d9e0", "#3d444d"),
}
MONO = "ui-monospace, 'DejaVu Sans Mono', Menlo, Consolas, monospace"
# the advance of a letter of a fixed width, as a share of its size
ADVANCE = 0.602


class Picture:
    """Shapes and texts, in pixels from the upper left corner."""

    def __init__(self, width, height, about):
        self.width, self.height, self.about = width, height, about
        self.parts = []
        self.box(0, 0, width, height, "page")

    def box(self, x, y, width, height, kind, round_by=0):
        corner = f' rx="{round_by}"' if round_by else ""
        self.parts.append(f'<rect class="{kind}" x="{x:g}" y="{y:g}" width="{width:g}" height="{height:g}"{corner}/>')

    def text(self, x, y, words, kind="text", size=13, anchor="start", weight=None):
        more = (f' text-anchor="{anchor}"' if anchor != "start" else "") + (f' font-weight="{weight}"' if weight else "")
        self.parts.append(f'<text class="{kind}" x="{x:g}" y="{y:g}" font-size="{size:g}"{more}>{escape(words)}</text>')

    def runs(self, x, y, runs, size=13):
        """Texts of several kinds one after the other on a line."""
        spans = "".join(f'<tspan class="{kind}">{escape(words)}</tspan>' for words, kind in runs)
        self.parts.append(f'<text x="{x:g}" y="{y:g}" font-size="{size:g}">{spans}</text>')

    def line(self, x, y, to_x, to_y, kind="rule", width=1):
        self.parts.append(f'<path class="s-{kind}" d="M{x:g} {y:g}L{to_x:g} {to_y:g}" stroke-width="{width:g}"/>')

    def dot(self, x, y, kind, radius=4):
        self.parts.append(f'<circle class="{kind}" cx="{x:g}" cy="{y:g}" r="{radius:g}"/>')

    def ring(self, x, y, kind, radius=4):
        self.parts.append(f'<circle class="s-{kind}" cx="{x:g}" cy="{y:g}" r="{radius:g}" stroke-width="2"/>')

    def svg(self):
        drawn = "\n".join(self.parts)

        def rules(of):
            told = ((kind, what, fills[of]) for kind, fills in FILLS.items() for kind, what in ((kind, "fill"), (f"s-{kind}", "fill:none;stroke")))
            return "".join(f".{kind}{{{what}:{fill}}}" for kind, what, fill in told if f'class="{kind}"' in drawn)

        return (
            f'<svg xmlns="http://www.w3.org/2000/svg" viewBox="0 0 {self.width:g} {self.height:g}" width="{self.width:g}" '
            f'height="{self.height:g}" role="img" font-family="{MONO}" xml:space="preserve">\n'
            f"<title>{escape(self.about)}</title>\n"
            f"<style>{rules(0)}\n@media (prefers-color-scheme: dark){{{rules(1)}}}</style>\n"
            f"{drawn}\n</svg>\n"
        )

    def store(self, path):
        with open(path, "w", encoding="utf-8") as out:
            out.write(self.svg())
