"""What the pictures of this repository are made of: SVG with no library but python3's own."""

FONT = "Helvetica, Arial, 'Liberation Sans', 'DejaVu Sans', sans-serif"
PAPER, INK, FAINT = "#fbfaf6", "#1d2733", "#8a94a0"


def escaped(words):
    return words.replace("&", "&amp;").replace("<", "&lt;").replace(">", "&gt;")


def text(x, y, words, size=11, anchor="start", weight="normal", colour=INK):
    return (f'<text x="{x:g}" y="{y:g}" font-size="{size}" font-weight="{weight}" text-anchor="{anchor}" '
            f'fill="{colour}">{escaped(words)}</text>')


def picture(width, height, title, comment, parts):
    """The whole file; its own paper under it, so that it is read on white and on black."""
    head = (f'<svg xmlns="http://www.w3.org/2000/svg" width="{width:g}" height="{height:g}" viewBox="0 0 {width:g} '
            f'{height:g}" font-family="{FONT}">')
    paper = f'<rect width="{width:g}" height="{height:g}" rx="6" fill="{PAPER}"/>'
    return "\n".join([head, f"<title>{escaped(title)}</title>", f"<!--\n{comment}\n-->", paper, *parts, "</svg>", ""])
