"""A picture in SVG: elements, gathered one by one."""

from xml.sax.saxutils import escape


class Drawing:
    def __init__(self):
        self.out = []

    def put(self, name, text=None, title=None, **attributes):
        pairs = ""
        for key, value in attributes.items():
            shown = f"{value:.1f}" if isinstance(value, float) else escape(str(value))
            pairs += f' {key.replace("_", "-")}="{shown}"'
        inner = (f"<title>{escape(title)}</title>" if title else "") + (escape(text) if text else "")
        self.out.append(f"<{name}{pairs}>{inner}</{name}>" if inner else f"<{name}{pairs}/>")

    def label(self, x, y, text, size=12, anchor="start", fill="#263238", **more):
        self.put("text", text, x=float(x), y=float(y), font_size=size, text_anchor=anchor, fill=fill, **more)

    def document(self, width, height):
        """The whole picture, on white."""
        body = "\n".join(self.out)
        return (
            f'<svg xmlns="http://www.w3.org/2000/svg" width="{width:.0f}" height="{height:.0f}" '
            f'viewBox="0 0 {width:.0f} {height:.0f}" font-family="sans-serif">\n'
            f'<rect width="100%" height="100%" fill="#ffffff"/>\n{body}\n</svg>\n'
        )
