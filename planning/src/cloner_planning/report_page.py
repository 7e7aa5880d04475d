"""The page of a report: HTML without scripts, pictures in it, and no links to elsewhere."""
from html import escape
from typing import Iterable, List, Sequence

from .tables import Column, Row, shown

STYLE = """body { font: 15px/1.45 sans-serif; max-width: 60em; margin: 2em auto; padding: 0 1em; color: #222 }
table { border-collapse: collapse; margin: 0.6em 0 1.4em } th, td { padding: 2px 9px; text-align: right }
th { border-bottom: 2px solid #888 } tr:nth-child(even) { background: #F5F5F5 }
th.name, td.name { text-align: left } svg { width: 100%; height: auto; font-family: sans-serif }
h2 { margin-top: 1.8em; border-bottom: 1px solid #CCC } li { margin: 0.2em 0 } .note { color: #555 }"""


def paragraph(text: str, kind: str = "") -> str:
    """Returns a paragraph."""
    return f'<p class="{kind}">{escape(text)}</p>' if kind else f"<p>{escape(text)}</p>"


def heading(text: str, level: int = 2) -> str:
    """Returns a heading."""
    return f"<h{level}>{escape(text)}</h{level}>"


def bullets(lines: Iterable[str]) -> str:
    """Returns a list."""
    return "<ul>" + "".join(f"<li>{escape(line)}</li>" for line in lines) + "</ul>"


def table(columns: Sequence[Column], rows: Iterable[Row], names: Sequence[str]) -> str:
    """Returns a table; columns of `names` are set left."""
    def cell(kind: str, key: str, text: str) -> str:
        return f'<{kind} class="name">{escape(text)}</{kind}>' if key in names else f"<{kind}>{escape(text)}</{kind}>"
    lines = ["<table><thead><tr>" + "".join(cell("th", key, head) for key, head in columns) + "</tr></thead><tbody>"]
    lines += ["<tr>" + "".join(cell("td", key, shown(row.get(key), 2, "-")) for key, _ in columns) + "</tr>"
              for row in rows]
    return "\n".join(lines) + "</tbody></table>"


def page(title: str, parts: List[str]) -> str:
    """Returns the whole page."""
    return (f'<!DOCTYPE html>\n<html lang="en"><head><meta charset="utf-8"><title>{escape(title)}</title>\n'
            f"<style>{STYLE}</style></head>\n<body>\n{heading(title, 1)}\n" + "\n".join(parts) + "\n</body></html>\n")
