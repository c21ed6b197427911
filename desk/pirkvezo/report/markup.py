"""Text that is safe in HTML and XML, and the smallest pieces of markup."""
import html

NAMES = {0x00: "NUL", 0x09: "TAB", 0x0d: "CR", 0x7f: "DEL", 0xfeff: "BOM"}


def visible(text):
    """The text with every character that XML forbids, or that cannot be seen, written out.

    >>> visible('a\\tb')
    'a[TAB]b'
    """
    return "".join(_character(c) for c in text)


def _character(character):
    code = ord(character)
    if code in NAMES:
        return f"[{NAMES[code]}]"
    if 0xdc80 <= code <= 0xdcff:
        return f"[{code - 0xdc00:02X}]"
    if code < 0x20 or 0x80 <= code < 0xa0 or 0xd800 <= code <= 0xdfff:
        return f"[{code:02X}]"
    if code in (0x2028, 0x2029, 0xfffe, 0xffff) or 0x200b <= code <= 0x200f \
            or 0x202a <= code <= 0x202e or 0x2066 <= code <= 0x2069:
        return f"[{code:04X}]"
    return character


def escape(text):
    """The text as it stands in an element or in an attribute."""
    return html.escape(visible(str(text)), quote=True)


def table(heads, rows, name=""):
    """A table; cells are markup already. A row is cells, or a pair of attributes and cells."""
    style = f' class="{name}"' if name else ""
    out = [f'<div class="scroll"><table{style}><thead><tr>']
    out += [f"<th>{head}</th>" for head in heads]
    out.append("</tr></thead><tbody>\n")
    for row in rows:
        attributes, cells = row if isinstance(row, tuple) else ("", row)
        out.append(f"<tr{attributes}>" + "".join(f"<td>{c}</td>" for c in cells) + "</tr>\n")
    out.append("</tbody></table></div>\n")
    return "".join(out)

