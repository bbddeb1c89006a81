#!/usr/bin/env python3
"""The tree of a message by its definition, as plainly as it can be written: slow, and meant to be read.

It is a second reading of the rules that crates/mime_tree proves its code against. bench/mime_tree.py compares the two on malformed
messages. `list_parts` returns the text that `bench tree` prints.

It leaves out: encoded words in names, Content-ID, Content-Location, and what want of memory does.
"""
import re
from collections import namedtuple

Line = namedtuple("Line", "start next text")  # where the break before it begins, where the next line begins
Node = namedtuple("Node", "path whole around enclosed body to content")
BLANK = b" \t"
TOKEN = rb"[!#$%&'*+\-.0-9A-Z^_`a-z{|}~]+"
PLAIN = {b"", b"7bit", b"8bit", b"binary"}


def lines_of(text):
    """The lines of a text with their places. A line ends at LF, and a CR before it belongs to the break."""
    lines, start, at = [], 0, 0
    for piece in re.findall(rb"[^\n]*\n|[^\n]+", text):
        line = piece
        if piece.endswith(b"\n"):
            line = piece[:-2] if piece.endswith(b"\r\n") else piece[:-1]
        lines.append(Line(start, at + len(piece), line))
        start, at = at + len(line), at + len(piece)
    return lines


def delimiter(boundary, line):
    """'open', 'close' or None."""
    if not line.startswith(b"--" + boundary):
        return None
    tail = line[2 + len(boundary):]
    if not tail.strip(BLANK):
        return "open"
    if tail.startswith(b"--") and not tail[2:].strip(BLANK):
        return "close"
    return None


def places(boundary, text):
    """The places between the delimiter lines, up to the first that closes, or to the end where none does."""
    marks = [(line, delimiter(boundary, line.text)) for line in lines_of(text)]
    marks = [(line, kind) for line, kind in marks if kind]
    for n, (_, kind) in enumerate(marks):
        if kind == "close":
            marks = marks[:n + 1]
            break
    found = [(a.next, max(a.next, b.start)) for (a, _), (b, _) in zip(marks, marks[1:])]
    if marks and marks[-1][1] == "open":
        found.append((marks[-1][0].next, len(text)))
    return found


def header_of(text):
    """The fields as pairs of a name in lower case and an unfolded value, and where the body begins."""
    fields, field = [], None
    for line in lines_of(text):
        if line.text == b"":
            return fields, line.next
        match = re.match(rb"([!-9;-~]+):", line.text)
        if match:
            field = [match.group(1).lower(), line.text[match.end():]]
            fields.append(field)
        elif field and line.text[:1] in (b" ", b"\t"):
            field[1] += b" " + line.text.lstrip(BLANK)
    return fields, len(text)


def value(fields, name):
    return next((text for found, text in fields if found == name), b"")


def pieces(text):
    """The pieces between the `;` outside quoted strings."""
    found, quoted, escaped, piece = [], False, False, b""
    for n in text:
        byte = bytes([n])
        if not quoted and byte == b";":
            found.append(piece)
            piece = b""
            continue
        piece += byte
        if escaped:
            escaped = False
        elif quoted and byte == b"\\":
            escaped = True
        elif byte == b'"':
            quoted = not quoted
    return found + [piece]


def first_piece(text):
    return pieces(text)[0].strip(BLANK)


def parameter(text, name):
    for piece in pieces(text)[1:]:
        left, equals, right = piece.partition(b"=")
        if not equals or left.strip(BLANK).lower() != name:
            continue
        right = right.strip(BLANK)
        if not right.startswith(b'"'):
            return right
        match = re.fullmatch(rb'"((?:[^"\\]|\\[\s\S])*)"', right)
        if match:
            return re.sub(rb"\\([\s\S])", rb"\1", match.group(1))
    return None


def text_of(found, default):
    return default if found is None else found.decode("utf-8", "replace")


def content_of(default, fields):
    kind = value(fields, b"content-type")
    if not re.fullmatch(TOKEN + b"/" + TOKEN, first_piece(kind)):
        kind = b""
    disposition = value(fields, b"content-disposition")
    coding = value(fields, b"content-transfer-encoding").strip(BLANK).lower()
    name = parameter(disposition, b"filename")
    flowed = (parameter(kind, b"format") or b"").lower() == b"flowed"
    del_sp = (parameter(kind, b"delsp") or b"").lower() == b"yes"
    codings = {b"base64": "base64", b"quoted-printable": "quoted"}
    return {
        "mime": first_piece(kind).lower().decode() if kind else default,
        "boundary": parameter(kind, b"boundary") or None,
        "charset": text_of(parameter(kind, b"charset"), "utf-8"),
        "coding": "plain" if coding in PLAIN else codings.get(coding),
        "attached": first_piece(disposition).lower() == b"attachment",
        "name": text_of(parameter(kind, b"name") if name is None else name, ""),
        "format": ("flowed+delsp" if del_sp else "flowed") if flowed else "fixed",
    }


def node_at(message, default, path, whole, around, enclosed, start, to):
    fields, body = header_of(message[start:to])
    return Node(path, whole, around, enclosed, start + body, to, content_of(default, fields))


def is_multipart(node):
    return node.content["mime"].startswith("multipart/")


def is_message(node):
    return node.content["mime"] == "message/rfc822"


def section_of(node):
    return node.path + [1] if node.whole else node.path


def inside(message, node):
    if not is_multipart(node):
        return [node_at(message, "text/plain", section_of(node), True, node.around + 1, True, node.body, node.to)]
    default = "message/rfc822" if node.content["mime"] == "multipart/digest" else "text/plain"
    found = places(node.content["boundary"] or b"", message[node.body:node.to])
    return [
        node_at(message, default, node.path + [number], False, node.around + 1, node.enclosed, node.body + a, node.body + b)
        for number, (a, b) in enumerate(found[:1100], 1)
    ]


def can_open(node):
    return node.around <= 32 and (is_message(node) or (is_multipart(node) and node.content["boundary"] is not None))


def part_of(node, raw):
    part = dict(node.content, section=section_of(node), enclosed=node.enclosed, place=(node.body, node.to))
    part["coding"] = part["coding"] or "plain"
    if raw:
        part["mime"] = "application/octet-stream"
    return part


def tree_of(message):
    """Whether the message is an alternative, and its parts in tree order."""
    root = node_at(message, "text/plain", [], True, 0, False, 0, len(message))
    parts, waiting = [], [root]
    while waiting:
        node, rest = waiting[0], waiting[1:]
        own = [] if node.whole and is_multipart(node) else [part_of(node, False)]
        children = inside(message, node) if can_open(node) else None
        if children is not None and len(parts) + len(rest) + len(own) + len(children) <= 1000:
            parts, waiting = parts + own, children + rest
        else:
            raw = is_multipart(node) or is_message(node) or node.content["coding"] is None
            parts, waiting = parts + [part_of(node, raw)], rest
    return root.content["mime"] == "multipart/alternative", parts


READ = {"utf-8", "utf8", "us-ascii", "ascii", "iso-8859-1", "latin1", "windows-1252", "cp1252", "iso-8859-15", "latin9"}


def is_text(part):
    return part["mime"] in ("text/plain", "text/html") and not part["attached"] and not part["enclosed"]


def given(alternative, parts, around):
    """What a multipart gives, by recursion: its last child that gives a leaf, or its first."""
    own = {tuple(part["section"]): part for part in parts}
    here = alternative if not around else own[tuple(around)]["mime"] == "multipart/alternative"
    size = len(around) + 1
    children = sorted({tuple(p["section"][:size]) for p in parts if p["section"][:size - 1] == around and len(p["section"]) >= size})
    for child in reversed(children) if here else children:
        part = own[child]
        if is_text(part) and part["charset"].lower() in READ:
            return part
        if part["mime"].startswith("multipart/"):
            leaf = given(alternative, parts, list(child))
            if leaf:
                return leaf
    return None


def best_of(alternative, parts):
    leaf = given(alternative, parts, [])
    if leaf:
        kind = "html" if leaf["mime"] == "text/html" else {"fixed": "plain"}.get(leaf["format"], leaf["format"])
        return kind, leaf["section"]
    leaf = next((part for part in parts if is_text(part)), None)
    return ("unread", leaf["section"]) if leaf else ("nothing", None)


def spelled(section):
    return ".".join(map(str, section))


def list_parts(message):
    alternative, parts = tree_of(message)
    rows = []
    for part in parts:
        a, b = part["place"]
        attached = "attached" if part["attached"] else "inline"
        rows.append(f"{spelled(part['section'])} {part['mime']} {part['charset']} {part['coding']} {part['format']} {attached} {b - a} {part['name']}\n")
    kind, section = best_of(alternative, parts)
    rows.append(kind + (" " + spelled(section) if section else "") + "\n")
    return "".join(rows)


if __name__ == "__main__":
    import sys
    sys.stdout.write(list_parts(sys.stdin.buffer.read()))
