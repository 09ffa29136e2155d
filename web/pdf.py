"""The text of a PDF that a browser has made: what its fonts say that each glyph is, page after page, in the order in
which it is drawn."""
import re
import zlib


def objects_of(data):
    """The objects by their numbers, each with what stands before its stream, and the stream."""
    found = {}
    for part in re.finditer(rb"(?m)^(\d+) 0 obj\b(.*?)^endobj", data, re.S):
        head, _, stream = part[2].partition(b"stream")
        content = stream.lstrip(b"\r\n").rpartition(b"endstream")[0]
        if b"/FlateDecode" in head and content:
            content = zlib.decompressobj().decompress(content)
        found[int(part[1])] = head, content
    return found


def glyphs_of(text):
    """The characters by the numbers of their glyphs."""
    found = {}
    for block in re.findall(r"beginbfchar(.*?)endbfchar", text, re.S):
        for glyph, char in re.findall(r"<([0-9A-Fa-f]+)>\s*<([0-9A-Fa-f]+)>", block):
            found[int(glyph, 16)] = bytes.fromhex(char).decode("utf-16-be")
    for block in re.findall(r"beginbfrange(.*?)endbfrange", text, re.S):
        for first, last, char in re.findall(r"<([0-9A-Fa-f]+)>\s*<([0-9A-Fa-f]+)>\s*<([0-9A-Fa-f]+)>", block):
            for k in range(int(first, 16), int(last, 16) + 1):
                found[k] = chr(int(char, 16) + k - int(first, 16))
    return found


def text_of(data):
    """The text, a line for each piece that is drawn."""
    objects = objects_of(data)
    fonts = {}
    for number, (head, _) in objects.items():
        found = re.search(rb"/ToUnicode (\d+) 0 R", head)
        if found:
            fonts[number] = glyphs_of(objects[int(found[1])][1].decode("latin-1"))
    names = {}
    for head, _ in objects.values():
        for name, number in re.findall(rb"/(F\d+) (\d+) 0 R", head):
            names[name.decode()] = fonts.get(int(number), {})
    lines = []
    for head, content in objects.values():
        font = {}
        for name, drawn in re.findall(r"/(F\d+) [-\d.]+ Tf|((?:<[0-9A-Fa-f]*>|\[[^\]]*\]) *T[jJ])",
            content.decode("latin-1")):
            if name:
                font = names.get(name, {})
                continue
            glyphs = "".join(re.findall(r"<([0-9A-Fa-f]*)>", drawn))
            lines.append("".join(font.get(int(glyphs[k:k + 4], 16), "?") for k in range(0, len(glyphs), 4)))
    return "\n".join(lines)
