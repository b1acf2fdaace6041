"""Texts and places by the rules of the protocol."""


def offset_of(text, line, character, is_utf8):
    """The offset of a place: a line ends at its LF or CRLF, and a place in a character is where
    that begins."""
    start = 0
    for _ in range(line):
        end = text.find(b"\n", start)
        if end < 0:
            return len(text)
        start = end + 1
    end = text.find(b"\n", start)
    if end < 0:
        end = len(text)
    elif end > start and text[end - 1] == 13:
        end -= 1
    units = 0
    for letter in text[start:end].decode():
        size = len(letter.encode())
        units += size if is_utf8 else 1 + (ord(letter) > 0xFFFF)
        if units > character:
            return start
        start += size
    return end


def changed(text, change, is_utf8):
    """The text after a change; none where it can't be followed."""
    new = change["text"].encode()
    if "range" not in change:
        return new
    if text is None:
        return None
    start, stop = (
        offset_of(text, place["line"], place["character"], is_utf8)
        for place in (change["range"]["start"], change["range"]["end"])
    )
    return text[:start] + new + text[stop:] if start <= stop else None


def place_of(text, offset, is_utf8):
    """The line of an offset, where a character begins, and how many units are before it there."""
    start = text.rfind(b"\n", 0, offset) + 1
    before = text[start:offset]
    units = len(before) if is_utf8 else len(before.decode().encode("utf-16-le")) // 2
    return text.count(b"\n", 0, offset), units
