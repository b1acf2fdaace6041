#!/usr/bin/env python3
"""Compares the forms that other programs read with each other and with reports, over the texts of
tests/cases and random ones: each line is what its form wants, all tell the same findings and notes,
and the columns lead to what is quoted.

Usage: tests/form_texts.py REPORTER [NUMBER [SEED]]    as many random texts
"""
import json
import random
import re
import subprocess
import sys
from urllib.parse import unquote_to_bytes

from report_judge import size_of
from report_texts import LARGEST, NAMES, asked, case_texts, some_text

HEAD = re.compile(r"(?:.*):(\d+):(\d+): (?:([EW]\d\d) |(note): )(.*)", re.S)
ANNOTATION = re.compile(
    r"::(error|warning) file=([^,:\r\n]*),line=(\d+),col=(\d+),endColumn=(\d+),"
    r"title=([EW]\d\d)::(.*)"
)
NEAR = "a near name"


def told(program, form, name, text):
    """The lines that are told of a text in a form."""
    made = subprocess.run([program, form], input=asked(name, text), capture_output=True)
    assert made.returncode < 2 and not made.stderr and made.stdout.endswith(b"\n"), made
    return made.stdout.decode().split("\n")[:-1]


def level_of(code):
    return "error" if code[0] == "E" else "warning"


# ---- each form as findings: a place (line, column, column after it), a code, a message, a note


def of_report(lines):
    """What a report tells; where a place ends is not among it."""
    found = []
    for at in range(0, len(lines) - 2, 3):
        line, column, code, _, words = HEAD.fullmatch(lines[at]).groups()
        place = int(line), int(column)
        if code:
            near = re.search(r"[\^~] near: '(.*)'$", lines[at + 2])
            found.append([place, code, words, (None, NEAR) if near else None])
        else:
            found[-1][3] = place, words
    return found


def place_of(it, names=("line", "column", "end_column")):
    return tuple(it[name] for name in names)


def of_objects(lines):
    for line in lines:
        it = json.loads(line)
        notes = it.pop("notes", [])
        members = "file line column end_column severity code message".split()
        assert list(it) == members and it["severity"] == level_of(it["code"]), line
        assert len(notes) < 2 and all(list(at) == [*members[:4], "message"] for at in notes), line
        note = (place_of(notes[0]), notes[0]["message"], notes[0]["file"]) if notes else None
        yield place_of(it), it["code"], it["message"], note, it["file"]


def of_annotations(lines):
    for line in lines:
        level, file, *place, code, message = ANNOTATION.fullmatch(line).groups()
        assert level == level_of(code), line
        yield tuple(map(int, place)), code, message, None, unquote_to_bytes(file).decode()


def of_location(it):
    """The place of a location, none for line 0, and the reference of its file."""
    it = it["physicalLocation"]
    region = it.get("region")
    place = region and place_of(region, ("startLine", "startColumn", "endColumn"))
    return place, it["artifactLocation"]["uri"]


def of_results(lines):
    for line in lines:
        it = json.loads(line)
        code, level, message = it["ruleId"], it["level"], it["message"]["text"]
        others = it.get("relatedLocations", [])
        assert level == level_of(code) and len(it["locations"]) == 1 and len(others) < 2, line
        note = None
        if others:
            place, file = of_location(others[0])
            note = place, others[0]["message"]["text"], file
        place, file = of_location(it["locations"][0])
        yield place, code, message, note, file


# ---- what is wrong


def characters(data):
    """How many characters bytes have; each that is none of UTF-8 counts, but those within one."""
    return sum(not 0x80 <= byte <= 0xBF for byte in data)


def offset_of(text, line, column):
    return sum(len(it) + 1 for it in text.split(b"\n")[: line - 1]) + column - 1


def in_characters(text, place):
    """A place that counts bytes as one that counts characters. What is marked may be of more than
    one line, and its columns are counted on."""
    line, column, end = place
    at = offset_of(text, line, column)
    first = characters(text[at - column + 1 : at]) + 1
    return line, first, first + characters(text[at : at + end - column])


def wrong_place(text, place, quoted):
    line, column, end = place
    at = offset_of(text, line, column)
    if quoted and text[at : at + end - column] != quoted.encode():
        return f"{quoted!r} is not at {place}"
    return "" if 1 <= column <= end else f"{place} is none"


def named(data):
    """A name as the forms tell it: bytes that are no UTF-8 as `\\x` and two digits."""
    told, at = "", 0
    while at < len(data):
        size = size_of(data[at : at + 4])
        told += data[at : at + size].decode() or f"\\x{data[at]:02x}"
        at += size or 1
    return told


def file_of(reference):
    is_from_root = reference.startswith("file:///")
    path = unquote_to_bytes(reference.removeprefix("file://"))
    assert is_from_root == path.startswith(b"/"), reference
    return named(path)


def wrong_in_finding(text, is_marked, told_by):
    """What is wrong with a finding, as the forms tell it."""
    report, item, annotation, result = told_by
    place, code, message, note, file = item
    said = report[0], *report[1:3]
    if said != (place[:2], code, message):
        return f"{report} is reported, and not {item}"
    wanted = note and (None if note[1] == NEAR else note[0][:2], note[1])
    if report[3] != wanted:
        return f"the note {report[3]} is reported, and not {note}"
    if annotation[1:3] != (code, message) or result[1:3] != (code, message):
        return f"{annotation} and {result} are told, and not {item}"
    if annotation[4] != file or file_of(result[4]) != file:
        return f"{annotation[4]!r} and {result[4]!r} are named, and not {file!r}"
    if (note and note[1]) != (result[3] and result[3][1]):
        return f"the note {result[3]} is told, and not {note}"
    if is_marked:
        return ""
    if annotation[0] != in_characters(text, place) or result[0] != annotation[0]:
        return f"{annotation[0]} and {result[0]} are told, and not {in_characters(text, place)}"
    if note and result[3][0] != in_characters(text, note[0]):
        return f"{result[3][0]} is told of a note, and not {in_characters(text, note[0])}"
    return wrong_place(text, place, message.partition("'")[2][:-1])


def wrong_in_forms(program, name, text):
    lines = {it: told(program, it, name, text) for it in ("report", "json", "github", "sarif")}
    sums = {it[-1] for it in lines.values()}
    findings = [
        of_report(lines["report"]),
        list(of_objects(lines["json"][:-1])),
        list(of_annotations(lines["github"][:-1])),
        list(of_results(lines["sarif"][:-1])),
    ]
    if len(sums) != 1 or len(set(map(len, findings))) != 1:
        return f"{sums}, {list(map(len, findings))} findings"
    is_marked = bool(re.search(rb"#[ \t]*(line)?[ \t]*\d", text))
    wrongs = (wrong_in_finding(text, is_marked, it) for it in zip(*findings))
    return next(filter(None, wrongs), "")


def main():
    number = int(sys.argv[2]) if len(sys.argv) > 2 else 100
    chance = random.Random(int(sys.argv[3]) if len(sys.argv) > 3 else 1)
    texts = [it for it in case_texts() if len(it) < LARGEST]
    texts += [some_text(chance) for _ in range(number)]
    passed = failed = 0
    for text in texts:
        name = chance.choice(NAMES)
        wrong = wrong_in_forms(sys.argv[1], name, text)
        if wrong:
            failed += 1
            print(f"{name!r}, {text[:300]!r}: {wrong[:1000]}", flush=True)
        else:
            passed += 1
    print(f"{passed} passed, {failed} failed")
    return 1 if failed else 0


if __name__ == "__main__":
    sys.exit(main())
