#!/usr/bin/env python3
"""Makes the csv files of this folder again, by LibreOffice: python3 make.py [FILE.csv ...]

Each file is a sheet and an export filter of the table below. The gate does not run this; its tests read the files.
"""

import pathlib
import subprocess
import sys
import tempfile
from xml.sax.saxutils import escape

HERE = pathlib.Path(__file__).resolve().parent

NAMESPACE = "urn:oasis:names:tc:opendocument:xmlns:"

DOCUMENT = f"""<?xml version="1.0" encoding="UTF-8"?>
<office:document office:version="1.3" office:mimetype="application/vnd.oasis.opendocument.spreadsheet"
  xmlns:office="{NAMESPACE}office:1.0" xmlns:style="{NAMESPACE}style:1.0" xmlns:text="{NAMESPACE}text:1.0"
  xmlns:table="{NAMESPACE}table:1.0" xmlns:number="{NAMESPACE}datastyle:1.0">
<office:automatic-styles>
<number:number-style style:name="N1" number:language="de" number:country="DE">
<number:number number:decimal-places="1" number:min-decimal-places="1" number:min-integer-digits="1"/></number:number-style>
<number:number-style style:name="N2" number:language="de" number:country="DE">
<number:number number:decimal-places="0" number:min-integer-digits="1" number:grouping="true"/></number:number-style>
<number:number-style style:name="N3" number:language="en" number:country="US">
<number:scientific-number number:decimal-places="0" number:min-integer-digits="1" number:min-exponent-digits="2"/>
</number:number-style>
<style:style style:name="decimal" style:family="table-cell" style:data-style-name="N1"/>
<style:style style:name="grouped" style:family="table-cell" style:data-style-name="N2"/>
<style:style style:name="scientific" style:family="table-cell" style:data-style-name="N3"/>
</office:automatic-styles>
<office:body><office:spreadsheet><table:table table:name="keywords">
ROWS
</table:table></office:spreadsheet></office:body></office:document>
"""

# The options of the export: separator, quote, encoding, first line, columns, language, quote all text, as shown.
DEFAULT = ""
COMMA = "44,34,76,1,,0,false,true"
QUOTE_ALL = "44,34,76,1,,0,true,true"
SEMICOLON = "59,34,76,1,,1031,false,true"
SEMICOLON_QUOTE_ALL = "59,34,76,1,,1031,true,true"
NOT_AS_SHOWN = "59,34,76,1,,1031,false,false"
TAB = "9,34,76,1,,0,false,true"
UTF_16 = "44,34,65535,1,,0,false,true"
UTF_16_TAB = "9,34,65535,1,,0,true,true"
WINDOWS = "59,34,1,1,,1031,false,true"

# A cell is text, a number, a number with the name of its style, or None. A row is its cells.
TEXT = [
    ["text", "energy", "note"],
    ["LM", 40, "load, then move"],
    ["ALM", 55, 'the "long" form'],
    ["AD", 90, "für später"],
    ["4c4d", 7, None],
]
HEX = [["name", "hex", "energy"], ["load", "4c 4d", 40], ["add", "AD", 55], ["jump", "0x4C4D4C41", 90], [None, "00ff", 0]]
GERMAN = [["hex", "energy", "Größe"], ["4c 4d", (40, "grouped"), (3.5, "decimal")], ["41 4c 4d", (55, "grouped"), None]]
FRACTION = [["hex", "energy"], ["4c 4d", (40.5, "decimal")], ["41 4c 4d", (55, "decimal")], ["ff", 1]]

FILES = {
    "text-default.csv": (TEXT, DEFAULT),
    "text-utf8.csv": (TEXT, COMMA),
    "text-quote-all.csv": (TEXT, QUOTE_ALL),
    "text-tab.csv": (TEXT, TAB),
    "text-utf16.csv": (TEXT, UTF_16),
    "text-utf16-tab.csv": (TEXT, UTF_16_TAB),
    "text-windows.csv": (TEXT, WINDOWS),
    "hex-default.csv": (HEX, DEFAULT),
    "hex-quote-all.csv": (HEX, QUOTE_ALL),
    "german-whole.csv": (GERMAN, SEMICOLON),
    "german-whole-quote-all.csv": (GERMAN, SEMICOLON_QUOTE_ALL),
    "german-fraction.csv": (FRACTION, SEMICOLON),
    "german-fraction-comma.csv": (FRACTION, COMMA),
    "german-fraction-not-as-shown.csv": (FRACTION, NOT_AS_SHOWN),
    "german-thousands.csv": ([["hex", "energy"], ["4c 4d", (1234, "grouped")], ["ff", (12, "grouped")]], SEMICOLON),
    "scientific.csv": ([["hex", "energy"], ["4c 4d", (40, "scientific")]], COMMA),
    "no-header-hex.csv": ([["4c 4d", 40], ["414c4d", 55], ["0xff", 90]], DEFAULT),
    "no-header-text.csv": ([["LM", 40], ["ALM", 55], ["AD", 90]], QUOTE_ALL),
    "other-header.csv": ([["Sequence", "Energy (pJ)"], ["LM", 40], ["ALM", 55], ["AD", 90]], DEFAULT),
    "typed-quotes.csv": ([["text", "energy"], ['"LM"', 40], ["ALM", 55], ["\u201cAD\u201d", 90]], COMMA),
    "note-lines.csv": ([["text", "energy", "note"], ["LM", 40, "one\ntwo, \"2\"\n\nfour"], ["A", 55, "x"], ["A", 1, None]], COMMA),
    "note-lines-good.csv": ([["note\n(free)", "text", "energy"], ["one\n\ntwo", "LM", 40], [None, "ALM", 55]], QUOTE_ALL),
    "blank-rows.csv": ([[], [], ["hex", "energy"], [], ["4c 4d", 40], [None, None], ["ad", 55], [], [" ", " "]], COMMA),
    "only-a-note.csv": ([["hex", "energy", "note"], ["4c 4d", 40, None], [None, None, "still to be measured"]], COMMA),
    "stray-cell.csv": ([["hex", "energy"], ["4c 4d", 40], ["ad", 55, None, "checked"]], COMMA),
    "numbers.csv": ([["hex", "energy"], [10, 40], [4142, 55], ["00 10", 90]], COMMA),
    "numbers-odd.csv": ([["hex", "energy"], [102, 40], [4, 55], [4e10, 90], [(4e10, "scientific"), 1]], COMMA),
}


def cell(value):
    """A cell of the sheet."""
    value, style = value if isinstance(value, tuple) else (value, None)
    look = f' table:style-name="{style}"' if style else ""
    if value is None:
        return "<table:table-cell/>"
    if isinstance(value, str):
        spaced = lambda line: escape(line).replace(" ", "<text:s/>")
        lines = "".join(f"<text:p>{spaced(line)}</text:p>" for line in value.split("\n"))
        return f'<table:table-cell office:value-type="string"{look}>{lines}</table:table-cell>'
    return f'<table:table-cell office:value-type="float" office:value="{value}"{look}/>'


def sheet(rows):
    """A spreadsheet document with one sheet."""
    inside = [f"<table:table-row>{''.join(map(cell, row)) or '<table:table-cell/>'}</table:table-row>" for row in rows]
    return DOCUMENT.replace("ROWS", "\n".join(inside))


def make(name, folder):
    """One csv, by LibreOffice with a profile of its own."""
    rows, options = FILES[name]
    source = folder / name.replace(".csv", ".fods")
    source.write_text(sheet(rows), encoding="utf-8")
    form = f"csv:Text - txt - csv (StarCalc):{options}" if options else "csv"
    command = ["soffice", f"-env:UserInstallation={(folder / 'profile').as_uri()}", "--headless", "--convert-to", form]
    subprocess.run([*command, "--outdir", str(HERE), str(source)], check=True, timeout=300, stdout=subprocess.DEVNULL)


def main():
    """The files that are named, or all."""
    with tempfile.TemporaryDirectory() as folder:
        for name in sys.argv[1:] or FILES:
            make(name, pathlib.Path(folder))


main()
