#!/usr/bin/env python3
"""Makes the pictures and sheets in data/, and writes the cases of data/files.cases below its head, by other programs: netpbm 11,
Python's csv and json, and LibreOffice Calc 7, or else the sheets of Calc's that are in data/.

    fixtures.py           in the folder of the crate

A picture's rows are what netpbm writes of it as plain text; a turned or cut picture is netpbm's. A sheet's rows are what
Python's csv reads, and its text again is what that writes. The texts of faults are given here, and what is made of the
short texts at the end, which were found by hand: for each call, the text and what is expected.
"""
import csv
import io
import json
import os
import re
import shutil
import subprocess
import zipfile

OUT = []


def run(words, given=b""):
    return subprocess.run(words.split(), input=given, capture_output=True, check=True).stdout


def keep(name, content):
    with open(f"data/{name}", "wb") as file:
        file.write(content)
    return content


def say(line, *said):
    OUT.extend([f"== {line}", *said])


# ---- pictures


def rows_of(content):
    """The head and the rows of the first picture, by netpbm's plain form of it."""
    words = run("pnmtoplainpnm", content).decode().split()
    cols, rows, white = map(int, words[1:4])
    wide = 3 if words[0] == "P3" else 1
    cells = [" ".join(words[at : at + wide]) for at in range(4, len(words), wide)]
    assert len(cells) >= rows * cols
    lines = [",".join(cells[at * cols : (at + 1) * cols]) for at in range(rows)]
    return [f"{rows} rows, {cols} columns, white is {white}", *lines]


def picture(name, content):
    keep(name, content)
    say(f"{'colored' if name.endswith('ppm') else 'gray'} {name}", *rows_of(content))


def turned(call, name, content, want):
    """What a call makes of a picture is, to the byte, what netpbm makes of it."""
    made = re.sub(r"\.", f"_{call}.", name) if call != "copied" else name.replace("_plain", "")
    keep(made, want)
    say(f"{call} {name} {made}", "the same bytes")


def pictures():
    noise = run("pgmnoise -randomseed=7 7 5")
    picture("noise.pgm", noise)
    picture("noise_plain.pgm", run("pnmtoplainpnm", noise))
    few = run("pamdepth 15", noise)
    picture("noise_15.pgm", few)
    picture("noise_15_plain.pgm", run("pnmtoplainpnm", few))
    picture("one.pgm", run("pgmmake 0.5 1 1"))
    # its plain rows are broken over lines
    picture("wide_plain.pgm", run("pnmtoplainpnm", run("pgmnoise -randomseed=9 30 3")))
    # the samples are line feeds, number signs and spaces
    picture("blank.pgm", run("pnmtopnm", b"P2 4 2 255 10 35 32 10 13 9 35 10\n"))
    # netpbm writes no comments, but reads them
    picture("comments.pgm", b"P5\n# CREATOR: some program\n#\n7 # columns\n5\n255\n" + noise[11:])
    picture("comments_plain.pgm", b"P2 # 9 9\n3 1\n15 # white\n1 # one\n2\n#3\n4\n")
    picture("tall_plain.pgm", run("pnmtoplainpnm", run("pgmnoise -randomseed=4 1 6")))
    # two pictures in one file: the first is read
    picture("two.pgm", noise + run("pgmmake 0.5 1 1"))
    for name, seed in ("red", 1), ("green", 2), ("blue", 3):
        with open(name, "wb") as file:
            file.write(run(f"pgmnoise -randomseed={seed} 4 3"))
    colors = run("rgb3toppm red green blue")
    for name in "red", "green", "blue":
        os.remove(name)
    picture("colors.ppm", colors)
    picture("colors_plain.ppm", run("pnmtoplainpnm", colors))
    picture("colors_31.ppm", run("pamdepth 31", colors))
    turned("copied", "noise_plain.pgm", noise, noise)
    turned("copied", "colors_plain.ppm", colors, colors)
    for call, words in [
        ("rotate_right", "pamflip -cw"),
        ("rotate_left", "pamflip -ccw"),
        ("rotate_half", "pamflip -rotate180"),
        ("flip_rows", "pamflip -topbottom"),
        ("flip_cols", "pamflip -leftright"),
        ("transpose", "pamflip -transpose"),
        ("cut", "pamcut -left 2 -top 1 -width 4 -height 3"),
        ("enlarged_3", "pamenlarge 3"),
    ]:
        turned(call, "noise.pgm", noise, run(words, noise))
    turned("rotate_right", "colors.ppm", colors, run("pamflip -cw", colors))
    keep("none.pgm", b"P5\n0 0\n255\n")
    say("copied none.pgm none.pgm", "the same bytes")
    say("enlarged_0 noise.pgm none.pgm", "the same bytes")
    say("too_large noise.pgm", "too many cells")
    # netpbm reads the first three of these, and says of the last that it ends early
    keep("deep.pgm", run("pamdepth 65535", run("pgmmake 0.5 1 1")))
    say("gray deep.pgm", "the greatest sample is 65535, not 1 to 255, before byte 12")
    say("gray colors.ppm", "no magic number of such a picture at byte 0")
    keep("bits.pbm", run("pbmmake -black 3 2"))
    say("gray bits.pbm", "no magic number of such a picture at byte 0")
    keep("short.pgm", noise[:-1])
    say("gray short.pgm", "too few bytes from byte 11 on for 5 rows of 7 cells")


# ---- sheets

HEADER = ["name", "amount, in €", 'the "note"']
ROWS = [
    ["Lovelace, Ada", "12", "first\nsecond"],
    ['O"Neil', "", "a\r\nb"],
    [" Noether ", "-3.5", ""],
    ["żółw", "1e3", "'; --"],
]


def written(rows, mark=False, **how):
    text = io.StringIO()
    csv.writer(text, **how).writerows(rows)
    return text.getvalue().encode("utf-8-sig" if mark else "utf-8")


def read(content):
    """The records of a sheet, by Python's csv, without the blank lines, which it gives as records without fields."""
    return [row for row in csv.reader(io.StringIO(content.decode("utf-8-sig"), newline="")) if row]


def as_json(rows):
    return json.dumps(rows, ensure_ascii=False, separators=(",", ":"))


def sheet(name, content):
    keep(name, content)
    say(f"sheet {name}", as_json(read(content)))


def headed(name, content):
    keep(name, content)
    header, *rows = read(content)
    say(f"headed {name}", json.dumps(header, ensure_ascii=False), as_json(rows))


def again(call, name, content):
    """The sheet as Python writes it with line feeds alone."""
    want = name.replace(".", "_again.")
    keep(want, written(read(content), lineterminator="\n"))
    say(f"{call} {name} {want}", "the same bytes")


def calc():
    """A sheet as Calc writes it from its own format, with the default words and with all texts in quotes."""
    office = shutil.which("libreoffice")
    if not office:
        for made in "calc.csv", "calc_quotes.csv":
            with open(f"data/{made}", "rb") as file:
                headed(made, file.read())
        return
    cell = lambda text: "<table:table-cell office:value-type='string'>" + "".join(
        f"<text:p>{part.replace('&', '&amp;').replace('<', '&lt;')}</text:p>" for part in text.split("\n")
    ) + "</table:table-cell>"
    line = lambda row: "<table:table-row>" + "".join(map(cell, row)) + "</table:table-row>"
    name = "urn:oasis:names:tc:opendocument:xmlns"
    rows = [HEADER, *[[text.replace("\r", "") for text in row] for row in ROWS]]
    document = (
        f"<?xml version='1.0' encoding='UTF-8'?><office:document-content xmlns:office='{name}:office:1.0' office:version='1.2'"
        f" xmlns:table='{name}:table:1.0' xmlns:text='{name}:text:1.0'><office:body><office:spreadsheet>"
        f"<table:table table:name='one'>{''.join(map(line, rows))}</table:table></office:spreadsheet></office:body>"
        "</office:document-content>"
    )
    kind = "application/vnd.oasis.opendocument.spreadsheet"
    manifest = (
        f"<?xml version='1.0' encoding='UTF-8'?><m:manifest xmlns:m='{name}:manifest:1.0' m:version='1.2'>"
        f"<m:file-entry m:full-path='/' m:media-type='{kind}'/>"
        "<m:file-entry m:full-path='content.xml' m:media-type='text/xml'/></m:manifest>"
    )
    os.makedirs("calc", exist_ok=True)
    with zipfile.ZipFile("calc/calc.ods", "w") as file:
        file.writestr("mimetype", kind)
        file.writestr("content.xml", document)
        file.writestr("META-INF/manifest.xml", manifest)
    for made, quotes in ("calc.csv", "false"), ("calc_quotes.csv", "true"):
        how = f'csv:Text - txt - csv (StarCalc):44,34,76,1,,0,{quotes}'
        words = [office, f"-env:UserInstallation=file://{os.getcwd()}/calc", "--headless", "--convert-to", how, "--outdir", "calc", "calc/calc.ods"]
        subprocess.run(words, check=True, capture_output=True)
        with open("calc/calc.csv", "rb") as file:
            headed(made, file.read())
    shutil.rmtree("calc")


def sheets():
    excel = written([HEADER, *ROWS], mark=True)
    headed("excel.csv", excel)
    again("sheet_again", "excel.csv", excel)
    again("headed_again", "excel.csv", excel)
    keep("excel_transposed.csv", written(zip(*read(excel)), lineterminator="\n"))
    say("sheet_transposed excel.csv excel_transposed.csv", "the same bytes")
    say("transposed excel.csv", as_json(list(zip(*read(excel)))))
    sheet("excel.csv", excel)
    sheet("no_header.csv", written(ROWS))
    # the first name is in quotes after the mark
    headed("mark_and_quotes.csv", written([["a, b", "c"], ["1", "2"]], mark=True))
    headed("all_quotes.csv", written([HEADER, *ROWS], mark=True, quoting=csv.QUOTE_ALL))
    sheet("no_last_end.csv", written(ROWS)[:-2])
    sheet("blank_lines.csv", written([["1", "2"], [], ["3", "4"], [], []]))
    sheet("one_column.csv", written([["a"], [""], ["b"]]))
    again("sheet_again", "one_column.csv", written([["a"], [""], ["b"]]))
    sheet("returns.csv", written([["1", "x y"], ["3", "4"]], lineterminator="\r"))
    sheet("mark_alone.csv", "\ufeff".encode())
    headed("header_alone.csv", written([HEADER], mark=True))
    calc()
    # Python gives rows of different lengths, and can't decode the second
    keep("ragged.csv", written([["1", "2"], ["3", "4\n5"], ["6"]]))
    say("sheet ragged.csv", "record 3 has 1 fields, not 2")
    keep("latin.csv", "name,amount\r\nÉmile,3\r\n".encode("latin-1"))
    say("headed latin.csv", "record 2, field 1 is no cell")


# ---- short texts. After a fault are later ones: in the same row, and in the next.

GRAY = [
    # comments and white space, as in what GIMP writes, and wherever they may stand
    (b"P5\n1 1\n1\n\x01", 1, ["1"]),
    (b"P5\n# CREATOR: GIMP\n2 1\n255\n##", 255, ["35,35"]),
    (b"P5#1\r#2 2\n\t 2# 9\n#\r\n1\r\n255\rAB", 255, ["65,66"]),
    (b"P2 2 1 9 1# 5\n#\n7", 9, ["1,7"]),
    (b"P2 2 1 9 001\t09", 9, ["1,9"]),
    # a raster starts after one byte of white space, and what is after it isn't read
    (b"P5 2 1 255 \n ", 255, ["10,32"]),
    (b"P5 1 2 255 ABP5 9", 255, ["65", "66"]),
    (b"P2 1 1 9 5 x", 9, ["5"]),
    # no cells
    (b"P5\n0 0\n255\n", 255, []),
    (b"P2 0 7 255 ", 255, []),
    (b"P5 18446744073709551615 0 255 ", 255, []),
    # faults
    (b"", "no magic number of such a picture at byte 0"),
    (b"P", "no magic number of such a picture at byte 0"),
    (b"P6 1 1 255 ABC", "no magic number of such a picture at byte 0"),
    (b"P5 2 x", "no number at byte 5"),
    (b"P5 # 2 2 255", "no number at byte 12"),
    (b"P5 18446744073709551616 1 255 A", "no number at byte 3"),
    (b"P5 1 1 256 A", "the greatest sample is 256, not 1 to 255, before byte 10"),
    (b"P5 1 1 0 A", "the greatest sample is 0, not 1 to 255, before byte 8"),
    (b"P5 1 1 255#\nA", "no white space at byte 10"),
    (b"P5 2 3 255 ABCDE", "too few bytes from byte 11 on for 3 rows of 2 cells"),
    (b"P5 4294967296 4294967296 255 A", "too few bytes from byte 29 on for 4294967296 rows of 4294967296 cells"),
    (b"P5 3 1 66 ABC", "the sample 67 at byte 12 is above 66"),
    (b"P2 3 1 66 1 # 9\n67 68", "the sample 67 at byte 16 is above 66"),
]
COLORED = [
    (b"P6 0 0 255 ", 255, []),
    (b"P5 1 1 255 A", "no magic number of such a picture at byte 0"),
    (b"P6 1 2 255 ABCDE", "too few bytes from byte 11 on for 2 rows of 1 cells"),
    (b"P3 1 1 255 12", "too few bytes from byte 11 on for 1 rows of 1 cells"),
    (b"P3 1 1 9 1 2  ", "no number at byte 14"),
]
NUMBERS = [
    (b"", "[]"),
    (b"\n\r\n\n", "[]"),
    (b"1", "[[1]]"),
    (b"1,20\n3,4\n", "[[1, 20][3, 4]]"),
    (b'1,"20"\r\n"3",4', "[[1, 20][3, 4]]"),
    (b"1,2\n\n3,4\n\n", "[[1, 2][3, 4]]"),
    (b"1,2\r3,4\r", "[[1, 2][3, 4]]"),
    (b"\xEF\xBB\xBF1,2\n", "[[1, 2]]"),
    (b"\xEF\xBB1,2\n", "record 1, field 1 is no cell"),
    (b'"1",2,"3', "[[1, 2, 3]]"),
    (b"1,2\n3\nx\n", "record 2 has 1 fields, not 2"),
    (b"1,2\n3,4,5\n", "record 2 has 3 fields, not 2"),
    (b"1,2\n3,x,y,4\n", "record 2, field 2 is no cell"),
    (b"x,y\n1\n", "record 1, field 1 is no cell"),
    (b"1,\n", "record 1, field 2 is no cell"),
    (b"1, 2\n", "record 1, field 2 is no cell"),
    (b"1,\xFF\n", "record 1, field 2 is no cell"),
]
HEADED = [
    (b"", "[] []"),
    (b"a\n", '["a"] []'),
    (b'a,"b ""c"""\n1,2\n3,4\n', '["a", "b \\"c\\""] [[1, 2][3, 4]]'),
    (b"a,b\n1,2,3\n", "record 2 has 3 fields, not 2"),
    (b"a,b\n1,2\n3,x\n", "record 3, field 2 is no cell"),
    (b"a,\xFF\n1\n", "record 1, field 2 is no cell"),
]
FIELDS = [
    (b"", '""\n'),
    (b"a b", "a b\n"),
    (b"a,b", '"a,b"\n'),
    (b'a "b"', '"a ""b"""\n'),
    (b"a\nb", '"a\nb"\n'),
    (b"a\rb", '"a\rb"\n'),
    (b" ", " \n"),
]
VALUES = [
    (b"[]", "[]"),
    (b"[[],[]]", "[]"),
    (b"[[1,2],[3,4]]", "[[1, 2][3, 4]]"),
    (b'{"cols":1}', "not an array of rows"),
    (b"[[1],2,3]", "row 1 is no array"),
    (b'[[1,2],[3,null,"x"]]', "row 1, column 1 is no cell"),
    (b"[[1,2],[3],[4]]", "row 1 has 1 cells, not 2"),
    (b"[[],[1]]", "row 1 has 1 cells, not 0"),
    (b"[[256]]", "row 0, column 0 is no cell"),
]


def short(call, text, *said):
    say(f"{call} {json.dumps(text.decode('latin-1'))}", *said)


def texts():
    for call, cases in ("gray", GRAY), ("colored", COLORED):
        for text, *said in cases:
            if len(said) == 2:
                white, rows = said
                cols = rows[0].count(",") + 1 if rows else 0
                said = [f"{len(rows)} rows, {cols} columns, white is {white}", *rows]
            short(call, text, *said)
    for call, cases in ("numbers", NUMBERS), ("headed_numbers", HEADED), ("values", VALUES):
        for text, said in cases:
            short(call, text, said)
    for text, said in FIELDS:
        short("field", text, json.dumps(said))


os.makedirs("data", exist_ok=True)
pictures()
sheets()
texts()
with open("data/files.cases", encoding="utf-8", newline="") as file:
    head = file.read().partition("== ")[0]
with open("data/files.cases", "w", encoding="utf-8", newline="") as file:
    print(head + OUT[0], *OUT[1:], sep="\n", file=file)
