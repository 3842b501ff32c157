"""Rows of `twoway` over the triangle."""

from rows import Row
from rows.texts import TRIANGLE, TRIANGLE_2, lines

WORDS = "twoway topology exchanges"
USUAL = "exchange 0 0 0 0 5000000 6000000 2400000"

# Exchanges and what is written of them: the lines before `done`, which counts lines and links.
BOUNDS = (
    ("inside", lines(USUAL, "end"), lines("link rb 698660 701340 1 inside", "done 2 1")),
    ("an asymmetry of 1", lines("exchange 0 0 1 0 5000000 6000000 2400000", "end"),
     lines("link rb 698660 701340 1 inside", "done 2 1")),
    ("an asymmetry of 100000", lines("exchange 0 0 100000 0 5000000 6000000 2400000", "end"),
     lines("link rb 648660 751340 1 inside", "done 2 1")),
    ("two exchanges of a link", lines(USUAL, "exchange 0 0 100000 0 5000000 6000000 2400000", "end"),
     lines("link rb 648660 751340 2 inside", "done 3 1")),
    ("the second end began, and the last newline is missing", "exchange 0 1 0 0 5000000 6000000 2400000\nend",
     lines("link rb 698660 701340 1 inside", "done 2 1")),
    ("outside", lines("exchange 0 0 0 7 5 5 7", "end"), lines("link rb 0 500 1 outside", "done 2 1")),
    ("links by ascending number", lines("exchange 2 0 0 7 5 5 7", USUAL, "exchange 2 1 4 7 5 5 7", "end"),
     lines("link rb 698660 701340 1 inside", "link bx 0 502 2 outside", "done 4 2")),
    ("two links", lines(USUAL, "exchange 1 0 0 7 5 5 7", "end"),
     lines("link rb 698660 701340 1 inside", "link rx 0 500 1 outside", "done 3 2")),
    ("no exchange", "end\n", "done 1 0\n"),
    ("nearly the greatest delay that a span may have", lines("exchange 1 0 0 0 0 0 1999600000000", "end"),
     lines("link rx 999600039000 999999960500 1 outside", "done 2 1")),
    ("one delay may be all that passed", lines("exchange 1 0 1000000000000 0 0 0 100", "end"),
     lines("link rx 0 1101 1 outside", "done 2 1")),
)

# Exchanges that are refused, with the line and the reason.
REFUSED = (
    ("impossible", "exchange 0 0 0 7 0 1000000 7\n", "1 Impossible"),
    ("backwards at the far end", "exchange 0 0 0 7 0 0 6\n", "1 Backwards"),
    ("backwards at the near end", "exchange 0 0 0 7 8 7 9\n", "1 Backwards"),
    ("an unknown link", "exchange 3 0 0 7 5 5 7\n", "1 UnknownLink"),
    ("nothing", "", "1 NoEnd"),
    # half of it is 10^12 ps, and the drift takes the greatest delay past that
    ("too large", "exchange 0 0 0 0 0 0 2000000000000\nend\n", "1 TooLarge"),
    # nothing is written of the exchanges before
    ("end missing", "exchange 0 0 0 7 5 5 7\n", "2 NoEnd"),
    ("an exchange after the end", "exchange 0 0 0 7 5 5 7\nend\nexchange 9 0 0 7 0 0 6\n", "3 AfterEnd"),
    ("end twice", "end\nend\n", "2 AfterEnd"),
    # a line is read before it is judged
    ("a field after the end", "end\nend 1\n", "2 FieldCount"),
    ("an empty line after the end", "end\n\n", "2 UnknownWord"),
    ("a third end of a link", "exchange 3 2 0 7 5 5 6\n", "1 Number 2"),
    ("an unknown link, and backwards", "exchange 3 1 0 7 5 5 6\n", "1 UnknownLink"),
    ("a field too few", "exchange 0 0 0 7 5 5\n", "1 FieldCount"),
    ("another word", "exchanges\n", "1 UnknownWord"),
    ("a line of 4096 bytes", "exchange 0 0 0 7 5 5 7\n" + "x" * 4096, "2 UnknownWord"),
    ("a line of 4097 bytes", "exchange 0 0 0 7 5 5 7\n" + "x" * 4097, "2 LongLine"),
    ("what stands after a refused line", "x\n" + "y" * 20000, "1 UnknownWord"),
    # the greatest numbers, and such as are past them
    ("the greatest numbers", "exchange 4294967295 1 1000000000000 1 2 3 1152921504606846976\n", "1 UnknownLink"),
    ("'end '", "end \n", "1 FieldCount"),
    ("'end 0'", "end 0\n", "1 FieldCount"),
    ("an empty line", "\n", "1 UnknownWord"),
    ("'ends'", "ends\n", "1 UnknownWord"),
    ("'exchanged'", "exchanged 0 0 0 0 0 0 0\n", "1 UnknownWord"),
    ("a space before the word", " exchange 0 0 0 0 0 0 0\n", "1 UnknownWord"),
    ("six fields", "exchange 0 0 0 0 0 0\n", "1 FieldCount"),
    ("a space after the fields", "exchange 0 0 0 0 0 0 0 \n", "1 FieldCount"),
    ("eight fields", "exchange x 0 0 0 0 0 0 0\n", "1 FieldCount"),
    ("a link past the limit", "exchange 4294967296 2 0 0 0 0 0\n", "1 Number 1"),
    ("an end and an asymmetry past their limits", "exchange 0 2 1000000000001 0 0 0 0\n", "1 Number 2"),
    ("an asymmetry past the limit", "exchange 0 0 1000000000001 0 0 0 0\n", "1 Number 3"),
    ("two spaces", "exchange 0 0 0  0 0 0\n", "1 Number 4"),
    ("a leading zero", "exchange 0 0 0 0 00 0 0\n", "1 Number 5"),
    ("a reading past the limit", "exchange 0 0 0 0 0 0 1152921504606846977\n", "1 Number 7"),
)

ROWS = [
    *[Row(name, WORDS, {"topology": TRIANGLE, "exchanges": exchanges}, output) for name, exchanges, output in BOUNDS],
    *[Row(f"{name}, in version 2", WORDS, {"topology": TRIANGLE_2, "exchanges": exchanges}, output)
      for name, exchanges, output in BOUNDS],
    *[Row(name, WORDS, {"topology": TRIANGLE, "exchanges": exchanges}, f"input exchanges {fault}\n", 3)
      for name, exchanges, fault in REFUSED],
    Row("a refused topology", WORDS, {"topology": "", "exchanges": "x"}, "input topology Missing version 0\n", 3),
]
