#!/usr/bin/env python3
"""Writes the section `formats` of crates/test_values: its rows in `stdin`, and the answers that must come in `stdout`.

The answers come from the rules of docs/formats.md ('Texts'): most are worked by hand and are here as they
are, the others come from Python's decimals, calendar and regular expressions; none from the program. It runs from anywhere."""

import re
import sys
from datetime import date
from decimal import Decimal, ROUND_HALF_UP, getcontext
from random import Random

if __name__ == "__main__" and sys.argv[1:] == ["--help"]:
    print(__doc__.strip())
    sys.exit()

from sections import put

getcontext().prec = 120
UNIT = 10**10
I32, I64, I128 = 2**31, 2**63, 2**127
EPOCH = date(1970, 1, 1).toordinal()
FIRST, LAST = date(1, 1, 1).toordinal() - EPOCH, date(9999, 12, 31).toordinal() - EPOCH
random = Random(20261127)
rows = []


def shown(text):
    data = text.encode("latin-1") if isinstance(text, str) else text
    return "".join(chr(b) if 33 <= b <= 126 and b != 37 else f"%{b:02x}" for b in data)


def row(left, answer):
    rows.append((left, answer))


def day(y, m, d):
    return f"date:{date(y, m, d).toordinal() - EPOCH}"


def dec(text):
    """The word of a decimal that is written in digits."""
    return f"dec:{int(Decimal(text) * UNIT)}"


# ---- masks, worked by hand: the mask, the value, what is written

PUT = [
    # texts: cut and filled
    ("x(1)", "text:", " "), ("x(1)", "text:a", "a"), ("x(1)", "text:ab", "a"), ("x(8)", "text:abc", "abc     "),
    ("X(8)", "text:abcdefgh", "abcdefgh"), ("x(8)", "text:abcdefghi", "abcdefgh"), ("x(3)", "text:%20a", " a "),
    ("x(02)", "text:abc", "ab"), ("x(010)", "text:abc", "abc       "), ("x(20)", "text:%22", '"' + " " * 19),
    ("x", "text:abc", "a"), ("xx", "text:a", "a "), ("xXx", "text:abcd", "abc"), ("XX", "text:", "  "),
    ("x(5)", "text:%0a%00", "\n\0   "), ("x(4)", "text:%c4%ff", "\xc4\xff  "), ("x(3)", "?", "?  "), ("x", "?", "?"),
    ("x(8)", "?", "?       "), ("x(3)", "text:abcd", "abc"), ("XXXX", "text:ab", "ab  "), ("x(5)", "?", "?    "),
    # words
    ("yes/no", "yes", "yes"), ("yes/no", "no", "no "), ("yes/no", "?", "?  "), ("true/no", "yes", "true"), ("true/no", "no", "no  "), ("true/false", "yes", "true "),
    ("true/false", "no", "false"), ("a/b", "yes", "a"), ("a/b", "no", "b"), ("a/b", "?", "?"),
    ("%20/x", "yes", " "), ("on/switched", "yes", "on      "), ("on/switched", "?", "?       "),
    ("99/9", "no", "9 "), ("99/9", "yes", "99"),
    # dates
    ("99/99/99", day(2024, 2, 3), "02/03/24"), ("99/99/9999", day(2024, 2, 3), "02/03/2024"),
    ("99/99/99", day(1899, 12, 31), "12/31/99"), ("99/99/9999", day(1899, 12, 31), "12/31/1899"),
    ("99/99/99", day(2100, 1, 1), "01/01/00"), ("99/99/9999", day(1, 1, 1), "01/01/0001"),
    ("99/99/99", day(1, 1, 1), "01/01/01"), ("99/99/9999", day(9999, 12, 31), "12/31/9999"),
    ("99/99/9999", day(987, 10, 9), "10/09/0987"), ("99/99/99", "?", "?       "), ("99/99/9999", "?", "?         "),
    # the default mask of whole numbers
    ("->,>>>,>>9", "int64:12345678", "??????????"), ("->,>>>,>>9", "int:0", "         0"), ("->,>>>,>>9", "int:7", "         7"), ("->,>>>,>>9", "int:-7", "        -7"),
    ("->,>>>,>>9", "int:999", "       999"), ("->,>>>,>>9", "int:1000", "     1,000"),
    ("->,>>>,>>9", "int:-1000", "    -1,000"), ("->,>>>,>>9", "int:-999", "      -999"),
    ("->,>>>,>>9", "int:1234567", " 1,234,567"), ("->,>>>,>>9", "int:-1234567", "-1,234,567"),
    ("->,>>>,>>9", "int:9999999", " 9,999,999"), ("->,>>>,>>9", "int:10000000", "??????????"),
    ("->,>>>,>>9", "int:12345678", "??????????"), ("->,>>>,>>9", "int:-12345678", "??????????"),
    ("->,>>>,>>9", "int64:-9223372036854775808", "??????????"), ("->,>>>,>>9", "?", "         ?"),
    # whole numbers: zeros, blanks, signs
    (">>9", "int:5", "  5"), (">>9", "int:1000", "???"), (">>9", "int:-1", "???"), (">>9", "int:0", "  0"),
    (">>>", "int:0", "   "), (">>>", "int:1", "  1"), ("zzz", "int:0", "   "), ("ZZ9", "int:12", " 12"),
    ("999", "int:5", "005"), ("999", "int:0", "000"), ("999", "int:1000", "???"), ("-999", "int:-5", "-005"),
    ("-999", "int:5", " 005"), ("z99", "int:5", " 05"), (">z9", "int:5", "  5"), ("-zz9", "int:-5", "  -5"),
    ("->>9", "int:-12", " -12"), ("->>9", "int:-999", "-999"), ("->>9", "int:-1000", "????"), ("9", "int:9", "9"),
    ("9", "int:10", "?"), ("9", "int:-1", "?"), ("-9", "int:-9", "-9"), ("9", "?", "?"), ("->>>", "int:0", "    "),
    ("zzzzzzzzzz9", "int:2147483647", " 2147483647"), ("-zzzzzzzzz9", "int:-2147483648", "-2147483648"),
    ("-9999999999999999999", "int64:-9223372036854775808", "-9223372036854775808"),
    (">>>>>>>>>>>>>>>>>>>>", "int64:9223372036854775807", " 9223372036854775807"),
    # commas with no digit to their left, doubled, at the beginning and at the end
    ("9,999", "int:5", "0,005"), (">,>>9", "int:5", "    5"), (">,>>9", "int:1000", "1,000"), ("9,9", "int:5", "0,5"),
    (",>>9", "int:123", " 123"), (",999", "int:5", " 005"), ("->,9", "int:-5", "  -5"), ("->,9", "int:-15", "-1,5"),
    (">,,9", "int:5", "   5"), (">,,9", "int:15", "1,,5"), ("9,", "int:5", "5,"), (">9,", "int:5", " 5,"), (">,", "int:0", "  "),
    ("-,9", "int:-5", " -5"), ("z,zzz,zz9", "int:123456", "  123,456"), (">,>>>,999", "int:1", "      001"),
    (">>>,>>>,>>9", "int:-1", "???????????"), ("->>,>>9", "int:-12345", "-12,345"), ("->>,>>9", "int:123456", "???????"),
    # decimals: the default mask, rounding, carrying
    ("->>,>>9.99", dec("-1234.5"), " -1,234.50"), ("->>,>>9.99", dec("0"), "      0.00"), ("->>,>>9.99", dec("0.5"), "      0.50"),
    ("->>,>>9.99", dec("-0.5"), "     -0.50"), ("->>,>>9.99", dec("12345.67"), " 12,345.67"),
    ("->>,>>9.99", dec("-12345.67"), "-12,345.67"), ("->>,>>9.99", dec("99999.994"), " 99,999.99"),
    ("->>,>>9.99", dec("99999.995"), "??????????"), ("->>,>>9.99", dec("-99999.994"), "-99,999.99"),
    ("->>,>>9.99", dec("100000"), "??????????"), ("->>,>>9.99", "?", "         ?"), ("9.99", dec("1.005"), "1.01"),
    ("z9.99", dec("9.995"), "10.00"), ("9.99", dec("1.0049999999"), "1.00"), ("9.99", dec("1.015"), "1.02"), ("9.99", dec("1.025"), "1.03"),
    ("-9.99", dec("-1.005"), "-1.01"), ("-9.99", dec("-1.0049999999"), "-1.00"), ("9.9", dec("0.05"), "0.1"),
    ("9.9", dec("0.0499999999"), "0.0"), ("9.9", dec("9.95"), "???"), ("99.9", dec("9.95"), "10.0"), ("9", dec("0.5"), "1"),
    ("9", dec("0.4999999999"), "0"), ("9", dec("1.5"), "2"), ("9", dec("2.5"), "3"), ("-9", dec("-0.5"), "-1"),
    ("-9", dec("-0.4999999999"), " 0"), ("9", dec("-0.4999999999"), "0"), ("9", dec("-0.5"), "?"), ("9", dec("9.5"), "?"),
    ("->>9.99", dec("-0.004"), "   0.00"), ("->9.99", "?", "     ?"), ("9.99", dec("-0.004"), "0.00"), ("9.99", dec("-0.005"), "????"),
    (">>>,>>9.99", dec("999.995"), "  1,000.00"), (">,>>9", dec("999.5"), "1,000"),
    # decimals without a digit before the point
    (">>.99", dec("0.5"), "  .50"), (">>.99", dec("0"), "  .00"), ("->.9", dec("-0.5"), " -.5"), (".99", dec("0.25"), ".25"),
    (".99", dec("1"), "???"), (".99", dec("0.995"), "???"), (".99", dec("-0.5"), "???"), ("-.99", dec("-0.5"), "-.50"),
    (">>.99", dec("10"), "10.00"), (",.9", dec("0.5"), " .5"), ("9,.9", dec("5.5"), "5,.5"),
    # more decimals than are stored, the widest masks
    ("9.9999999999", dec("1.0000000001"), "1.0000000001"), ("9.999999999999", dec("1.0000000001"), "1.000000000100"),
    ("9.99999999999", dec("-0.0000000001"), "?" * 13), ("9." + "9" * 38, dec("1.5"), "1.5" + "0" * 37),
    ("9." + "9" * 39, dec("1.5"), "?" * 41), ("9" * 40, "int:5", "0" * 39 + "5"), ("-" + ">" * 39, "int:-5", " " * 38 + "-5"),
    ("9" * 41, "int:5", "?" * 41), ("-" + ">" * 39, f"dec:{-I128}", " " * 10 + "-17014118346046923173168730372"),
    (">" * 18 + "9." + "9" * 20, f"dec:{I128 - 1}", "?" * 40), (">" * 28 + "9." + "9" * 10, f"dec:{I128 - 1}", "17014118346046923173168730371.5884105727"),
    ("-" + ">" * 27 + "9." + "9" * 10, f"dec:{-I128}", "?" * 40), ("-" + ">" * 28 + "9." + "9" * 9, f"dec:{-I128}", "-17014118346046923173168730371.588410573"),
    # masks for other kinds: a question mark for each byte of the mask
    ("x(8)", "int:5", "????"), ("9", "text:a", "?"), ("9.9", "int:5", "???"), ("yes/no", "text:yes", "??????"),
    ("99/99/99", "yes", "????????"), ("y", "?", "?"), ("", "int:5", ""), ("", "?", ""), ("x(0)", "text:a", "????"), ("99/99/999", day(2024, 2, 3), "?" * 9),
    # long texts
    ("x(999)", "run:29000", "a" * 999), ("x(3)", "run:30000", "aaa"),
]

# ---- lines, worked by hand: the kinds of the targets (`-` for none), the place, the input, what is read

C, I, L, D, B, A = "character", "integer", "int64", "decimal", "logical", "date"
IMPORT = [
    # the end of the input
    (I, 0, "", "end of input"), (I, 0, ".", "end of input"), (I, 0, ".\n", "end of input"), (I, 0, ".\r\n", "end of input"),
    (I, 0, ".\n5\n", "end of input"), (I, 2, "5\n", "end of input"), (I, 2, "5\n.\n6\n", "end of input"), ("none", 0, "", "end of input"),
    (C, 0, ".\r", "text:.%0d next 2"), (C, 0, ". \n", "text:. next 3"), (C, 0, " .\n", "text:. next 3"), (C, 0, "..\n", "text:.. next 3"),
    (C, 0, '"."\n', "text:. next 4"), (C, 1, "a.\n", "end of input"), (C, 0, ".5\n", "text:.5 next 3"),
    # how a line ends
    (I, 0, "5\n", "int:5 next 2"), (I, 0, "5", "int:5 next 1"), (I, 0, "5\r\n6\r\n", "int:5 next 3"), (I, 3, "5\r\n6\r\n", "int:6 next 6"),
    (I, 0, "\n5\n", "- next 1"), (I, 0, "\r\n5\n", "- next 2"), (I, 0, "   \n5\n", "- next 4"), (I, 0, " \t\r\n5\n", "- next 4"),
    (C, 0, "a\rb\n", "text:a%0db next 4"), (C, 0, "a\r\r\n", "text:a%0d next 4"), (C, 0, "a\r", "text:a%0d next 2"),
    (C, 0, "\r\r\n", "text:%0d next 3"), (C, 0, "\r", "text:%0d next 1"), (C, 0, "\r \n", "text:%0d next 3"), ("none", 0, "a b\nc", "next 4"), ("none", 0, "\"a\nb\"\nc", "next 6"),
    (C, 0, "a\n.\n", "text:a next 2"), (C, 0, '"a\nb"\nc', "text:a%0ab next 6"), (C, 0, '"a\r\nb"\r\nc', "text:a%0d%0ab next 8"),
    (C, 0, '"a"\r\n', "text:a next 5"), (C, 0, 'a"\nb"\n', 'text:a" next 3'), (C, 0, '"a\n.\n', "text:a%0a.%0a next 5"),
    (I, 0, '5 "\n" x\n6\n', "int:5 next 8"), (C, 1, "ab\n", "text:b next 3"), (C, 1, '"a"\n', 'text:a" next 4'),
    # elements, quotation marks
    (C + "," + C, 0, "a b\n", "text:a text:b next 4"), (C + "," + C, 0, "  a\t\tb  \n", "text:a text:b next 9"),
    (C + "," + C, 0, '"a b" c\n', "text:a%20b text:c next 8"), (C, 0, '""\n', "text: next 3"), (C, 0, '""', "text: next 2"),
    (C, 0, '"', "text: next 1"), (C, 0, '"a', "text:a next 2"), (C, 0, '"a""', 'text:a" next 4'), (C, 0, '"a"""', 'text:a" next 5'),
    (C, 0, '""""\n', 'text:" next 5'), (C, 0, '"""', 'text:" next 3'), (C, 0, '"a""b"\n', 'text:a"b next 7'),
    (C + "," + C, 0, '"a"b\n', "text:a text:b next 5"), (C + "," + C, 0, '"a" "b"\n', "text:a text:b next 8"),
    (C + "," + C, 0, 'a"b"\n', 'text:a"b" - next 5'), (C + "," + C, 0, 'a "b\n', "text:a text:b%0a next 5"),
    (C + "," + C, 0, "'a b'\n", "text:'a text:b' next 6"), (C, 0, "\xe4\0\n", "text:%e4%00 next 3"),
    (C + "," + C + "," + C, 0, '"""a" b"" "c"""\n', 'text:"a text:b"" text:c" next 16'),
    # missing, skipped, left and unknown
    (I + "," + I, 0, "5\n", "int:5 - next 2"), (I + "," + I, 0, "", "end of input"), (I, 0, "5 x \"y\n\" z\n6\n", "int:5 next 11"),
    ("-," + I, 0, "x 5\n", "- int:5 next 4"), ("-,-", 0, "\n", "- - next 1"), ("-", 0, '"x\ny"\n', "- next 6"), ("-," + I, 0, "? -\n", "- - next 4"),
    (I, 0, "?\n", "? next 2"), (C, 0, "?\n", "? next 2"), (C, 0, '"?"\n', "text:? next 4"), (I, 0, '"?"\n', "element 1 is bad, next 4"),
    (I, 0, "-\n", "- next 2"), (C, 0, "-\n", "- next 2"), (C, 0, '"-"\n', "text:- next 4"), (I, 0, '"-"\n', "element 1 is bad, next 4"),
    (C, 0, "??\n", "text:?? next 3"), (C, 0, "--\n", "text:-- next 3"), (I, 0, "??\n", "element 1 is bad, next 3"), (B, 0, "?", "? next 1"),
    (A + "," + D + "," + L, 0, "? - ?\n", "? - ? next 6"),
    # whole numbers
    (I, 0, "-5\n", "int:-5 next 3"), (I, 0, "007\n", "int:7 next 4"), (I, 0, "-0\n", "int:0 next 3"), (I, 0, '"5"\n', "int:5 next 4"),
    (I, 0, '"-5"', "int:-5 next 4"), (I, 0, "+5\n", "element 1 is bad, next 3"), (I, 0, "5.\n", "element 1 is bad, next 3"), (I, 0, "5.0\n", "element 1 is bad, next 4"),
    (I, 0, "5-\n", "element 1 is bad, next 3"), (I, 0, "--5\n", "element 1 is bad, next 4"), (I, 0, "1,000\n", "element 1 is bad, next 6"), (I, 0, '""\n', "element 1 is bad, next 3"),
    (I, 0, '" 5"\n', "element 1 is bad, next 5"), (I, 0, "5a\n", "element 1 is bad, next 3"), (I, 0, "2147483647\n", "int:2147483647 next 11"),
    (I, 0, "2147483648\n", "element 1 is bad, next 11"), (I, 0, "-2147483648\n", "int:-2147483648 next 12"), (I, 0, "-2147483649\n", "element 1 is bad, next 12"),
    (L, 0, "2147483648\n", "int64:2147483648 next 11"), (L, 0, "9223372036854775807\n", "int64:9223372036854775807 next 20"),
    (L, 0, "9223372036854775808\n", "element 1 is bad, next 20"), (L, 0, "-9223372036854775808\n", "int64:-9223372036854775808 next 21"),
    (L, 0, "-9223372036854775809\n", "element 1 is bad, next 21"), (L, 0, "0" * 50 + "1\n", "int64:1 next 52"), (L, 0, "1" + "0" * 60 + "\n", "element 1 is bad, next 62"),
    # decimals
    (D, 0, "5\n", "dec:50000000000 next 2"), (D, 0, "5.\n", "dec:50000000000 next 3"), (D, 0, "-0.5\n", "dec:-5000000000 next 5"), (D, 0, ".5\n", "element 1 is bad, next 3"),
    (D, 0, "5.1234567891\n", "dec:51234567891 next 13"), (D, 0, "5.12345678910\n", "element 1 is bad, next 14"), (D, 0, "5.0000000000\n", "dec:50000000000 next 13"),
    (D, 0, "5..\n", "element 1 is bad, next 4"), (D, 0, "5.5.5\n", "element 1 is bad, next 6"), (D, 0, "1e5\n", "element 1 is bad, next 4"), (D, 0, "5.-5\n", "element 1 is bad, next 5"),
    (D, 0, "-.\n", "element 1 is bad, next 3"), (D, 0, "17014118346046923173168730371.5884105727\n", f"dec:{I128 - 1} next 41"),
    (D, 0, "17014118346046923173168730371.5884105728\n", "element 1 is bad, next 41"), (D, 0, "-17014118346046923173168730371.5884105728\n", f"dec:{-I128} next 42"),
    (D, 0, "-17014118346046923173168730371.5884105729\n", "element 1 is bad, next 42"), (D, 0, "9" * 45 + "\n", "element 1 is bad, next 46"),
    # LOGICAL
    (B, 0, "yes\n", "yes next 4"), (B, 0, "no\n", "no next 3"), (B, 0, "TRUE\n", "yes next 5"), (B, 0, "False\n", "no next 6"), (B, 0, "y\n", "yes next 2"), (B, 0, "N\n", "no next 2"),
    (B, 0, "t\n", "yes next 2"), (B, 0, "F\n", "no next 2"), (B, 0, '"yEs"\n', "yes next 6"), (B, 0, "ye\n", "element 1 is bad, next 3"), (B, 0, "yess\n", "element 1 is bad, next 5"),
    (B, 0, "1\n", "element 1 is bad, next 2"), (B, 0, "on\n", "element 1 is bad, next 3"), (B, 0, '""\n', "element 1 is bad, next 3"),
    # DATE
    (A, 0, "2/3/24\n", day(2024, 2, 3) + " next 7"), (A, 0, "02/03/2024\n", day(2024, 2, 3) + " next 11"), (A, 0, "12/31/49\n", day(2049, 12, 31) + " next 9"),
    (A, 0, "01/01/50\n", day(1950, 1, 1) + " next 9"), (A, 0, '"1/1/0001"\n', day(1, 1, 1) + " next 11"), (A, 0, "12/31/9999\n", day(9999, 12, 31) + " next 11"),
    (A, 0, "1/1/0000\n", "element 1 is bad, next 9"), (A, 0, "2/29/2024\n", day(2024, 2, 29) + " next 10"), (A, 0, "2/29/2023\n", "element 1 is bad, next 10"),
    (A, 0, "13/1/24\n", "element 1 is bad, next 8"), (A, 0, "0/1/24\n", "element 1 is bad, next 7"), (A, 0, "1/32/24\n", "element 1 is bad, next 8"), (A, 0, "1/1/124\n", "element 1 is bad, next 8"),
    (A, 0, "1/1/4\n", "element 1 is bad, next 6"), (A, 0, "001/1/24\n", "element 1 is bad, next 9"), (A, 0, "1/001/24\n", "element 1 is bad, next 9"), (A, 0, "1/1\n", "element 1 is bad, next 4"),
    (A, 0, "1/1/24/\n", "element 1 is bad, next 8"), (A, 0, "1-1-24\n", "element 1 is bad, next 7"), (A, 0, "/1/24\n", "element 1 is bad, next 6"), (A, 0, "1//24\n", "element 1 is bad, next 6"),
    (A, 0, "-1/1/24\n", "element 1 is bad, next 8"), (A, 0, "1/1/20245\n", "element 1 is bad, next 10"),
    # the first bad element, and where the next line begins
    (I + "," + I, 0, "5 x\n6\n", "element 2 is bad, next 4"), (I + "," + I, 0, "x y\n", "element 1 is bad, next 4"), ("-," + I, 0, "x y\n", "element 2 is bad, next 4"),
    (I + "," + C, 0, 'x "b"\n5 "c"\n', "element 1 is bad, next 6"), (I, 0, 'x "\n" y\r\nz', "element 1 is bad, next 9"), (I, 0, "x", "element 1 is bad, next 1"),
    (I + "," + I + "," + I, 2, "0\n1 - 2.5\n", "element 3 is bad, next 10"), (I + "," + C, 0, '5 "a"\n', "int:5 text:a next 6"),
    # the longest text
    (C, 0, "run:29999", "text of 29999 bytes next 29999"), (C, 0, "run:30000", "text of 30000 bytes next 30000"), (C, 0, "run:30001", "element 1 is bad, next 30001"),
    ("-", 0, "run:30001", "- next 30001"),
]

EXPORT = [
    (["text:a\"b", "?", "yes", day(2024, 2, 3), dec("0.50")], '"a""b" ? yes 02/03/24 0.5\n'), ([], "\n"), (["text:"], '""\n'),
    (["text:a%22b", "?", "int:-1"], '"a""b" ? -1\n'), (["int:-5"], "-5\n"), (["?", "?"], "? ?\n"), (["text:?", "text:-"], '"?" "-"\n'), ([day(1949, 12, 31), day(2049, 12, 31)], "12/31/1949 12/31/49\n"),
    (["text:%0a", "no"], '"\n" no\n'), (["text:%22%22"], '""""""\n'),
]

PLAIN = [("text:a%22b", 'a"b'), (dec("-0.5"), "-0.5"), ("text:a\"b", 'a"b'), (dec("0.3333333333"), "0.3333333333"), ("?", "?"), (dec("-1.50"), "-1.5"), (dec("2"), "2"),
         (day(1950, 1, 1), "01/01/50"), (day(2050, 1, 1), "01/01/2050"), ("no", "no"), ("int64:-1", "-1"), ("text:", "")]

# texts above 999 bytes: their number
LONG = [("plain run:29000", "29000 bytes"), ("plain run:30000", "30000 bytes"), ("export run:29000", "29003 bytes"), ("export run:30000 run:30000", "60006 bytes"),
        ("export int:1 run:29000 yes", "29009 bytes"), ("number run:29000", "no number"), ("import character,character 0 run:29000", "text of 29000 bytes - next 29000")]

NUMBER = [("5", "50000000000"), ("-5.", "-50000000000"), ("3.7", "37000000000"), ("", "no number"), ("-", "no number"), ("%205", "no number"),
          ("0.0000000001", "1"), ("0.00000000001", "no number"), ("?", "no number"), ("12.5", "125000000000"), ("00", "0"), ("-0", "0"), ("1/2", "no number")]


# ---- numbers under masks, by Python's decimals

def under(mask, value):
    """What a decimal is under a mask: the digits of Python's rounding, set from the right."""
    before, _, decimals = mask.lstrip("-").partition(".")
    rounded = value.quantize(Decimal(1).scaleb(-len(decimals)), rounding=ROUND_HALF_UP)
    whole, _, fraction = f"{abs(rounded):f}".partition(".")
    whole = whole.lstrip("0").rjust(before.count("9"), "0")
    places = [i for i, sign in enumerate(before) if sign != ","]
    if len(whole) > len(places) or (rounded < 0 and not mask.startswith("-")):
        return "?" * len(mask)
    cells = [" "] * len(before)
    for place, digit in zip(reversed(places), reversed(whole)):
        cells[place] = digit
    if whole:
        for i in range(places[len(places) - len(whole)], len(before)):
            if before[i] == ",":
                cells[i] = ","
    text = "".join(cells).strip() + ("." + fraction if decimals else "")
    return (("-" if rounded < 0 else "") + text).rjust(len(mask))


def random_mask(decimals):
    floating = "".join(random.choice(">>>zZ,") for _ in range(random.randrange(8)))
    fixed = "".join(random.choice("999,") for _ in range(random.randrange(1, 5)))
    mask = random.choice(["", "-"]) + floating + fixed + ("." + "9" * random.randrange(1, 13) if decimals else "")
    return mask if any(sign in mask for sign in "9>zZ") else mask + "9"


def random_masks():
    for _ in range(120):
        mask = random_mask(False)
        n = random.choice((-1, 1)) * random.getrandbits(random.randrange(1, 31))
        row(f"put {mask} int:{n}", shown(under(mask, Decimal(n))))
    for _ in range(200):
        mask = random_mask(random.random() < 0.8)
        n = random.choice((-1, 1)) * random.choice((random.getrandbits(random.randrange(1, 60)), random.randrange(1, 400) * UNIT // 8))
        row(f"put {mask} dec:{n}", shown(under(mask, Decimal(n) / UNIT)))


# ---- lines by a regular expression: exported rows, and any bytes

ELEMENT = re.compile(rb'[ \t]*(?:"((?:[^"]|"")*)(?:"|\Z)|((?!\r?\n)[^ \t\n"](?:(?!\r\n)[^ \t\n])*))')
END = re.compile(rb"[ \t]*(?:\r?\n|\Z)")


def line_of(data):
    """The elements of the first line, with whether they stood in quotation marks, and where the next line begins."""
    at, elements = 0, []
    while not (end := END.match(data, at)):
        found = ELEMENT.match(data, at)
        quoted = found.group(1) is not None
        elements.append((quoted, found.group(1).replace(b'""', b'"') if quoted else found.group(2)))
        at = found.end()
    return elements, end.end()


def read_texts(data, count):
    if not data or re.match(rb"\.(?:\r?\n|\Z)", data):
        return "end of input"
    elements, after = line_of(data)
    words = []
    for i in range(count):
        if i >= len(elements) or elements[i] == (False, b"-"):
            words.append("-")
        else:
            words.append("?" if elements[i] == (False, b"?") else "text:" + shown(elements[i][1]))
    return " ".join(words + [f"next {after}"])


def random_lines():
    for _ in range(150):
        data = bytes(random.choice(b'"" \t\n\r.ab?-') for _ in range(random.randrange(16)))
        count = random.randrange(1, 4)
        row(f"import {','.join([C] * count)} 0 {shown(data)}", read_texts(data, count))


def exported_rows():
    """A row, its line, and the row again."""
    texts = ["text:" + shown(t) for t in ("", "a", "?", "-", ".", '"', '""', "a b", "\n", "\r\n", "\t", '"\n"', "\xff")]
    numbers = ["int:0", "int:-7", f"int:{-I32}", f"int:{I32 - 1}"]
    wide = [f"int64:{-I64}", f"int64:{I64 - 1}"]
    decimals = [dec("0.5"), dec("-2"), f"dec:{-I128}", f"dec:{I128 - 1}", "dec:-1"]
    days = [f"date:{FIRST}", f"date:{LAST}", day(1950, 1, 1), day(1949, 12, 31), day(2024, 2, 29)]
    pools = [(C, texts), (I, numbers), (L, wide), (D, decimals), (B, ["yes", "no"]), (A, days)]
    for _ in range(60):
        fields = [random.choice(pools) for _ in range(random.randrange(1, 6))]
        values = [random.choice(pool + ["?"]) for _, pool in fields]
        line = " ".join(export_text(v) for v in values) + "\n"
        row("export " + " ".join(values), shown(line))
        row(f"import {','.join(k for k, _ in fields)} 0 {shown(line)}", " ".join(values) + f" next {len(line)}")


def export_text(word):
    kind, _, rest = word.partition(":")
    if kind == "text":
        text = re.sub("%(..)", lambda m: chr(int(m.group(1), 16)), rest)
        return '"' + text.replace('"', '""') + '"'
    if kind == "dec":
        return f"{Decimal(int(rest)) / UNIT:f}"
    if kind == "date":
        d = date.fromordinal(int(rest) + EPOCH)
        return f"{d.month:02}/{d.day:02}/" + (f"{d.year % 100:02}" if 1950 <= d.year <= 2049 else f"{d.year:04}")
    return rest if kind in ("int", "int64") else word


for mask, value, text in PUT:
    row(f"put {mask} {value}", shown(text))
for value, text in PLAIN:
    row(f"plain {value}", shown(text))
for text, answer in NUMBER:
    row(f"number {text}", answer)
for values, text in EXPORT:
    row("export " + " ".join(values), shown(text))
for left, answer in LONG:
    row(left, answer)
for kinds, at, data, answer in IMPORT:
    row(f"import {kinds} {at} {data if data.startswith('run:') else shown(data)}", answer)
random_masks()
random_lines()
exported_rows()
for left in ("", "put", "put 9", "put 9 what", "import integer 1 ", "import integer x 5", "what 1 2"):
    row(left, "no row")
put("test_values", "formats", "".join(f"{left}\n" for left, _ in rows), "".join(f"{left} = {answer}\n" for left, answer in rows))
print(len(PUT), "masked values and", len(IMPORT), "lines by hand,", len(rows), "rows")
