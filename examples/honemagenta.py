"""The calls of include/honemagenta.h, for Python. The shared object, in the repository's folder:

    tools/build.sh honemagenta
    cc -shared -o libhonemagenta.so -Wl,--whole-archive target/staticlib/libhonemagenta.a -Wl,--no-whole-archive

Then, in a program:

    import honemagenta

    library = honemagenta.Honemagenta("./libhonemagenta.so")
    try:
        certificate = library.write(sheet)
    except honemagenta.Refused as refused:
        print(refused.number, refused.line, refused.words)

and `python3 examples/honemagenta.py ./libhonemagenta.so` prints what examples/output.txt says.
"""
import ctypes
import os
import sys
from ctypes import c_char_p, c_size_t, c_uint64

FORM_C = 0
FORM_Z = 1

# A buffer of so many bytes takes every certificate.
CERTIFICATE_LONGEST = 289

# A catalogue has at most so many sheets, and a buffer of so many bytes takes every report.
SHEETS_MOST = 1000
REPORT_LONGEST = 27088

# How long the table of lip coefficients is.
LIP_TABLE_LENGTH = 3514

# A sheet's lines.
KEYS = ("form", "h", "b1", "b2", "c", "r", "tnom", "t", "fyb", "gm0", "rounds", "allow", "fine")

# What is wrong, as README.md's table has it; there too: which line is reported, and what to do.
REFUSALS = {
    0: "nothing is wrong",
    1: "a line is missing or misspelt",
    2: "a value is out of its range",
    3: "the core is thicker than the nominal thickness",
    4: "a flange is wider than 60 t",
    5: "the lip is longer than 50 t",
    6: "the web is deeper than 500 t",
    7: "the lip is shorter than a fifth or longer than three fifths of a flange",
    8: "the inside radius is above 5 t or above a tenth of a flange's mid-line",
    9: "the lip is longer than three fifths of a flange, on the mid-lines",
    10: "the lips of a C would overlap: 2 c is more than h",
    11: "the area cannot be given as closely as allow asks",
    12: "the buffer is too short",
    13: "a figure is not the one worked from the first thirteen lines",
    14: "there are no sheets, or more than 1,000",
    15: "a sheet of the catalogue is missing lines or misspelt",
    16: "the ratio is outside 0.350 to 0.600",
}


def refusal_words(number):
    return REFUSALS.get(number, "no such refusal")


class Refused(Exception):
    """The number of the first question that is not met, the line concerned (at 15 the sheet's place), at 12 the length
    needed (otherwise 0), and what is wrong in words."""

    def __init__(self, number, line, length, words):
        super().__init__(number, line, length, words)
        self.number = number
        self.line = line
        self.length = length
        self.words = words

    def __str__(self):
        if self.number == 12:
            return f"{self.words}, {self.length} bytes are needed"
        place = "sheet" if self.number == 15 else "line"
        return f"refused, question {self.number}, {place} {self.line}: {self.words}"


class Answer(ctypes.Structure):
    """What a call answers: hm_answer of the header."""

    _fields_ = [("refusal", c_uint64), ("line", c_uint64), ("length", c_uint64)]


class Coefficient(Answer):
    """What a lookup answers: hm_coefficient of the header."""

    _fields_ = [("lower", c_uint64), ("upper", c_uint64)]


class Honemagenta:
    """The calls of the shared object at a path. Several threads may use one."""

    def __init__(self, path):
        library = ctypes.CDLL(os.path.abspath(path))
        self._write = library.hm_certificate_write
        self._check = library.hm_certificate_check
        self._from_numbers = library.hm_certificate_from_numbers
        self._report = library.hm_catalogue_report
        self._lip_table = library.hm_lip_table
        self._lip_coefficient = library.hm_lip_coefficient
        self._write.argtypes = [c_char_p, c_size_t, c_char_p, c_size_t]
        self._check.argtypes = [c_char_p, c_size_t]
        self._from_numbers.argtypes = [c_uint64] * len(KEYS) + [c_char_p, c_size_t]
        self._report.argtypes = [c_char_p, c_size_t, c_char_p, c_size_t]
        self._lip_table.argtypes = [c_char_p, c_size_t]
        self._lip_coefficient.argtypes = [c_uint64]
        for call in (self._write, self._check, self._from_numbers, self._report, self._lip_table):
            call.restype = Answer
        self._lip_coefficient.restype = Coefficient

    def write(self, sheet, room=CERTIFICATE_LONGEST):
        """The certificate of a sheet, both as bytes, written into a buffer of so many bytes."""
        return _written(self._write, *_lent(sheet), room=room)

    def from_numbers(self, form, h, b1, b2, c, r, tnom, t, fyb, gm0, rounds, allow, fine, room=CERTIFICATE_LONGEST):
        """The same from the thirteen numbers of a sheet, the form being FORM_C or FORM_Z and fine 1 or 10."""
        numbers = (form, h, b1, b2, c, r, tnom, t, fyb, gm0, rounds, allow, fine)
        _refuse_wide(KEYS, numbers)
        return _written(self._from_numbers, *numbers, room=room)

    def check(self, certificate):
        """The length of a certificate (bytes) that is the one written for its own sheet; any other is refused."""
        return _accepted(self._check(*_lent(certificate))).length

    def report(self, catalogue, room=REPORT_LONGEST):
        """The report on a catalogue, sheets joined end to end, both as bytes, written into a buffer of so many bytes."""
        return _written(self._report, *_lent(catalogue), room=room)

    def lip_table(self, room=LIP_TABLE_LENGTH):
        """The table of lip coefficients as bytes, written into a buffer of so many bytes."""
        return _written(self._lip_table, room=room)

    def lip_coefficient(self, ratio):
        """The lower and the upper end of a lip's coefficient, for a ratio; all in millionths. For a ratio of more than
        six places take the lower end at the ratio rounded down to six, and the upper end at the ratio rounded up."""
        _refuse_wide(("ratio",), (ratio,))
        found = _accepted(self._lip_coefficient(ratio))
        return found.lower, found.upper


def _lent(text):
    """A text and its length."""
    if not isinstance(text, (bytes, bytearray, memoryview)):
        raise TypeError(f"bytes are wanted, not {type(text).__name__}")
    text = bytes(text)
    return text, len(text)


def _written(call, *arguments, room):
    """What a call writes into a buffer of so many bytes."""
    buffer = ctypes.create_string_buffer(room)
    length = _accepted(call(*arguments, buffer, room)).length
    return buffer.raw[:length]


def _refuse_wide(names, numbers):
    """ctypes keeps the last 64 bits of a number: 2**64 + 20000 would pass as 20000."""
    for name, number in zip(names, numbers):
        if not isinstance(number, int) or not 0 <= number < 2**64:
            raise ValueError(f"{name}: {number!r} is not a whole number from 0 to 2**64 - 1")


def _accepted(answer):
    """An answer that is no refusal."""
    if answer.refusal != 0:
        raise Refused(answer.refusal, answer.line, answer.length, refusal_words(answer.refusal))
    return answer


def _in_words(result):
    if isinstance(result, tuple):
        return "%d to %d millionths" % result
    return f"in order, {result if isinstance(result, int) else len(result)} bytes"


def _sheet_text(values):
    """The lines of a sheet, as bytes."""
    return "".join(f"{key}={value}\n" for key, value in zip(KEYS, values)).encode("ascii")


def _demonstrate(path):
    library = Honemagenta(path)

    def said(what, call, *arguments, **named):
        """What came of a call: what it returned, or the refusal."""
        try:
            result = call(*arguments, **named)
        except Refused as refused:
            print(f"{what}: {refused}")
            return None
        print(f"{what}: {_in_words(result)}")
        return result

    # Lengths are in 0.01 mm. The last but one, allow, says that the area may be off by 0.1 mm²; the last is fine.
    numbers = [FORM_C, 20000, 7400, 6600, 2080, 300, 200, 196, 350, 1000, 1, 10, 1]
    certificate = said("Certificate from thirteen numbers", library.from_numbers, *numbers)
    print(certificate.decode("ascii"), end="")

    # Whoever is handed the certificate can check it. With a digit changed it is no longer the one that follows from its
    # first thirteen lines.
    said("Checked", library.check, certificate)
    changed = bytearray(certificate)
    changed[-2] ^= 1
    said("Checked with a digit changed", library.check, changed)

    # From text, thirteen lines, each ended by a newline. allow=1 asks for the area to 0.01 mm². Worked with fine=1 it
    # cannot be given so closely, with fine=10 it can.
    up_to_fine = ["C"] + numbers[1:11] + [1]
    coarse, fine = (_sheet_text(up_to_fine + [fine]) for fine in (1, 10))
    said("Certificate of the sheet with allow=1", library.write, coarse)
    said("Certificate of the same with fine=10", library.write, fine)

    # A buffer that is too short is not written to, and the length needed is reported.
    said("Certificate in a buffer of 100 bytes", library.from_numbers, *numbers, room=100)

    # A catalogue is sheets joined end to end. Its report says how many are accepted and how many each question refuses,
    # both sums, and a line for each accepted sheet. A catalogue that breaks off is not reported on.
    catalogue = coarse + fine
    report = said("Report on a catalogue of two sheets", library.report, catalogue)
    print(report.decode("ascii"), end="")
    said("Report without the last byte", library.report, catalogue[:-1])

    # A lip's coefficient lies between the two ends that are looked up. Outside 0.350 to 0.600 a lookup is refused.
    said("Table of lip coefficients", library.lip_table)
    said("Lip coefficient at 0.412345", library.lip_coefficient, 412345)
    said("Lip coefficient at 0.610000", library.lip_coefficient, 610000)


if __name__ == "__main__":
    if len(sys.argv) != 2:
        sys.exit("honemagenta.py SHARED_OBJECT")
    _demonstrate(sys.argv[1])
