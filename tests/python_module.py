"""Tries examples/honemagenta.py as a program that imports it: python_module.py SHARED_OBJECT"""
import pickle
import sys

from honemagenta import (
    CERTIFICATE_LONGEST,
    FORM_C,
    FORM_Z,
    KEYS,
    LIP_TABLE_LENGTH,
    REPORT_LONGEST,
    SHEETS_MOST,
    Honemagenta,
    Refused,
    refusal_words,
)

SHEET_B = (FORM_C, 20000, 7400, 6600, 2080, 300, 200, 196, 350, 1000, 1, 10, 1)
ALLOW = KEYS.index("allow")
FINE = KEYS.index("fine")


def raised(kind, call, *arguments, **named):
    """The exception of a call that must raise one of this kind."""
    try:
        call(*arguments, **named)
    except kind as error:
        return error
    raise AssertionError(f"{arguments}: no {kind.__name__}")


def with_number(place, number):
    return SHEET_B[:place] + (number,) + SHEET_B[place + 1 :]


def refuses(number, line, length, call, *arguments, **named):
    refused = raised(Refused, call, *arguments, **named)
    assert (refused.number, refused.line, refused.length) == (number, line, length), refused
    assert refused.words == refusal_words(number) and refused.words in str(refused), refused
    again = pickle.loads(pickle.dumps(refused))
    assert str(again) == str(refused), again


def not_64_bits(number):
    """What is like a number, but no number of 64 bits."""
    return 2**64 + number, 2**64, -1, float(number), str(number), None


def stopped(name, number, call, *arguments):
    """What is no number of 64 bits does not reach the call."""
    error = raised(ValueError, call, *arguments)
    assert str(error).startswith(f"{name}: {number!r} "), error


def contents(path):
    with open(path, "rb") as file:
        return file.read()


def certificates(library, sheet):
    expected = contents("crates/certificate_cases/data/certificates/marked_10_b")

    # Text and numbers give the certificate that the reference has made, and it passes.
    certificate = library.write(sheet)
    assert certificate == expected, certificate
    assert library.from_numbers(*SHEET_B) == certificate
    assert library.from_numbers(**dict(zip(KEYS, SHEET_B))) == certificate
    assert library.write(memoryview(sheet)) == library.write(bytearray(sheet)) == certificate
    assert library.check(certificate) == len(certificate)
    z_section = library.from_numbers(*with_number(0, FORM_Z))
    assert z_section.startswith(b"form=Z\n") and library.check(z_section) == len(z_section)
    fine = contents("crates/certificate_cases/data/certificates/fine_b")
    assert library.from_numbers(*with_number(FINE, 10)) == fine and library.check(fine) == len(fine)

    # Refusals, with their words.
    refuses(1, 1, 0, library.write, b"")
    refuses(1, 1, 0, library.check, b"")
    refuses(1, len(KEYS) + 1, 0, library.check, sheet)
    refuses(2, 1, 0, library.from_numbers, *with_number(0, 2))
    refuses(2, 2, 0, library.from_numbers, *with_number(1, 2**64 - 1))
    for number in (0, 2, 9, 11, 100, 2**64 - 1):
        refuses(2, FINE + 1, 0, library.from_numbers, *with_number(FINE, number))
    refuses(1, FINE + 1, 0, library.write, sheet.replace(b"fine=1\n", b""))
    refuses(11, ALLOW + 1, 0, library.from_numbers, *with_number(ALLOW, 0))
    last = certificate.count(b"\n")
    refuses(13, last, 0, library.check, certificate.replace(b"shifthi=", b"shifthi=9"))
    for room in (0, 100, len(certificate) - 1):
        refuses(12, 0, len(certificate), library.write, sheet, room=room)
        refuses(12, 0, len(certificate), library.from_numbers, *SHEET_B, room=room)
    assert library.write(sheet, room=len(certificate)) == certificate
    words = raised(Refused, library.from_numbers, *with_number(ALLOW, 0)).words
    assert words == "the area cannot be given as closely as allow asks", words

    for place, key in enumerate(KEYS):
        for number in not_64_bits(SHEET_B[place]):
            stopped(key, number, library.from_numbers, *with_number(place, number))
    raised(TypeError, library.from_numbers, *SHEET_B[:-1])
    assert len(certificate) <= CERTIFICATE_LONGEST


def reports(library, sheet):
    catalogue = contents("examples/catalogue.txt")

    # The report is the reference's, and its lines are those of the certificates.
    report = library.report(catalogue)
    assert report == contents("examples/catalogue_report.txt"), report
    assert library.report(memoryview(catalogue)) == library.report(bytearray(catalogue)) == report
    full = library.report(sheet * SHEETS_MOST)
    certificate = dict(line.split(b"=") for line in library.write(sheet).splitlines())
    figures = b"%d %s %s" % (SHEETS_MOST, certificate[b"area"], certificate[b"axial"])
    assert full.splitlines()[-1] == figures and len(full) <= REPORT_LONGEST, full

    # Refusals, with their words.
    refuses(14, 0, 0, library.report, b"")
    refuses(14, 0, 0, library.report, sheet * SHEETS_MOST + b"\n")
    refuses(15, 1, 0, library.report, b"\n")
    refuses(15, 3, 0, library.report, sheet + sheet + sheet[:-1], room=0)
    for room in (0, 20, len(report) - 1):
        refuses(12, 0, len(report), library.report, catalogue, room=room)
    assert library.report(catalogue, room=len(report)) == report


def lip_coefficients(library):
    # The table is the reference's.
    table = library.lip_table()
    assert table == contents("crates/tabulate/stdout") and len(table) == LIP_TABLE_LENGTH, table
    assert library.lip_table(room=len(table) + 1) == table
    for room in (0, 20, len(table) - 1):
        refuses(12, 0, len(table), library.lip_table, room=room)

    # At an entry its own ends, between two the lower end of the one and the upper end of the other.
    entries = [tuple(int(end) for end in line.split()) for line in table.splitlines()]
    for i, entry in enumerate(entries):
        assert library.lip_coefficient(350000 + 1000 * i) == entry, i
    for i, (below, above) in enumerate(zip(entries, entries[1:])):
        for past in (1, 500, 999):
            assert library.lip_coefficient(350000 + 1000 * i + past) == (below[0], above[1]), i

    for ratio in (0, 349999, 600001, 2**64 - 1):
        refuses(16, 0, 0, library.lip_coefficient, ratio)
    for ratio in not_64_bits(475000):
        stopped("ratio", ratio, library.lip_coefficient, ratio)


def main(path):
    library = Honemagenta(path)
    sheet = contents("examples/sheet_b.txt")
    certificates(library, sheet)
    reports(library, sheet)
    lip_coefficients(library)
    for text in (sheet.decode("ascii"), None, 160, [1, 2]):
        for call in (library.write, library.check, library.report):
            raised(TypeError, call, text)


main(sys.argv[1])
