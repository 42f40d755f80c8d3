"""The calls of first.c from Python, through the installed shared object: python3 examples/book.py"""

from ctypes import CDLL, POINTER, Structure, byref, c_size_t, c_uint32 as u32, sizeof

PRODUCTS = 8
GROUPS = 5


class Limit(Structure):
    _fields_ = [("initial", u32), ("expanded", u32)]


class Standing(Structure):
    _fields_ = [("expanded", u32), ("marked", u32)]


class Contract(Structure):
    _fields_ = [("month", u32), ("settlement", u32)]


class ProductSheet(Structure):
    _fields_ = [("count", u32), ("contracts", Contract * 16)]


class Windows(Structure):
    _fields_ = [("counts", u32 * PRODUCTS), ("settlements", u32 * 45 * PRODUCTS)]


class Event(Structure):
    _fields_ = [("kind", u32), ("month", u32), ("product", u32)]


class Book(Structure):
    _fields_ = [
        ("format", u32),
        ("edition", u32),
        ("is_open", u32),
        ("year", u32),
        ("month", u32),
        ("day", u32),
        ("left", u32),
        ("limits", Limit * PRODUCTS),
        ("standings", Standing * GROUPS),
        ("windows", Windows),
        ("today", ProductSheet * PRODUCTS),
        ("last", ProductSheet * PRODUCTS),
        ("renewed", u32 * PRODUCTS),
        ("events", Event * GROUPS),
    ]


class Span(Structure):
    _fields_ = [("answer", u32), ("lowest", u32), ("highest", u32)]


assert sizeof(Book) == 4 * 952
assert sizeof(Span) == 4 * 3

CORN = 0
STANDARD = 0
EDITION_2023 = 2023
WITHIN = 101
BELOW = 102
ABOVE = 103

library = CDLL("libbotskhela.so.3")


def declared(name, *arguments, result=u32):
    function = getattr(library, "botskhela_" + name)
    function.argtypes = arguments
    function.restype = result
    return function


found = declared("found", POINTER(Book), u32, *[u32] * PRODUCTS)
open_day = declared("open", POINTER(Book), *[u32] * 4)
file_sheet = declared("sheet", POINTER(Book), u32, POINTER(u32), c_size_t, POINTER(u32), c_size_t)
end_day = declared("end", POINTER(Book))
check_span = declared("check_span", POINTER(Book), *[u32] * 4, result=Span)


def must(refusal):
    if refusal != 0:
        raise ValueError(f"refused {refusal}")


def numbers(values):
    return (u32 * len(values))(*values)


def judge(book, month, price):
    span = check_span(byref(book), CORN, STANDARD, month, price)
    if span.answer in (BELOW, ABOVE):
        word = "below" if span.answer == BELOW else "above"
        print(f"{price} {word}, {span.lowest} to {span.highest} allowed")
    else:
        print(price, "within" if span.answer == WITHIN else "free or refused")


def main():
    july = [2024 * 12 + 7 - 1]  # a month that all eight products trade
    settlements = [3600]
    book = Book()

    must(found(byref(book), EDITION_2023, 200, 600, 250, 200, 240, 240, 160, 100))
    must(open_day(byref(book), 2024, 6, 25, 3))
    for product in range(PRODUCTS):
        must(file_sheet(byref(book), product, numbers(july), len(july), numbers(settlements), len(settlements)))
    must(end_day(byref(book)))
    must(open_day(byref(book), 2024, 6, 26, 2))
    judge(book, july[0], 3800)
    judge(book, july[0], 3802)


main()
