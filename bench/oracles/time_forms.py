#!/usr/bin/env python3
"""Writes the tables of ISO texts, forms of time and printed moments, by Python's datetime.

The answers are worked out here from `datetime.date`'s ordinals and weekdays alone.
"""

import datetime
import random
import re

import rows

SCRIPT = "bench/oracles/time_forms.py"

LOW, HIGH = -62135596800, 253402300799
DAY = 86400
EPOCH = datetime.date(1970, 1, 1).toordinal()
LEAST, MOST = -(2**63), 2**63 - 1
UNITS = ["now", "day", "week", "month", "year"]
ISO = re.compile(
    r"(\d{4})-(\d{2})-(\d{2})(?:T(\d{2}):(\d{2}):(\d{2})(?:Z|([+-])(\d{2}):?(\d{2})))?", re.ASCII
)


def in_range(second):
    return second if second is not None and LOW <= second <= HIGH else None


def month_start(year, month):
    if not 1 <= year <= 9999:
        return None
    return (datetime.date(year, month, 1).toordinal() - EPOCH) * DAY


def form(unit, count, now, offset):
    local = in_range(now + 60 * offset)
    if local is None:
        return None
    day = local // DAY
    date = datetime.date.fromordinal(day + EPOCH)
    if unit == "now":
        start = local + count
    elif unit == "day":
        start = (day + count) * DAY
    elif unit == "week":
        start = (day - date.weekday() + 7 * count) * DAY
    elif unit == "month":
        months = date.year * 12 + date.month - 1 + count
        start = month_start(months // 12, months % 12 + 1)
    else:
        start = month_start(date.year + count, 1)
    start = in_range(start)
    return None if start is None else in_range(start - 60 * offset)


def iso_second(text, offset):
    """The second of an ISO text, in range or not, or None where it is none."""
    match = ISO.fullmatch(text)
    if not match:
        return None
    year, month, day, hour, minute, second, sign, hours, minutes = match.groups()
    try:
        date = datetime.date(int(year), int(month), int(day))
        time = datetime.time(int(hour or 0), int(minute or 0), int(second or 0))
        zone = datetime.time(int(hours or 0), int(minutes or 0))
    except ValueError:
        return None
    moment = (date.toordinal() - EPOCH) * DAY + time.hour * 3600 + time.minute * 60 + time.second
    if hour is None:
        moment -= 60 * offset
    else:
        ahead = 60 * zone.hour + zone.minute
        moment -= 60 * (-ahead if sign == "-" else ahead)
    return moment


def iso(text, offset):
    return in_range(iso_second(text, offset))


def printed(moment):
    date = datetime.date.fromordinal(moment // DAY + EPOCH)
    second = moment % DAY
    return f"{date.year:04}-{date.month:02}-{date.day:02} {second // 3600:02}:{second // 60 % 60:02}:{second % 60:02} +0000"


def answer(line):
    """The fields of the row that asks this line: what is asked, and the answer."""
    kind, *words = line.split(" ")
    if kind == "iso":
        moment = iso(words[0], int(words[1]))
    elif kind == "print":
        return [*words, printed(int(words[0]))]
    else:
        moment = form(kind, *map(int, words))
        words = [kind, *words]
    return [*words, "none" if moment is None else moment]


CHOSEN = [
    # the moments of Friday 2024-03-15 10:00:00
    "day 0 1710496800 0", "day -1 1710496800 0", "week 0 1710496800 0", "month -1 1710496800 0",
    "year 0 1710496800 0", "now -60 1710496800 0", "day 0 1710496800 330", "week 0 1710496800 330",
    "month -1 1710496800 330", "year 0 1710496800 330", "now -60 1710496800 330",
    "iso 2024-03-15T11:00:00+0100 330",
    # ends of months and leap years
    "month 1 1706659200 0", "month -1 1711843200 0", "day 1 1709078400 0", "day 1 1709164800 0",
    "year 1 1709164800 0", "month 12 1709164800 0", "month -1428 1709164800 0",
    # weeks across a year, and on Sunday and Monday
    "week 0 1704067199 0", "week 0 1735689600 0", "week 0 1710028799 0", "week 0 1710028800 0", "week -1 1704067200 0",
    # before 1970, where division rounds down
    "day 0 -1 0", "week 0 -1 0", "month 0 -1 0", "year 0 -1 0", "day 0 -86400 0", "day 0 -86401 0",
    # the years 0001 and 9999
    f"year 0 {LOW} 0", f"day -1 {LOW} 0", f"week 0 {LOW} 0", f"month -1 {LOW} 0", f"now -1 {LOW} 0",
    f"now 0 {LOW} -1", f"day 0 {LOW} 1", f"year 0 {HIGH} 0", f"day 1 {HIGH} 0", f"week 1 {HIGH} 0",
    f"month 1 {HIGH} 0", f"year 1 {HIGH} 0", f"now 1 {HIGH} 0", f"now 0 {HIGH} 1", f"day 0 {HIGH} -1",
    "year -2023 1710496800 0", "year -2024 1710496800 0", "year 7975 1710496800 0", "year 7976 1710496800 0",
    # offsets of a day less a minute
    "day 0 1710496800 1439", "day 0 1710496800 -1439", "week 0 1710115200 -1439", "year 0 1704067200 -1439",
    "month 0 1706745599 1439", f"year 0 {LOW} 1439", f"year 0 {HIGH} -1439", f"now 0 {LOW} -1439", f"now 0 {HIGH} 1439",
    # the ends of 64 bits
    *(f"{unit} {count} 1710496800 0" for unit in UNITS for count in (LEAST, MOST)),
    # ISO texts
    "iso 2024-02-29 0", "iso 2024-02-29 330", "iso 2024-02-29 -1439", "iso 2024-02-30 0", "iso 2023-02-29 0",
    "iso 1900-02-29 0", "iso 2000-02-29 0", "iso 2024-02-29T24:00:00Z 0", "iso 2024-02-29T23:59:59Z 330",
    "iso 2024-02-29t00:00:00Z 0", "iso 2024-02-29T00:00:60Z 0", "iso 2024-02-29T00:60:00Z 0",
    "iso 2024-02-29T00:00:00+0060 0", "iso 2024-02-29T00:00:00+2400 0", "iso 2024-02-29T00:00:00-23:59 0",
    "iso 2024-02-29T00:00:00+23:59 0", "iso 2024-02-29T00:00:00 0", "iso 2024-02-29T00:00:00z 0",
    "iso 2024-02-29T00:00:00+1 0", "iso 2024-02-29T00:00:00+01:0 0", "iso 20240229 0", "iso 2024-2-29 0",
    "iso 2024-00-01 0", "iso 2024-13-01 0", "iso 2024-01-00 0", "iso 2024-04-31 0", "iso 2024-12-31 0",
    "iso 0000-01-01 0", "iso 0001-01-01 0", "iso 0001-01-01 1", "iso 0001-01-01T00:00:00+0001 0",
    "iso 0001-01-01T00:00:00-0001 0", "iso 9999-12-31T23:59:59Z 0", "iso 9999-12-31T23:59:59-0001 0",
    "iso 9999-12-31 -1439", "iso 1969-12-31T23:59:59Z 0", "iso 1960-02-29T12:00:00+05:30 0", "iso 12024-01-01 0",
    "iso -024-01-01 0", "iso 2024-01-01Z 0", "iso 2024-01-01T00:00Z 0", "iso ２024-01-01 0", "iso x 0",
    # printed moments
    f"print {LOW}", f"print {HIGH}", "print -1", "print 0", "print 1710496800", "print -315532800", "print 951782400",
]


def random_lines(number, seed):
    draw = random.Random(seed)
    for _ in range(number):
        pick = draw.randrange(8)
        offset = draw.choice([0, 330, -1439, 1439, draw.randint(-1439, 1439)])
        if pick < 5:
            unit = UNITS[pick]
            small = {"now": 10**10, "day": 10**6, "week": 10**5, "month": 30000, "year": 3000}[unit]
            count = draw.choice([0, 1, -1, draw.randint(-40, 40), draw.randint(-small, small), draw.randint(LEAST, MOST)])
            near = draw.choice([LOW, HIGH])
            now = draw.choice([draw.randint(LOW, HIGH), draw.randint(-(2**32), 2**33), near - draw.randint(-10, 10) * 20000])
            yield f"{unit} {count} {min(max(now, LOW), HIGH)} {offset}"
        elif pick == 5:
            yield f"print {draw.randint(LOW, HIGH)}"
        else:
            text = f"{draw.choice([draw.randint(0, 9999), draw.randint(1960, 2040)]):04}-{draw.randint(0, 13):02}-{draw.randint(0, 32):02}"
            if pick == 7:
                hour, minute, second = draw.randint(0, 24), draw.randint(0, 60), draw.randint(0, 60)
                sign, hours, minutes = draw.choice("+-"), draw.randint(0, 24), draw.randint(0, 60)
                zone = draw.choice(["Z", f"{sign}{hours:02}{minutes:02}", f"{sign}{hours:02}:{minutes:02}"])
                text += f"T{hour:02}:{minute:02}:{second:02}{zone}"
                if draw.randrange(4) == 0:
                    place = draw.randrange(len(text))
                    text = text[:place] + draw.choice(["", "0", "9", "T", "t", ":", "-", "+", "Z", "."]) + text[place + 1 :]
            yield f"iso {text} {offset}"


def fnv(text):
    """FNV-1a of 64 bits."""
    value = 0xCBF29CE484222325
    for byte in text.encode():
        value = (value ^ byte) * 0x100000001B3 % 2**64
    return value


def day_lines(year):
    """Each day of twelve months of 31 days, with its moment and that moment printed."""
    for month in range(1, 13):
        for day in range(1, 32):
            text = f"{year:04}-{month:02}-{day:02}"
            moment = iso(text, 0)
            yield f"{text} none\n" if moment is None else f"{text} {moment} {printed(moment)}\n"


# The first and the last years of the sums: of all years that are written with four digits, most of them ten by ten.
YEARS = [(year, year) for year in (0, 1, 1600, 1900, 1970, 2000, 2023, 2024, 9999)] + [(year, year + 9) for year in range(0, 10_000, 10)]


def tables():
    source = "The wanted values are those of Python's datetime."
    lines = CHOSEN + list(random_lines(6_000, 20240315))
    asked = {"iso": [], "print": [], "form": []}
    for line in lines:
        kind = line.split(" ")[0]
        asked[kind if kind in asked else "form"].append(answer(line))
    yield rows.table("iso_moments", SCRIPT, "text, offset in minutes, moment", [source], asked["iso"])
    yield rows.table("time_forms", SCRIPT, "unit, count, now, offset in minutes, moment", [source], asked["form"])
    yield rows.table("printed_moments", SCRIPT, "moment, text", [source], asked["print"])
    yield rows.table("days", SCRIPT, "first year, last year, FNV-1a of 64 bits over a line for each day of twelve months of 31 days", [
        source, "A line is the date, its moment and that moment printed, or none in place of both.",
    ], ((first, last, f"{fnv(''.join(line for year in range(first, last + 1) for line in day_lines(year))):016x}") for first, last in YEARS))


if __name__ == "__main__":
    rows.write(tables())
