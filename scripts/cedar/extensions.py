"""The texts of extension values, as docs/FORMAT.md has them: which ones are a value."""
import datetime
import re

TYPES = {"ip": "ipaddr", "decimal": "decimal", "datetime": "datetime", "duration": "duration"}
FUNCTIONS = {kind: function for function, kind in TYPES.items()}
LONG = 1 << 63
UNITS = (("d", 86400000), ("h", 3600000), ("m", 60000), ("s", 1000), ("ms", 1))
DURATION = re.compile(
    "(-?)" + "".join(f"(?:([0-9]+){unit}(?!s))?" if unit == "m" else f"(?:([0-9]+){unit})?" for unit, _ in UNITS)
)
DECIMAL = re.compile(r"(-?)([0-9]+)\.([0-9]{1,4})")
OCTET = "(?:25[0-5]|2[0-4][0-9]|1[0-9][0-9]|[1-9]?[0-9])"  # 0 to 255
IPV4 = re.compile(rf"(?:{OCTET}\.){{3}}{OCTET}(?:/(?:3[0-2]|[12]?[0-9]))?")
IPV6_PREFIX = re.compile("12[0-8]|1[01][0-9]|[1-9]?[0-9]")  # 0 to 128
GROUP = re.compile("[0-9A-Fa-f]{1,4}")
DATETIME = re.compile(r"(\d{4})-(\d\d)-(\d\d)(?:T(\d\d):(\d\d):(\d\d)(?:\.\d{3})?(?:Z|[+-](\d\d)(\d\d)))?", re.A)


def fits(sign, number):
    return number <= (LONG if sign == "-" else LONG - 1)


def is_decimal(text):
    found = DECIMAL.fullmatch(text)
    return (
        bool(found)
        and len(found[2].lstrip("0")) < 20
        and fits(found[1], int(found[2].lstrip("0") + found[3].ljust(4, "0")))
    )


def is_duration(text):
    found = DURATION.fullmatch(text)
    if not found or not any(found.groups()[1:]) or any(len(n or "") > 400 for n in found.groups()):
        return False
    return fits(found[1], sum(int(n or 0) * unit for n, (_, unit) in zip(found.groups()[1:], UNITS)))


def is_datetime(text):
    found = DATETIME.fullmatch(text)
    if not found:
        return False
    year, month, day, hour, minute, second, offset_hour, offset_minute = (int(n or 0) for n in found.groups())
    try:
        datetime.date(year or 2000, month, day)  # the year 0 is a leap year, and none of Python's
    except ValueError:
        return False
    return hour <= 23 and minute <= 59 and second <= 59 and offset_hour <= 23 and offset_minute <= 59


def is_ip(text):
    if IPV4.fullmatch(text):
        return True
    address, slash, prefix = text.partition("/")
    if ":" not in address or slash and not IPV6_PREFIX.fullmatch(prefix):
        return False
    halves = address.split("::")
    groups = [half.split(":") if half else [] for half in halves]
    written = [g for half in groups for g in half]
    if len(halves) > 2 or not all(GROUP.fullmatch(g) for g in written):
        return False
    return len(written) == 8 if len(halves) == 1 else len(written) <= 7


TESTS = {"ip": is_ip, "decimal": is_decimal, "datetime": is_datetime, "duration": is_duration}


def stands_for_value(function, text):
    return TESTS[function](text)
