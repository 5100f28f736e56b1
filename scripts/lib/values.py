"""Texts of decimals, IP addresses, datetimes and durations: what is wrong with one, or nothing."""
import re

LEAST, MOST = -(2**63), 2**63 - 1
DATE = re.compile(
    r"([0-9]{4})-([0-9]{2})-([0-9]{2})"
    r"(?:T([0-9]{2}):([0-9]{2}):([0-9]{2})(?:\.[0-9]{3})?(?:Z|[+-]([0-9]{2})([0-9]{2})))?"
)
DURATION = re.compile("-?" + "".join(f"(?:([0-9]+){unit})?" for unit in ("d", "h", "m(?!s)", "s", "ms")))
MILLISECONDS = (86400000, 3600000, 60000, 1000, 1)


def whole(digits):
    """The number that digits mean, perhaps with - before them; of too many digits any that is out of
    range."""
    short = digits.lstrip("-").lstrip("0") or "0"
    return (-1 if digits.startswith("-") else 1) * (int(short) if len(short) <= 30 else 10**30)


def decimal(text):
    if not re.fullmatch(r"-?[0-9]+\.[0-9]{1,4}", text):
        return "a decimal is digits, a point, and one to four digits: 1.5"
    before, behind = text.split(".")
    if not LEAST <= whole(before + behind.ljust(4, "0")) <= MOST:
        return "a decimal goes from -922337203685477.5808 to 922337203685477.5807"
    return None


def ip(text):
    address, slash, prefix = text.partition("/")
    version = 4 if is_ipv4(address) else 6 if is_ipv6(address) else None
    if version is None:
        return (
            "an IP address is four numbers to 255 with points between, without needless zeros, "
            "or groups of hexadecimal digits with colons between"
        )
    most = 32 if version == 4 else 128
    if slash and not (re.fullmatch("0|[1-9][0-9]{0,2}", prefix) and int(prefix) <= most):
        return f"after the / of an IPv{version} address comes a prefix, a number to {most}"
    return None


def is_ipv4(text):
    numbers = text.split(".")
    return len(numbers) == 4 and all(re.fullmatch("0|[1-9][0-9]{0,2}", n) and int(n) <= 255 for n in numbers)


def is_ipv6(text):
    def groups(part):
        return part.split(":") if part else []

    sides = text.split("::")
    if len(sides) > 2:
        return False
    found = [group for side in sides for group in groups(side)]
    count = len(found) <= 7 if len(sides) == 2 else len(found) == 8
    return count and all(re.fullmatch("[0-9A-Fa-f]{1,4}", group) for group in found)


def datetime(text):
    found = DATE.fullmatch(text)
    if not found:
        return (
            "a datetime is 2025-01-31, or 2025-01-31T12:00:00Z, "
            "with perhaps .123 behind the seconds, and Z, +0100 or -0100 last"
        )
    year, month, day, hour, minute, second, offset_hour, offset_minute = (int(n or 0) for n in found.groups())
    leap = year % 4 == 0 and (year % 100 != 0 or year % 400 == 0)
    days = (31, 29 if leap else 28, 31, 30, 31, 30, 31, 31, 30, 31, 30, 31)
    if not 1 <= month <= 12 or not 1 <= day <= days[month - 1]:
        return "there is no such day"
    if max(hour, offset_hour) > 23 or max(minute, second, offset_minute) > 59:
        return "hours go to 23, minutes and seconds to 59"
    return None


def duration(text):
    found = DURATION.fullmatch(text)
    if not found or not any(found.groups()):
        return "a duration is one or more of 1d, 2h, 3m, 4s, 5ms, in this order, perhaps with - in front"
    total = sum(whole(n or "0") * unit for n, unit in zip(found.groups(), MILLISECONDS))
    if not LEAST <= (-total if text.startswith("-") else total) <= MOST:
        return "the milliseconds of a duration have 64 signed bits"
    return None


READERS = {"decimal": decimal, "ip": ip, "datetime": datetime, "duration": duration}
