"""Bytes, lists and amounts put into words."""
import math
import unicodedata

from .equations import rounded, square
from .format import is_between

LONGEST_QUOTE = 200

_CONTROLS = {0: "NUL", 9: "TAB", 10: "LF", 13: "CR", 27: "ESC", 127: "DEL", 0xFEFF: "byte order mark"}


def _character(character):
    code = ord(character)
    if 32 <= code < 127:
        return character
    if code in _CONTROLS:
        return f"<{_CONTROLS[code]}>"
    if code < 32:
        return f"<control {code}>"
    if 0xDC80 <= code <= 0xDCFF:
        # a byte that is no part of a UTF-8 character, as surrogateescape keeps it
        return f"<byte {code - 0xDC00}>"
    # names only, so that the message can be read on every terminal
    return f"<{unicodedata.name(character, f'character {code}').lower()}>"


def visible(content):
    """Bytes as text in which each character is seen; a long text is cut."""
    text = "".join(_character(character) for character in content[: LONGEST_QUOTE * 4].decode("utf-8", "surrogateescape"))
    if len(text) <= LONGEST_QUOTE and len(content) <= LONGEST_QUOTE * 4:
        return text
    return f"{text[:LONGEST_QUOTE]} ... ({len(content)} bytes)"


def listed(words, last="and"):
    """a, b and c"""
    words = [str(word) for word in words]
    if len(words) < 2:
        return "".join(words)
    return ", ".join(words[:-1]) + f" {last} {words[-1]}"


def begun(text):
    """The text with a capital first letter, the rest as it is."""
    return text[:1].upper() + text[1:]


def counted(count, one, many=None):
    """'1 row', '2 rows'"""
    return f"{count} {one if count == 1 else many or one + 's'}"


def lines_said(numbers):
    """'line 5', 'lines 6, 7 and 11', 'lines 10 to 13'"""
    numbers = sorted(set(numbers))
    runs = []
    for number in numbers:
        if runs and number == runs[-1][-1] + 1:
            runs[-1].append(number)
        else:
            runs.append([number])
    parts = []
    for run in runs:
        parts += [f"{run[0]} to {run[-1]}"] if len(run) > 2 else run
    more = f" and {len(parts) - 12} more" if len(parts) > 12 else ""
    return ("line " if len(numbers) == 1 else "lines ") + (", ".join(map(str, parts[:12])) + more if more else listed(parts))


def phases_said(phases):
    """'phase A', 'phases A and B'"""
    return ("phase " if len(phases) == 1 else "phases ") + listed(phases)


def between_said(word):
    """' between A and B' for a load that stands between two phases, '' for one to ground; word is that of its phase."""
    return f" between {word[0]} and {word[1]}" if is_between(word) else ""


def decimal_text(number, unit_exponent, places):
    """number / 10^unit_exponent with so many decimals, to the nearest, a tie away from zero; worked in whole numbers."""
    shift = unit_exponent - places
    whole = rounded(number, 10 ** shift) if shift >= 0 else number * 10 ** -shift
    digits = str(abs(whole)).rjust(places + 1, "0")
    sign = "-" if whole < 0 else ""
    return sign + (f"{digits[:-places]}.{digits[-places:]}" if places else digits)


def per_cent_of_rated(load, voltage):
    """The load's voltage in per cent of its vn. What is behind the second decimal is left out, so that less than 70 is not shown as 70.00."""
    return decimal_text(math.isqrt(10**8 * square(voltage) // load.vn**2), 2, 2)


def volts(centivolts):
    return decimal_text(centivolts, 2, 2) + " V"


def centivolts(number):
    """'76 (0.76 V)', of a value as it stands in a file"""
    return f"{number} ({volts(number)})"


def amperes(milliamperes):
    return decimal_text(milliamperes, 3, 3) + " A"


def ohms(micro_ohms):
    return decimal_text(micro_ohms, 6, 6).rstrip("0").rstrip(".") + " ohm"


def watts(grains):
    return decimal_text(grains, 5, 5) + " W"
