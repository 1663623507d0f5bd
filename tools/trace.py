#!/usr/bin/env python3
"""trace.py make [FILE]: a recorded run told in text, one call a line, as the bytes of a trace (docs/FORMAT.md), to standard output.
trace.py read [FILE]: the bytes of a trace as such a text. Without a file both read standard input.

    format 4                    # 4 to 16 blocks; the first call, and used once
    step
    append 5=1000 7=20 5=-      # entries: valve=word sets, valve=- removes; key:word gives a key and a word as they are stored
    buffer 32773:1              # a group for the write buffer
    flush
    commit
    collect 2
    cut page 3 FF*256           # a pattern of 256 bytes, in hex; XX*N is XX N times, and XX* as the last fills up
    recover                     # comes after each cut
    cut block 0 00*512 A5 FF*   # a pattern of 4096 bytes

Numbers are decimal, or hexadecimal with 0x. A # begins a comment. What is no trace in form is refused, with its line or call, and nothing is written."""
import itertools
import re
import struct
import sys

CODES = {"format": 1, "append": 2, "commit": 3, "collect": 4, "step": 5, "cut": 6, "recover": 7, "buffer": 8, "flush": 9}
NAMES = {code: name for name, code in CODES.items()}
MOST_BYTES, PAGE, BLOCK, CUT_BLOCKS, REMOVAL = 65536, 256, 4096, 256, 32768


class Broken(Exception):
    """What is told is no trace."""


# A call is its code, its number, and the bytes that come after the two lists for it.

def number_in(text, most, what):
    """A number from 0 to the most."""
    if not re.fullmatch("[0-9]{1,20}|0[xX][0-9A-Fa-f]{1,16}", text):
        raise Broken(f"{what} is a number, not '{text}'")
    number = int(text, 16 if "x" in text.lower() else 10)
    if number > most:
        raise Broken(f"{what} is 0 to {most}, not {number}")
    return number


def entry_in(text):
    """Key and word of an entry."""
    if ":" in text:
        key, word = text.split(":", 1)
        return number_in(key, 65535, "a key"), number_in(word, 2**64 - 1, "a word")
    if "=" not in text:
        raise Broken(f"an entry is valve=word, valve=- or key:word, not '{text}'")
    valve, word = text.split("=", 1)
    valve = number_in(valve, REMOVAL - 1, "a valve")
    return (valve + REMOVAL, 0) if word == "-" else (valve, number_in(word, 2**64 - 1, "a word"))


def group_in(words):
    """A group's keys, then its words."""
    entries = [entry_in(word) for word in words]
    return struct.pack(f"<{len(entries)}H", *(key for key, _ in entries)) + struct.pack(f"<{len(entries)}Q", *(word for _, word in entries))


def pattern_in(words, length):
    """A pattern of so many bytes."""
    pattern = b""
    for at, word in enumerate(words):
        digits, star, times = word.partition("*")
        try:
            part = bytes.fromhex(digits)
        except ValueError:
            part = b""
        if not part:
            raise Broken(f"a part of a pattern is hex digits, two to a byte, not '{digits}'")
        if star and not times and at + 1 == len(words):
            times = -(-max(length - len(pattern), 0) // len(part))
        else:
            times = number_in(times, length, "how many times") if star else 1
        pattern += part * times
    if len(pattern) != length:
        raise Broken(f"the pattern is {length} bytes, not {len(pattern)}")
    return pattern


def cut_in(words):
    """A cut's number and its pattern."""
    if len(words) < 2 or words[0] not in ("page", "block"):
        raise Broken("cut names a page or a block, and its pattern")
    if words[0] == "page":
        return number_in(words[1], 255, "a page"), pattern_in(words[2:], PAGE)
    return CUT_BLOCKS + number_in(words[1], 15, "a block"), pattern_in(words[2:], BLOCK)


def call_in(line):
    """The call of a line."""
    name, *words = line.split()
    if name not in CODES:
        raise Broken(f"no such call: '{name}'")
    if name in ("append", "buffer"):
        return CODES[name], len(words), group_in(words)
    if name == "cut":
        return (CODES[name], *cut_in(words))
    takes = {"format": "a number of blocks", "collect": "a block"}.get(name)
    if len(words) != (1 if takes else 0):
        raise Broken(f"{name} takes {takes or 'nothing'}")
    return CODES[name], number_in(words[0], 2**64 - 1, takes) if takes else 0, b""


def check_order(calls):
    """The first code is 1, used only once; after 6 comes 7. Each call stands with its place."""
    for at, (place, (code, number, _)) in enumerate(calls):
        if (code == 1) != (at == 0):
            raise Broken(f"{place}: format is the first call, and used once")
        if code == 1 and not 4 <= number <= 16:
            raise Broken(f"{place}: blocks are 4 to 16, not {number}")
        if code == 6 and (at + 1 == len(calls) or calls[at + 1][1][0] != 7):
            raise Broken(f"{place}: recover comes after each cut")
    if not calls:
        raise Broken("no call")


def make(text):
    """The bytes of a trace."""
    calls = []
    for nth, line in enumerate(text.split("\n"), 1):
        line = line.split("#")[0].strip()
        if line:
            try:
                calls.append((f"line {nth}", call_in(line)))
            except Broken as broken:
                raise Broken(f"line {nth}: {broken}")
    check_order(calls)
    calls = [call for _, call in calls]
    numbers = [len(calls)] + [code for code, _, _ in calls] + [number for _, number, _ in calls]
    made = struct.pack(f"<{len(numbers)}Q", *numbers) + b"".join(behind for _, _, behind in calls)
    if len(made) > MOST_BYTES:
        raise Broken(f"a trace is at most {MOST_BYTES} bytes, not {len(made)}")
    return made


def length_behind(code, number):
    """How many bytes come after the two lists for a call."""
    if code not in NAMES:
        raise Broken(f"no such code: {code}")
    if code in (2, 8):
        return 10 * number
    if code == 6:
        if number > 271:
            raise Broken(f"a cut's number is at most 271, not {number}")
        return PAGE if number < CUT_BLOCKS else BLOCK
    if code not in (1, 4) and number != 0:
        raise Broken(f"the number of {NAMES[code]} is 0, not {number}")
    return 0


def calls_of(trace):
    """The calls of a trace's bytes."""
    if len(trace) > MOST_BYTES:
        raise Broken(f"a trace is at most {MOST_BYTES} bytes, not {len(trace)}")
    if len(trace) < 8:
        raise Broken("a trace begins with its number of calls, 8 bytes")
    count = struct.unpack_from("<Q", trace)[0]
    if 8 + 16 * count > len(trace):
        raise Broken(f"{count} calls take {8 + 16 * count} bytes or more, not {len(trace)}")
    numbers = struct.unpack_from(f"<{2 * count}Q", trace, 8)
    calls, at = [], 8 + 16 * count
    for nth, (code, number) in enumerate(zip(numbers[:count], numbers[count:])):
        try:
            end = at + length_behind(code, number)
        except Broken as broken:
            raise Broken(f"call {nth}: {broken}")
        if end > len(trace):
            raise Broken(f"call {nth}: {end - at} bytes belong to it, and {len(trace) - at} are left")
        calls.append((f"call {nth}", (code, number, trace[at:end])))
        at = end
    check_order(calls)
    if at != len(trace):
        raise Broken(f"{len(trace) - at} bytes are left over")
    return [call for _, call in calls]


def told_group(entries, behind):
    """Keys and words as entries."""
    for key, word in zip(struct.unpack_from(f"<{entries}H", behind), struct.unpack_from(f"<{entries}Q", behind, 2 * entries)):
        if key < REMOVAL:
            yield f"{key}={word}"
        else:
            yield f"{key - REMOVAL}=-" if word == 0 else f"{key}:{word}"


def told_pattern(pattern):
    """A pattern, four equal bytes and more together."""
    digits = ""
    for byte, run in itertools.groupby(pattern):
        times = len(list(run))
        if times < 4:
            digits += f"{byte:02X}" * times
            continue
        if digits:
            yield digits
        digits = ""
        yield f"{byte:02X}*{times}"
    if digits:
        yield digits


def told(code, number, behind):
    """A call as a line."""
    if code in (2, 8):
        words = told_group(number, behind)
    elif code == 6:
        place = ["page", str(number)] if number < CUT_BLOCKS else ["block", str(number - CUT_BLOCKS)]
        words = itertools.chain(place, told_pattern(behind))
    else:
        words = [str(number)] if code in (1, 4) else []
    return " ".join([NAMES[code], *words]) + "\n"


def done(mode, given):
    """What the tool writes for these bytes."""
    if mode == "read":
        return "".join(told(*call) for call in calls_of(given)).encode()
    try:
        return make(given.decode())
    except UnicodeDecodeError:
        raise Broken("a text is in UTF-8")


def main(arguments):
    if len(arguments) not in (1, 2) or arguments[0] not in ("make", "read"):
        sys.exit(__doc__)
    try:
        with open(arguments[1], "rb") if len(arguments) == 2 else sys.stdin.buffer as file:
            made = done(arguments[0], file.read())
    except (Broken, OSError) as error:
        sys.exit(f"trace.py: {error}")
    sys.stdout.buffer.write(made)


if __name__ == "__main__":
    main(sys.argv[1:])
