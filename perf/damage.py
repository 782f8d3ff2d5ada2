#!/usr/bin/env python3
"""What comes of damaged packets, by the rules alone.

Prints what crates/acute_damage_table must print of its input, which this reads: perf/damage.py <crates/acute_damage_table/stdin.
It knows the four packets of that table, which it spells by hand, and shares no code with the product. It takes each front of
a packet and each string that differs from it in one byte as a packet, as a frame, as a program and as the list of a shelf.
"""

import sys

from accepting import Reader, answer, give_names

# The answers as they are printed.


def as_packet(data, packet):
    fault = packet.answer(data)
    return " ".join(str(part) for part in fault[:2]) if fault else "accepted"


def as_frame(data, packet):
    fault = packet.answer(data)
    if fault and fault[0] == "unresolved":
        return "Resolve_failure " + fault[2].decode()
    return "Unmarshal_failure " + fault[0] if fault else "accepted"


def as_program(_data, _packet):
    """No such string is the text of a program. The byte 01 or a zero behind it begins no token; a string that a changed byte in
    front of them begins isn't closed, or is by a byte of a digest, and what follows that begins no token either; and a front of
    the letters alone is a name that isn't in scope, or nothing."""
    return "status 1"


def as_list(data, _packet):
    """A list of a shelf whose files aren't there."""
    uris = []
    for line in data.split(b"\n"):
        parts = line.split(b" ")
        if line == b"":
            continue
        if len(parts) != 2 or b"" in parts or len(parts[0]) > 1024 or parts[0] in uris or not is_utf8(parts[1]):
            return "status 10"
        uris.append(parts[0])
    return "status 5" if uris else "status 0"


def is_utf8(data):
    try:
        data.decode()
        return True
    except UnicodeDecodeError:
        return False


class Packet:
    """A packet, the own modules of the program that receives it, and the type that this asks for."""

    def __init__(self, data, own):
        self.data, self.own = data, own
        self.type = Reader(data).packet()[1]
        self.known = {}

    def answer(self, data):
        """What comes of a string in the place of this packet."""
        if data not in self.known:
            self.known[data] = answer(data, self.own, self.type)
        return self.known[data]


def definition(digits):
    return Reader(bytes.fromhex(digits)).definition()


def names_of(*definitions):
    give_names(definitions)
    return [it.name.hex() for it in definitions]


# The packets, spelled by hand.

HEAD = "41 43 55 50 01 "
M1 = "01 02 4D 31 01 01 00 00 00 02 00 00 00 01 01 79 01 00 00 00 01 01 79 01 01 00 00 00 00 00 00 00 07 "
M1_IMPORT = "02 02 4D 31 00 00 00 01 01 79 01 01 00 01 00 00 01 02 "
M2 = "01 02 4D 32 01 02 00 00 00 01 01 7A 01 00 00 00 01 01 7A 01 01 00 00 00 00 00 00 00 03 "
A = (
    "01 01 41 01 02 00 00 00 01 03 69 6E 63 09 01 01 00 00 00 01 03 69 6E 63 09 01 01 "
    "0E 01 17 00 0B 00 00 01 00 00 00 00 00 00 00 01 "
)
B = (
    "01 01 42 01 02 00 01 01 74 00 00 01 01 66 09 0B 01 74 0B 01 74 00 01 01 74 01 00 01 01 66 09 01 01 "
    "0D 00 00 03 69 6E 63 "
)
L = (
    "01 01 4C 01 02 00 01 01 74 00 00 02 02 6D 6B 09 01 0B 01 74 03 67 65 74 09 0B 01 74 01 00 01 01 74 01 00 02 "
    "02 6D 6B 09 01 01 0E 01 0B 00 00 03 67 65 74 09 01 01 0E 01 0B 00 00 "
)


def five():
    return Packet(bytes.fromhex(HEAD + "00 00 01 01 00 00 00 00 00 00 00 05"), [])


def pair():
    ty, value = "09 04 06 02 01 01 ", "0A 00 00 0E 04 06 02 0D 00 00 01 79 0D 00 01 01 7A"
    return Packet(bytes.fromhex(HEAD + "00 02 " + M1_IMPORT + M2 + ty + value), [definition(M1)])


def through_b():
    own = [definition(A), definition(B)]
    t = "0A " + names_of(*own)[1] + " 01 74 "
    value = "0A 00 00 0E " + t + "10 0D 00 01 01 66 0B 00 00"
    return Packet(bytes.fromhex(HEAD + "00 02 " + A + B + "09 " + t + t + value), own)


def captured():
    own = [definition(L)]
    items = "07 0A " + names_of(*own)[0] + " 01 74 "
    inner = "09 04 " + items
    values = "07 00 00 00 02 01 00 00 00 00 00 00 00 01 01 00 00 00 00 00 00 00 02"
    value = "0A 00 00 0E 04 1A " + inner + "0A 00 00 0E 04 1A " + items + values
    return Packet(bytes.fromhex(HEAD + "00 01 " + L + "09 04 " + inner + value), own)


PACKETS = {"an int": five, "a function of two modules": pair, "a function of an abstract type": through_b, "a function with captured values": captured}
READINGS = {"packets": as_packet, "frames": as_frame, "programs": as_program, "lists": as_list}


def ranges(numbers, show):
    """Numbers in order, what stands next to one another as a range."""
    parts, start = [], 0
    for i in range(1, len(numbers) + 1):
        if i == len(numbers) or numbers[i] != numbers[i - 1] + 1:
            first, last = show(numbers[start]), show(numbers[i - 1])
            parts.append(first if first == last else f"{first}-{last}")
            start = i
    return " ".join(parts)


def line(answers, show):
    places = {}
    for i, it in enumerate(answers):
        places.setdefault(it, []).append(i)
    return ", ".join(f"{ranges(numbers, show)} {it}" for it, numbers in places.items())


def put_reading(word, reading, packet):
    data = packet.data
    print(f"as {word}")
    print("fronts:", line([reading(data[:length], packet) for length in range(len(data))], str))
    lines = [
        line([reading(data[:at] + bytes([byte]) + data[at + 1 :], packet) for byte in range(256)], lambda byte: f"{byte:02x}")
        for at in range(len(data))
    ]
    start = 0
    for at in range(1, len(lines) + 1):
        if at == len(lines) or lines[at] != lines[start]:
            places = str(start) if at - 1 == start else f"{start}-{at - 1}"
            print(f"{places}: {lines[start]}")
            start = at


def main():
    packet = None
    for text in sys.stdin:
        text = text.rstrip("\n")
        print(text)
        if text in PACKETS:
            packet = PACKETS[text]()
        elif text == "damage":
            print(packet.data.hex())
            for word, reading in READINGS.items():
                put_reading(word, reading, packet)


if __name__ == "__main__":
    main()
