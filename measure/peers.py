"""Holds python3-bme280 to the library's answers: peers.py ASKED ANSWERED

ASKED has the bench's comp lines, ANSWERED the library's answers to them. The peer is handed the same bytes: it reads its calibration from a
bus that gives both blocks, and compensates the eight data bytes. It takes no codes. Its values are compared in the paper's units: hundredths
of a degree, Pa times 256, %RH times 1024."""
import math
import re
import sys

import bme280

CHANNELS = ('temperature', 'pressure', 'humidity')
SEEN = {'temperature': 10, 'pressure': 2560, 'humidity': 1024}  # a tenth of a degree, 10 Pa, 1 %RH: what a map shows


class Bus:
    """A bus with a chip's calibration bytes at their registers."""

    def __init__(self, one, two):
        self.bytes = {**{0x88 + i: b for i, b in enumerate(one)}, **{0xE1 + i: b for i, b in enumerate(two)}}

    def read_byte_data(self, _, register):
        return self.bytes[register]

    def read_word_data(self, _, register):
        return self.bytes[register] + self.bytes[register + 1] * 256


def answered_by_peer(one, two, data):
    """The peer's values in the paper's units, or None for one that is no number or raised an error."""
    words = bme280.load_calibration_params(Bus(one, two))
    try:
        reading = bme280.compensated_readings(bme280.uncompensated_readings(list(data)), words)
    except (ArithmeticError, ValueError):
        return None, None, None
    values = reading.temperature * 100, reading.pressure * 100 * 256, reading.humidity * 1024
    return tuple(v if isinstance(v, (int, float)) and math.isfinite(v) else None for v in values)


def answered_by_library(line):
    """What the library gave in each channel: ('value', n) or ('missing', number); None for a reading that is refused whole."""
    if not line.startswith('0 '):
        return None
    channels = []
    for name in 't', 'p', 'h':
        m = re.search(rf' {name}([=!])(-?\d+)', line)
        channels.append(('value' if m[1] == '=' else 'missing', int(m[2])))
    return channels


def main(asked, answered):
    readings = refused = 0
    missing = {}  # number and channel: how many, and how many of them the peer answers
    values = {name: [0, 0, 0, 0.0] for name in CHANNELS}  # how many, by more than a unit apart, by more than a map shows, the largest difference
    signed = [0, 0, 0]  # chips whose H3 has its high bit, humidities with a value of those, and how many of them are seen on a map
    for line, answer in zip(open(asked), open(answered)):
        words = line.split()
        ours = answered_by_library(answer)
        readings += 1
        if ours is None:
            refused += 1
            continue
        one, two, data = (bytes.fromhex(w) for w in words[1:4])
        peer = answered_by_peer(one, two, data)
        high = two[2] > 127
        signed[0] += high
        for name, (kind, number), value in zip(CHANNELS, ours, peer):
            if kind == 'missing':
                count = missing.setdefault((number, name), [0, 0])
                count[0] += 1
                count[1] += value is not None
            else:
                far = math.inf if value is None else abs(value - number)
                values[name][0] += 1
                values[name][1] += far > 1
                values[name][2] += far > SEEN[name]
                values[name][3] = max(values[name][3], far)
                if name == 'humidity' and high:
                    signed[1] += 1
                    signed[2] += far > SEEN[name]
    print(f'{readings} readings, {refused} of them refused whole')
    total = [sum(c[i] for c in missing.values()) for i in (0, 1)]
    print(f'channels that the paper refuses: {total[0]}, of which the peer answers {total[1]} with a number')
    for (number, name), (count, answers) in sorted(missing.items()):
        print(f'    {number} {name}: {count}, answered {answers}')
    total = [sum(c[i] for c in values.values()) for i in (0, 1, 2)]
    print(f'values: {total[0]}, of which {total[1]} differ by more than one unit, and {total[2]} by more than a map shows')
    for name, (count, apart, seen, far) in values.items():
        print(f'    {name}: {count}, by more than one unit {apart}, by more than {SEEN[name]} units {seen}, at most {far:.6g} units')
    print(f'chips whose H3 the peer reads as negative: {signed[0]}; of their {signed[1]} humidities {signed[2]} differ by more than a map shows')


if __name__ == '__main__':
    if len(sys.argv) != 3:
        sys.exit(__doc__)
    main(*sys.argv[1:])
