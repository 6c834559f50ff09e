#!/usr/bin/env python3
"""A sender written apart from the Rattle code, straight from docs/SIGNAL-CHAIN.md.

    tools/sender_model.py cells M B RATE CODE END INTERLEAVER MESSAGE   the cells, a line each
    tools/sender_model.py conformance                                  what crates/conformance must print

It makes the outputs that are stored beside the programs, so that these are not the programs' own output copied back."""
import sys

PATTERNS = {"1/2": ("1", "1"), "2/3": ("11", "10"), "3/4": ("110", "101")}


def long_step(s, b):
    reg = 64 * b + s
    par = lambda mask: bin(reg & mask).count("1") % 2
    return reg // 2, par(0o133), par(0o171)


def recursive_step(s, b):
    x, y = divmod(s, 2)
    z = b ^ x ^ y
    return 2 * z + x, b, z ^ y


def alternating_step(s, b):
    return (s + 1 + 2 * b) % 4, b, b ^ (s // 2)


STEP = {"L": long_step, "R": recursive_step, "A": alternating_step}
MEMORY = {"L": 6, "R": 2}
CLOSE = {"L": lambda s: 0, "R": lambda s: (s // 2) ^ (s % 2)}


def sent_bits(code, end, rate, message):
    first, second = PATTERNS[rate]
    inputs, state, out, step = list(message), 0, [], 0
    for b in inputs:
        state, c, d = STEP[code](state, b)
        out += [c] * (first[step % len(first)] == "1") + [d] * (second[step % len(second)] == "1")
        step += 1
    if end == "C":
        for _ in range(MEMORY[code]):
            state, c, d = STEP[code](state, CLOSE[code](state))
            out += [c] * (first[step % len(first)] == "1") + [d] * (second[step % len(second)] == "1")
            step += 1
        assert state == 0
    return out


def place(interleaver, m, b, j):
    n = 2 * m * b
    if interleaver == "S":
        return j
    i = (n // 16) * (j % 16) + j // 16
    return m * (i // m) + (i + n - (16 * i) // n) % m


def cells(m, b, rate, code, end, interleaver, message):
    bits = sent_bits(code, end, rate, message)
    n = 2 * m * b
    total = -(-len(bits) // n) * n
    bits += [0] * (total - len(bits))
    placed = [None] * total
    for j, bit in enumerate(bits):
        placed[j // n * n + place(interleaver, m, b, j % n)] = bit
    levels = {}
    for i in range(2 ** m):
        levels[i ^ (i // 2)] = 2 * i - (2 ** m - 1)
    out = []
    for c in range(total // (2 * m)):
        word = placed[c * 2 * m:(c + 1) * 2 * m]
        number = lambda w: int("".join(map(str, w)), 2)
        out.append((64 * levels[number(word[:m])], 64 * levels[number(word[m:])], 1))
    return out


GRAY = {
    1: "0 1",
    2: "00 01 11 10",
    3: "000 001 011 010 110 111 101 100",
    4: "0000 0001 0011 0010 0110 0111 0101 0100 1100 1101 1111 1110 1010 1011 1001 1000",
}
MESSAGE = "1101001110100001011"


def weighed(frame):
    return sum((n + 1) * (i + 3 * q) + w for n, (i, q, w) in enumerate(frame))


def send_row(m, k, b, ilv, message, room):
    """The number of the first row met, or 0, and how many cells are written."""
    if not 1 <= m <= 4:
        return 1, 0
    if not 1 <= k <= 4090:
        return 2, 0
    if not 1 <= b <= 64:
        return 3, 0
    if ilv == "T" and b % 8:
        return 4, 0
    if len(message) < k:
        return 12, 0
    if any(x not in (0, 1) for x in message[:k]):
        return 13, 0
    frame = cells(m, b, "1/2", "R", "C", ilv, message[:k])
    if room < len(frame):
        return 14, 0
    return 0, len(frame)


def row(name, m=1, k=2, b=8, ilv="T", count=2, two=None, room=8):
    message = [2 if at == two else 1 for at in range(count)]
    number, written = send_row(m, k, b, ilv, message, room)
    print(f"{name}: {number}, {written} cells written")


def conformance():
    for m in range(1, 5):
        print(f"labels {m}: {GRAY[m]}")
    for m in range(6):
        print(f"labels of {m} bits: {2 ** m if 1 <= m <= 4 else 0}")
    for name, count in [("SIGNAL coded", 48), ("SIGNAL interleaved", 48), ("first DATA symbol coded", 152), ("first DATA symbol interleaved", 128)]:
        print(f"{name}: {count} of {count} published bits agree")
    print("first cells of the first DATA symbol: 6 of 6 agree")
    message = [int(x) for x in MESSAGE]
    for code, end in [("L", "C"), ("L", "O"), ("R", "C"), ("R", "O")]:
        for rate in ["1/2", "2/3", "3/4"]:
            for m in range(1, 5):
                for b, ilv in [(1, "S"), (64, "S"), (8, "T")]:
                    frame = cells(m, b, rate, code, end, ilv, message)
                    print(f"frame {m} {b} {rate} {code} {end} {ilv}: {len(frame)} cells, sum {weighed(frame)}")
    frame = cells(2, 4, "2/3", "A", "O", "S", message)
    print(f"frame 2 4 2/3 alternating: {len(frame)} cells, sum {weighed(frame)}")
    for m in (0, 1, 4, 5):
        row(f"bits per axis {m}", m=m)
    for k in (0, 1):
        row(f"message bits {k}", k=k)
    for k in (4090, 4091):
        row(f"message bits {k}", k=k, ilv="S", count=5000, room=5000)
    for b in (0, 1, 64, 65):
        row(f"block cells {b}", b=b, ilv="S", count=5000, room=5000)
    row("two-step block 16", b=16, room=16)
    row("two-step block 12", b=12, room=16)
    row("two-step block 64", b=64, room=64)
    row("message buffer one short", count=1)
    row("message buffer one longer", count=3)
    row("a byte of 2 first", two=0)
    row("a byte of 2 last", two=1)
    row("a byte of 2 behind the message", count=3, two=2)
    row("cell buffer one short", room=7)
    row("cell buffer one longer", room=9)
    for chosen in range(128):
        bit = lambda n: chosen >> n & 1
        row(f"rows of set {chosen}", m=5 if bit(0) else 1, k=4091 if bit(1) else 2, b=65 if bit(2) else 12 if bit(3) else 8,
            count=1 if bit(4) else 2, two=0 if bit(5) else None, room=3 if bit(6) else 8)


def main():
    if sys.argv[1] == "cells":
        m, b, rate, code, end, ilv, message = sys.argv[2:9]
        for cell in cells(int(m), int(b), rate, code, end, ilv, [int(x) for x in message]):
            print(*cell)
    elif sys.argv[1] == "conformance":
        conformance()


if __name__ == "__main__":
    main()
