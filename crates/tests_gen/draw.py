#!/usr/bin/env python3
"""draw.py > src/expected.rt: the first hundred lines of three numbers' traces, where these have 107 lines or more.

The generator is PCG XSH RR 64/32 of O'Neill; a number becomes its seed as `seed_from_u64` of Rust's rand_core makes one. It gives
what is published: the first words of the reference implementation's pcg32-demo (state 42, stream 54), and those that the tests of
Rust's rand_pcg have for the seed of the bytes 1 to 16 and for the number 0."""

MULTIPLIER, NUMBER_INCREMENT = 6364136223846793005, 11634580027462260723


def after(state, increment):
    return (state * MULTIPLIER + increment) % 2**64


def word_of(state):
    word, turn = (state >> 18 ^ state) >> 27 & 0xFFFFFFFF, state >> 59
    return (word >> turn | word << 32 - turn) & 0xFFFFFFFF


def words(state, increment):
    state = after((state + increment) % 2**64, increment)
    while True:
        yield word_of(state)
        state = after(state, increment)


def words_of_seed(seed):
    return words(int.from_bytes(seed[:8], "little"), int.from_bytes(seed[8:], "little") | 1)


def words_of_number(number):
    seed = b""
    for _ in range(4):
        number = after(number, NUMBER_INCREMENT)
        seed += word_of(number).to_bytes(4, "little")
    return words_of_seed(seed)


def command(place, word):
    if place % 2 == 0:
        return f"seek 3 {word % 65536}"
    length, byte = 1 + word // 2 % 4096, word // 8192 % 256
    return f"read 3 {length}" if word % 2 == 0 else f"write 3 r:{length}:{byte:02x}"


def first_hundred(number):
    drawn = words_of_number(number)
    lines = ["1 creat 3 shared"] + [f"1 fork {child}" for child in range(2, 9)]
    return lines + [f"{2 + place // 2 % 7} {command(place, next(drawn))}" for place in range(92)]


def published(words, *values):
    assert [next(words) for _ in values] == list(values)


published(words(42, 54 << 1 | 1), 0xA15C02B7, 0x7B47F409, 0xBA1D3330, 0x83D2F293, 0xBFA4784B, 0xCBED606E)
published(words_of_seed(bytes(range(1, 17))), 1204678643940597513 % 2**32, 1204678643940597513 >> 32)
published(words_of_number(0), 18195738587432868099 % 2**32, 18195738587432868099 >> 32)
print("//! The first hundred lines of the traces of three numbers, as draw.py writes them.")
for name, number in ("ZERO", 0), ("ONE", 1), ("GREATEST", 2**64 - 1):
    text = "\n".join(first_hundred(number))
    print(f'\n/// Those of {number}.\npub const {name}: &[u8] = b"{text}\n";')
