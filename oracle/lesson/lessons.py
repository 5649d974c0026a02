#!/usr/bin/env python3
"""lessons.py LESSON LINES COUNT: writes a random lesson as a person might type it, and the lines of the desk that it stands for."""
import random, sys

random.seed(36)
UNITS = [("", 1), ("ns", 1), ("us", 10**3), ("ms", 10**6), ("s", 10**9), ("min", 60 * 10**9), ("h", 3600 * 10**9)]
MOST = 2**64 - 1


def case(word):
    return "".join(random.choice((c.lower(), c.upper())) for c in word)


def time(nanos):
    """A way to write so many nanoseconds: a plain number, or a unit with as many decimals as it takes."""
    ways = ["0" * random.randrange(3) + str(nanos)] if nanos < 10**17 else [str(nanos)]
    for name, size in UNITS[1:]:
        for places in range(14):
            if nanos * 10**places % size == 0:
                digits = str(nanos * 10**places // size).rjust(places + 1, "0")
                text = digits if places == 0 else digits[:-places] + "." + digits[-places:]
                if len(digits) <= 17:
                    ways.append(text + case(name))
                break
    return random.choice(ways)


def modem(number):
    if number < 2**48 and random.random() < 0.5:
        return case(":".join("%02x" % b for b in number.to_bytes(6, "big")))
    return str(number)


def line(words):
    text = random.choice(("", " ", "\t")) + random.choice((" ", "  ", "\t")).join(words) + random.choice(("", " ", "\t "))
    return text + random.choice(("", " # so", "#s 1 1")) + random.choice(("\n", "\r\n"))


def main():
    lesson, lines, count = sys.argv[1], sys.argv[2], int(sys.argv[3])
    out, wanted, clock = ["\ufeff"], [], 0
    while len(wanted) < count and sum(map(len, out)) < 60000:
        kind = random.choice("aaapprrfdsv#")
        moment = random.choice((clock, clock + random.randrange(10**10), random.randrange(10**13), random.randrange(2**62)))
        key = random.choice((random.randrange(50), random.randrange(2**48), random.randrange(2**64)))
        cost, wait = random.randrange(9), random.randrange(10**11)
        text = "+" + time(moment - clock) if moment >= clock and random.random() < 0.5 else time(moment)
        if kind == "#":
            out.append(random.choice(("\n", "  \r\n", "# a 0 7 1\n")))
        elif kind in "ap":
            out.append(line([case(kind), text, modem(key), str(cost)]))
            wanted.append(f"{kind} {moment} {key} {cost}")
            clock = moment
        elif kind == "r":
            out.append(line([case(kind), text, modem(key), str(cost), time(wait)]))
            wanted.append(f"r {moment} {key} {cost} {wait}")
            clock = moment
        elif kind == "f":
            out.append(line([case(kind), modem(key), str(cost)]))
            wanted.append(f"f {key} {cost}")
        elif kind == "d":
            out.append(line([case(kind), modem(key)]))
            wanted.append(f"d {key}")
        elif kind == "s":
            idle = random.choice((None, wait))
            out.append(line([case("s"), "2", time(wait), "04", "4", "20", "1", "-" if idle is None else time(idle), "0"]))
            wanted.append(f"s 2 {wait} 4 4 20 1 {'-' if idle is None else idle} 0")
        else:
            many, apart = random.randrange(1, 6), random.choice((0, 10**6, 250 * 10**6))
            key = min(key, MOST - 9)
            out.append(line([case("v"), str(many), time(apart), case("a"), text, modem(key), str(cost)]))
            wanted += [f"a {moment + i * apart} {key + i} {cost}" for i in range(many)]
            clock = moment + (many - 1) * apart
    open(lesson, "w", encoding="utf-8", newline="").write("".join(out))
    open(lines, "w").write("".join(w + "\n" for w in wanted))


main()
