"""Prints links for measuring: as many as the argument says, of 20,000 hosts, a tenth of them in another spelling."""
import random
import sys


def main() -> None:
    draw = random.Random(1)
    for number in range(int(sys.argv[1])):
        scheme, tilde = draw.choice((("https", "~"), ("HTTPS", "%7e"))) if draw.random() < 0.2 else ("https", "~")
        print("%s://www.example%d.com/articles/%d/%s%s?ref=%d&q=caf%%C3%%A9#part-%d" % (
            scheme, draw.randrange(20_000), draw.randrange(100_000), tilde, "item-%d" % number, draw.randrange(1000), number % 9))


main()
