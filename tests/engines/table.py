"""Prints a table of HOUSEHOLDS made-up households for examples/impot2023: table.py HOUSEHOLDS

One is named `name`, some have labels with commas, quotes, or letters of Latin-1 or UTF-8. Some have amounts at which the rules note or stop.
"""
import sys

ODD = [b"name", b'"name,1AJ"', b'"Anne, ""la grande"""', "Zoé".encode("latin-1"), "Zoé".encode(), b" h ", b"'h'"]


def rows(count):
    yield b"name,0AM,0BT,0CF,1AJ,1BJ,1AS,1BS,7UD,7UF\n"
    for k in range(count):
        label = ODD[k // 7] if k % 7 == 3 and k // 7 < len(ODD) else b"h%d" % k
        couple, alone = k % 2, k % 31 == 8 or k % 37 == 9
        wages, others = (k * 7919) % 60000 if k % 97 else -5, couple * (k * 104729 % 50000)
        pension, gifts = b"" if k % 8 else b"%d.5" % (k % 3000), b"" if k % 5 else b"%d" % (k % 900)
        yield b"%s,%d,%d,%d,%d,%d,%s,,%d,%s\n" % (label, couple, alone, k % 4, wages, others, pension, k % 500, gifts)


def main():
    for row in rows(int(sys.argv[1])):
        sys.stdout.buffer.write(row)


main()
