#!/usr/bin/env python3
"""Times `live` on puts whose paths were chosen to meet in one bucket of the table of paths, beside puts of random paths.

    chosen_paths.py [PUTS..]        as many puts, or 10,000 and 90,000

A path is first looked for by FNV-1a of 64 bits, whose low bits, with those of its upper half, choose the bucket. `PAIRS` has
two texts for each of 17 places that leave the same low 50 bits, so the 131,072 paths of one text for each place have one
bucket, in tables of up to 262,144. A birthday search found them, place by place. Prints the processor seconds of both; the
chosen paths may take at most 5 times those of the random ones, and then the last line is 'ok'. The program is built before.
"""
import itertools
import pathlib
import random
import resource
import subprocess
import sys

TOP = pathlib.Path(__file__).resolve().parents[2]
MOST_TIMES = 5
ENDING = ".txt"
LETTERS = "0123456789ABCDEFGHIJKLMNOPQRSTUVWXYZabcdefghijklmnopqrstuvwxyz-_"
OFFSET = 0xCBF2_9CE4_8422_2325
PRIME = 0x0100_0000_01B3
SAME_BITS = 50
PAIRS = """
IAA-RUWX_X9 DeBeTgd1mJk
vldDc7W7aDO IkpRmhRSgR-
uZvd3CK4obT eVMYN4O-llr
rjNexjHodHI G6iNC-r9aLa
XpvFS8OoTYR AafnbRKI0Ua
B64UyhX1mbB V6ijP6mv70M
p9CASuxlNC4 QgfFKsptD-9
lbr32UqbtRO yXdDKmNEEYL
wrpR2WXbxpn BM2ufxBuNuz
_dJ28WhznFG Ka9wfHwR8QS
0iNq1OCKE-H dpjRsVEASCC
-lfPIGufNIC iDs7yXr1QIk
VW38ufhJCEM A622AyHM-_z
DIMcFqHwp9Q XjxZVw5iv7g
nlT86wpJsVG ISYLWRw_nFo
QMwjV2QiZdf bTU6-5Yv9q_
vldDc7W7aDO IkpRmhRSgR-
""".split()


def after(state, text):
    """The state of the hash after the bytes of a text."""
    for byte in text.encode():
        state = (state ^ byte) * PRIME & 0xFFFF_FFFF_FFFF_FFFF
    return state


def chosen_paths(count):
    places = list(zip(PAIRS[::2], PAIRS[1::2]))
    state = OFFSET
    for one, other in places:
        if (after(state, one) ^ after(state, other)) % (1 << SAME_BITS):
            sys.exit(f"{one} and {other} do not collide")
        state = after(state, one)
    paths = ["".join(texts) + ENDING for texts in itertools.islice(itertools.product(*places), count)]
    random.Random(7).shuffle(paths)
    return paths


def random_paths(count):
    draw = random.Random(7)
    length = len("".join(PAIRS[::2]))
    return ["".join(draw.choices(LETTERS, k=length)) + ENDING for _ in range(count)]


def seconds(paths):
    """The processor seconds of a run."""
    script = "".join(f"put {path} x\n" for path in paths).encode()
    before = resource.getrusage(resource.RUSAGE_CHILDREN)
    run = subprocess.run([TOP / "crates/mdserve/out/mdserve", "live"], input=script, stdout=subprocess.PIPE, check=True)
    after = resource.getrusage(resource.RUSAGE_CHILDREN)
    if run.stdout.count(b" committed ") != len(paths):
        sys.exit("not every put was committed")
    return after.ru_utime + after.ru_stime - before.ru_utime - before.ru_stime


def main():
    subprocess.run([TOP / "build"], check=True)
    slow = False
    for count in [int(word) for word in sys.argv[1:]] or [10_000, 90_000]:
        apart, together = seconds(random_paths(count)), seconds(chosen_paths(count))
        slow |= together > MOST_TIMES * apart
        print(f"{count} puts: random paths {apart:.2f} s, chosen paths {together:.2f} s, {together / apart:.1f} times", flush=True)
    print(f"over {MOST_TIMES} times" if slow else "ok")
    return 1 if slow else 0


sys.exit(main())
