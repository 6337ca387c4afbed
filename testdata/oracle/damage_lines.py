"""The lines of `crates/luks_damage_vectors/stdin` that are of one subject: those behind a line `on SUBJECT`, up to the next such line."""
import os

STDIN = os.path.join(os.path.dirname(os.path.abspath(__file__)), "../../crates/luks_damage_vectors/stdin")


def of(subject):
    taken = False
    with open(STDIN) as lines:
        for line in lines:
            if line.startswith("on "):
                taken = line.split()[1] == subject
            elif taken:
                yield line
