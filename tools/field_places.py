#!/usr/bin/env python3
"""Finds the places to which the names of fields lead, as crates/ioc_fields/src/places.rt holds them.

Reads the names from crates/ioc_fields, in the order of the list of all fields, and prints a factor by which no two names lead
to one place, and the table of places. Those of which there are sixteen stand in src/slot_names.rt, all others in
specs/Names.antt. To be run when a name was added: the check of ioc_fields refuses a
table in which a name doesn't lead to its field.

Usage: field_places.py
"""
import os
import random
import re

FIELDS = f"{os.path.dirname(__file__)}/../crates/ioc_fields"
BITS = 10
NONE = 255
GROUPS = ("common_name", "own_name")


def read(name: str) -> str:
    with open(f"{FIELDS}/{name}", encoding="utf-8") as file:
        return file.read()


def names() -> list[str]:
    text = read("specs/Names.antt")
    single = [name for group in GROUPS for name in re.findall(rf'^{group} \w+ = codes "(\w+)"', text, re.M)]
    return single + re.findall(r'"(\w+)"', read("src/slot_names.rt"))


def place(name: str, factor: int) -> int:
    key = int.from_bytes(name.encode().ljust(4, b"\0"), "big")
    return (key * factor % 2**32) >> (32 - BITS)


def main() -> None:
    all_names = names()
    generator = random.Random(1)
    factor = 3_193_055_785
    while len({place(name, factor) for name in all_names}) < len(all_names):
        factor = generator.randrange(1, 2**32, 2)
    places = [NONE] * 2**BITS
    for number, name in enumerate(all_names):
        places[place(name, factor)] = number
    print(f"const FACTOR: u32 = {factor:_};")
    print(f"static PLACES: [u8; {2**BITS}] = [{', '.join(map(str, places))}];")


main()
