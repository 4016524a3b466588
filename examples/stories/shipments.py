#!/usr/bin/env python3
"""Writes twelve weeks of shipments between German places: shipments.py > shipments.csv

Made up, by a generator with a fixed seed, and free to use (CC0). From 2024-04-15 on the hub in kassel is closed: what went
through it goes by hannover and leipzig instead.
"""
import datetime

BEGIN, CLOSED, WEEKS = datetime.date(2024, 3, 4), datetime.date(2024, 4, 15), 12
ALWAYS = ["berlin leipzig", "leipzig nuremberg", "nuremberg munich", "frankfurt stuttgart", "hamburg bremen", "munich stuttgart"]
BEFORE = ["hamburg kassel", "bremen kassel", "hannover kassel", "kassel frankfurt", "kassel munich", "kassel leipzig"]
BEHIND = ["hamburg hannover", "bremen hannover", "hannover leipzig", "leipzig frankfurt", "leipzig munich"]


def numbers(seed=7):
    """Numbers from 0 to 32,767 that look random, the same ones everywhere."""
    while True:
        seed = (seed * 1_103_515_245 + 12_345) % (1 << 31)
        yield seed >> 16


def main():
    number = numbers()
    print("day,from,to,pallets")
    for day in (BEGIN + datetime.timedelta(it) for it in range(7 * WEEKS)):
        for lane in ALWAYS + (BEFORE if day < CLOSED else BEHIND):
            if day.weekday() < 5 and next(number) % 5 < 2:
                print(day, *lane.split(), 5 + next(number) % 26, sep=",")


if __name__ == "__main__":
    main()
