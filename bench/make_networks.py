#!/usr/bin/env python3
"""Writes mode files that are hard in one way each, and a long script, into a folder.

usage: make_networks.py FOLDER

loop      a loop of a sensor, a controller and an actuator on three nodes
crowd     91 tasks of one tick on one node: the first schedule lies 4,095 decisions deep
packed    8 modes of 7 tasks that don't fit on their node: no schedule, large trees
chained   8 modes whose three messages need more rounds than their deadline has: long cycles
broad     128 tasks and 64 messages on 40 nodes, up to 60 rounds: the budget is spent
comment   the loop, and a comment up to the greatest length of a file
limits    8 modes with as many tasks, messages, producers and consumers as a file may have
"""
import os
import sys

MOST_BYTES = 1 << 20
LOOP = os.path.join(os.path.dirname(os.path.abspath(__file__)), "..", "examples", "loop.toml")


def quoted(names):
    return "[" + ", ".join(f'"{name}"' for name in names) + "]"


def network(slots, round_, gap, nodes):
    return f'slots = {slots}\nround = {round_}\ngap = {gap}\nhost = "{nodes[0]}"\nnodes = {quoted(nodes)}\n'


def mode(name):
    return f'[[mode]]\nname = "{name}"\n'


def app(name, period, deadline):
    return f'[[mode.app]]\nname = "{name}"\nperiod = {period}\ndeadline = {deadline}\n'


def task(name, node, wcet, rest=""):
    return f'[[mode.app.task]]\nname = "{name}"\nnode = "{node}"\nwcet = {wcet}\n{rest}'


def message(name, producers, consumers):
    return f'[[mode.app.message]]\nname = "{name}"\nfrom = {quoted(producers)}\nto = {quoted(consumers)}\n'


def crowd():
    tasks = "".join(task(f"x{number:02d}", "n0", 1) for number in range(91))
    return network(1, 10, 1000, ["n0"]) + mode("run") + app("a", 1000, 1000) + tasks


def packed():
    tasks = "".join(task(f"x{number}", "n0", 2) for number in range(7))
    return network(1, 6, 12, ["n0"]) + "".join(mode(f"m{number}") + app("a", 12, 12) + tasks for number in range(8))


def chained():
    ends = task("first", "k0", 1) + task("last", "k1", 1)
    between = "".join(message(f"g{number}", ["first"], ["last"]) for number in range(3))
    one = app("a", 350, 29) + ends + between
    return network(1, 10, 350, ["n0", "k0", "k1"]) + "".join(mode(f"m{number}") + one for number in range(8))


def broad():
    text = network(2, 20, 40, [f"n{number}" for number in range(40)]) + mode("run")
    for place in range(16):
        text += app(f"a{place}", 2400 if place % 2 == 0 else 1200, 200 if place % 3 == 0 else 1200)
        for number in range(8):
            node = (place * 7 + number * 5) % 40
            text += task(f"t{place}_{number}", f"n{node}", 3 + (place + number) % 9)
        for number in range(4):
            text += message(f"g{place}_{number}", [f"t{place}_{number}"], [f"t{place}_{number + 1}"])
    return text


def comment():
    text = open(LOOP, encoding="utf-8").read()
    line = "# " + "a loop that is read again and again, and says nothing new " * 2 + "\n"
    return text + line * ((MOST_BYTES - 1 - len(text)) // len(line))


def long_name(kind, number):
    return f"{kind}_{number:03d}_".ljust(32, "x")


def limit_mode(number):
    body = lambda place: f'body = "{long_name("body", place)}"\n'
    limit_task = lambda place: task(long_name("task", place), long_name("node", place // 4), 1, body(place))
    text = mode(long_name("mode", number)) + app(long_name("slow", number), 1024, 1024) + limit_task(127)
    text += app(long_name("fast", number), 128, 1024) + "".join(limit_task(place) for place in range(127))
    for place in range(64):
        first = 4 * (place % 31)
        producers = [long_name("task", first + i) for i in range(4)]
        consumers = [long_name("task", i) for i in range(first + 4, min(first + 20, 127))]
        text += message(long_name("message", place), producers, consumers)
    return text


def limits():
    nodes = [long_name("node", place) for place in range(64)]
    return network(32, 4, 1000000000, nodes) + "".join(limit_mode(number) for number in range(8))


def main():
    folder = sys.argv[1]
    files = {"loop.toml": open(LOOP, encoding="utf-8").read(), "million.script": "go 1000000\n"}
    for make in (crowd, packed, chained, broad, comment, limits):
        files[f"{make.__name__}.toml"] = make()
    for name, text in files.items():
        with open(os.path.join(folder, name), "w", encoding="utf-8") as out:
            out.write(text)


main()
