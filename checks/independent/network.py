#!/usr/bin/env python3
"""Tries `dtx net` on random small networks, against the written rules over whole lists: the feed, each transmitter's lives out of its own
steps of the schedule, and what is received of the symbols.

network.py DTX SCHEDULES       names each network that differs, and ends with the line `network: N passed, M failed`
network.py many DTX SCHEDULES  the same of networks of 36 to 120 transmitters, few of which are given something, and of one of 1,020
network.py net PLAN FOLDER     writes the files of the network of a plan to the folder, and prints its line
"""

import os
import random
import shutil
import subprocess
import sys
import tempfile
import tomllib

from exciter import lived
from receiver import LEVELS, SEGMENT, looks, received
from reference import FRAME, PACKET, adapted, is_placeholder, packets_of, read, spelled

STATUS = {"packet": 6, "out of feed": 8, "out of air": 9, "no sync": 10}


def made(seed, index):
    """A packet of a made stream."""
    if index % 312 == 100:
        return b"\x47\x1f\xfa\x10" + bytes(184)
    z, body = (seed + 1) * 6364136223846793005 + index * 1442695040888963407, bytearray()
    for _ in range(184):
        z = (z * 6364136223846793005 + 1442695040888963407) % 2**64
        body.append(z >> 56)
    return bytes([0x47, 0, 0x31, 0x10 + index % 16]) + body


def flipped(packet, at, change):
    return packet[:at] + bytes([packet[at] ^ change]) + packet[at + 1 :]


def lied(packet, states):
    fields = read(packet)
    return spelled(packet[0], packet[3] % 16, fields | {"states": [int(state) for state in states]}) if fields else packet


def steps_of(event, feed):
    """The steps of an event, each a packet that is given, or nothing where its transmitter is restarted."""
    do, start = event["do"], event.get("from")
    if do == "restart":
        return [None]
    if do == "send":
        return feed[start : start + event["count"]]
    if do == "foreign":
        return [made(event["seed"], index) for index in range(start, start + event["count"])]
    if do == "flip":
        return [flipped(feed[start], event["at"], event["with"])]
    return [lied(feed[start], event["states"])]


def lives_of(address, events, feed):
    """What a transmitter is given in each of its lives: its own steps of the schedule, cut at its restarts."""
    lives = [[]]
    for event in events:
        for step in steps_of(event, feed) if event["to"] == address else []:
            if step is None:
                lives.append([])
            else:
                lives[-1].append(step)
    return lives


def transmitted(transmitter, events, feed):
    """The symbols and the log of a transmitter."""
    symbols, lines = b"", []
    for number, packets in enumerate(lives_of(transmitter["address"], events, feed)):
        if number:
            lines.append(f"restart {len(symbols) // 832}")
        sent, told = lived(tuple(packets), transmitter["address"], transmitter.get("delay", 0), len(symbols) // 832)
        symbols, lines = symbols + sent, lines + told
    return symbols, "".join(line + "\n" for line in lines).encode()


def first_past(ends, length):
    """The number of the first that ends behind a length, or nothing."""
    return next((number for number, end in enumerate(ends) if end > length), None)


def end_in_feed(event):
    """Up to where an event reads the feed."""
    if event["do"] in ("restart", "foreign"):
        return 0
    return event["from"] + event.get("count", 1)


def end_of(entry):
    """Up to where an entry of damage reaches."""
    return entry["at"] + entry.get("count", 1)


def hurt(whole, damage):
    """Bytes with damage laid over them."""
    whole = bytearray(whole)
    for entry in damage:
        start, end = entry["at"], min(end_of(entry), len(whole))
        if start < end:
            whole[start:end] = bytes([entry["put"] & 255]) * (end - start)
    return bytes(whole)


def network(plan, stream):
    """The files of a network by their names, and its line."""
    net = plan["net"]
    events, feed = net.get("event", []), adapted(stream, plan)
    files, packets = {"net.feed": feed}, packets_of(feed)
    past = first_past([end_in_feed(event) for event in events], len(packets))
    if past is not None:
        return files, f"out of feed {past}"
    for transmitter in plan["transmitter"]:
        name = f"tx-{transmitter['address']}"
        files[f"{name}.sym"], files[f"{name}.log"] = transmitted(transmitter, events, packets)
    filled = sum(is_placeholder(packet) for packet in packets)
    given = sum(len(steps_of(event, packets)) for event in events if event["do"] != "restart")
    line = f"feed {len(packets)} filled {filled} steps {given}"
    if "receive" not in net:
        return files, line
    symbols, damage = files[f"tx-{net['receive']['from']}.sym"], net["receive"].get("damage", [])
    past = first_past([end_of(entry) for entry in damage], len(symbols))
    if past is not None:
        return files, f"out of air {past}"
    answer = received(hurt(symbols, damage))
    files["net.ts"] = answer[0] if answer else b""
    if not answer:
        return files, "no sync"
    _, count, fixed, flagged = answer[1]
    return files, f"{line} packets {count} fixed {fixed} flagged {flagged}"


def keys(table):
    """The text of a table's keys, but for those that are tables, and arrays of them, themselves."""
    plain = {key: f'"{value}"' if isinstance(value, str) else value for key, value in table.items() if not isinstance(value, dict)}
    return "".join(f"{key} = {value}\n" for key, value in plain.items() if not (isinstance(value, list) and value))


def tables(name, entries):
    return "".join(f"[[{name}]]\n{keys(entry)}" for entry in entries)


def toml(plan):
    """The text of a plan."""
    net = plan["net"]
    text = keys(plan) + tables("transmitter", plan["transmitter"])
    text += "[net]\n" + keys(net) + tables("net.event", net.get("event", []))
    if "receive" in net:
        text += "[net.receive]\n" + keys(net["receive"]) + tables("net.receive.damage", net["receive"].get("damage", []))
    return text


def made_stream(chance, shares=(0.01, 0.03, 0.1)):
    """Packets of several PIDs, placeholders among them, and sometimes loose bytes behind."""
    share, often, stream = chance.choice(shares), chance.random() < 0.8, bytearray()
    few, more, many = 60, chance.randrange(60, 701), chance.choice((chance.randrange(420, 701), chance.randrange(420, 701), 1400))
    for k in range(chance.choice((few, more, more, many, many, many, many))):
        pid = chance.choice((0x0031, 0x1FFB, 0x0FFA, 0x1FFF))
        if chance.random() < share or often and k == 53:
            pid = 0x1FFA
        stream += bytes([0x47, pid >> 8 | chance.choice((0, 0, 0x20, 0x80)), pid & 255, chance.randrange(256)]) + chance.randbytes(184)
    return bytes(stream) + chance.randbytes(chance.choice((0, 0, 1, 187)))


def made_plan(chance, count):
    """A plan of so many transmitters, without events."""
    start, longest = chance.choice((0, chance.randrange(10_000_000))), chance.choice((5_000_000, chance.randrange(10_000_000)))
    transmitters = []
    for address in chance.sample((0, 7, 9, 10, 65535, *chance.sample(range(11, 65535), max(4, count))), count):
        offset = chance.choice((0, -10, 25, -32768, 32767))
        latest = max(0, longest + offset)
        delay = chance.choice((0, 0, 0, *(chance.randrange(latest + 1) for _ in range(4)), latest, latest + 1, 2**32 - 1))
        transmitters.append({"address": address, "offset": offset} | ({"delay": delay} if delay or chance.random() < 0.5 else {}))
    return {"start": start, "max_delay": longest, "transmitter": transmitters, "net": {"stream": "s.ts"}}


def changed(chance, to, k):
    """An event that gives packet k of the feed flipped or lying."""
    if chance.random() < 0.5:
        return {"do": "lie", "to": to, "from": k, "states": "".join(chance.choices("01234567", k=12))}
    at = chance.choice((0, 0, chance.randrange(PACKET), chance.randrange(4, PACKET)))
    return {"do": "flip", "to": to, "from": k, "at": at, "with": chance.choice((0xFF, chance.randrange(1, 256)))}


def made_script(chance, to, packets):
    """The events of one transmitter: parts of the feed in pieces, in which packets are changed or left out, and between the parts
    restarts and foreign packets: a few, as many as fill up a frame, or so many that a lock is lost."""
    events, count, at = [], len(packets), 0
    for _ in range(chance.choice((0, 1, 1, 1, 2, 3))):
        if chance.random() < 0.5:
            events.append({"do": "restart", "to": to})
        if chance.random() < 0.3:
            start = chance.choice((0, 95, chance.randrange(624_000_000 - 1300)))
            seed = chance.choice((2, chance.randrange(2**63)))
            few, frame, many = chance.randrange(1, 60), FRAME - at % FRAME, chance.randrange(1150, 1300)
            events.append({"do": "foreign", "to": to, "seed": seed, "from": start, "count": chance.choice((few, few, frame, many))})
        at = chance.choice((0, 0, 0, 0, 0, FRAME if count > FRAME else 0, chance.randrange(count)))
        end = min(count, at + chance.choice((30, 70, 200, *[1400] * 6)))
        while at < end:
            orders = [k for k in range(at, end) if is_placeholder(packets[k])]
            marks = [k for k in range(at + 1, end) if k % FRAME == 0]
            stop = chance.choice((end, end, chance.randrange(at, end), chance.choice(orders or [end]), *marks))
            if stop > at:
                events.append({"do": "send", "to": to, "from": at, "count": stop - at})
            at = stop
            if at < end and chance.random() < 0.5:
                events.append(changed(chance, to, at))
                at += 1
            elif chance.random() < 0.05:
                at += 1
    return events


def merged(chance, scripts):
    """The events of all scripts in turns, those of each in their order."""
    turns = [number for number, script in enumerate(scripts) for _ in script]
    chance.shuffle(turns)
    left = [iter(script) for script in scripts]
    return [next(left[number]) for number in turns]


def made_damage(chance, symbols):
    """Entries of damage inside a file: as many symbols as a field sync may just have wrong, or not; a few symbols, whole segments, much
    or all of it; some touch the one before."""
    length = len(symbols)
    if chance.random() < 0.05:
        return [{"at": 0, "count": length, "put": 0}] if length else []
    syncs = [at for at in range(0, length, SEGMENT) if looks(symbols[at : at + SEGMENT].translate(LEVELS))]
    if syncs and chance.random() < 0.4:
        return [{"at": chance.choice(syncs) + chance.choice((0, 482, 483, chance.randrange(480))), "count": chance.choice((32, 33)), "put": 0}]
    entries, at = [], 0
    for _ in range(chance.randrange(5)):
        at += chance.choice((0, chance.randrange(max(1, length - at)), chance.randrange(20) * SEGMENT))
        if at >= length:
            break
        size = chance.choice((1, chance.randrange(1, 60), chance.randrange(60, 6000), chance.randrange(1, 60) * SEGMENT))
        size = min(size, length - at)
        entries.append({"at": at} | ({"count": size} if size > 1 else {}) | {"put": chance.randrange(-128, 128)})
        at += size
    return entries


def made_network(chance, many=None):
    """A stream, and a plan with its events, whose receiver's damage fits what was sent, or with an event or an entry too far out. Of many
    transmitters a few are given something."""
    plan = made_plan(chance, many or chance.randrange(1, 5))
    stream = made_stream(chance, (0.1, 0.2, 0.3)) if many else made_stream(chance)
    net, packets = plan["net"], packets_of(adapted(stream, plan))
    given = chance.sample(plan["transmitter"], chance.randrange(2, 5)) if many else plan["transmitter"]
    events = merged(chance, [made_script(chance, each["address"], packets) for each in given])
    if chance.random() < 0.15:
        to, count = chance.choice(plan["transmitter"])["address"], len(packets)
        bad = changed(chance, to, count) if chance.random() < 0.5 else {"do": "send", "to": to, "from": count - 1, "count": 2}
        for _ in range(2):
            events.insert(chance.randrange(len(events) + 1), bad)
    elif chance.random() < 0.9:
        files = [transmitted(each, events, packets)[0] for each in given]
        symbols = chance.choice(files + [max(files, key=len)] * 4)
        receiver, length = given[files.index(symbols)], len(symbols)
        damage = made_damage(chance, symbols)
        if chance.random() < 0.12:
            start = max((end_of(entry) for entry in damage), default=0)
            damage += [{"at": start, "count": length - start + 1, "put": 1}, {"at": length + 1, "count": 1, "put": 2}]
        net["receive"] = {"from": receiver["address"]} | ({"damage": damage} if damage or chance.random() < 0.5 else {})
    if events or chance.random() < 0.5:
        net["event"] = events
    return plan, stream


def files_in(folder):
    return {name: open(os.path.join(folder, name), "rb").read() for name in os.listdir(folder)}


def put_files(folder, files):
    for name, content in files.items():
        with open(os.path.join(folder, name), "wb") as file:
            file.write(content)


def differences(words, folder, before, made, line):
    """What a run does otherwise than the rules: in a folder with the files from before it owes the files that it makes, all others as
    they were, and the line with its status."""
    put_files(folder, before)
    ran = subprocess.run(words, cwd=folder, capture_output=True, text=True)
    found, wanted = files_in(folder), before | made
    wrong = [f"{name} is another file" for name in sorted(found.keys() | wanted.keys()) if found.get(name) != wanted.get(name)]
    if ran.stdout != line + "\n" or ran.returncode != STATUS.get(line.rstrip(" 0123456789"), 0) or ran.stderr:
        wrong.append(f"printed {ran.stdout!r}, not {line!r}, with status {ran.returncode}")
    return wrong


def main(dtx, schedules, many):
    chance = random.Random(36 if many else 21)
    passed = failed = 0
    met = dict.fromkeys(["fixed", "sent", "packets"] if many else ["flagged", "fixed", "sent", "cadence", *STATUS], 0)
    with tempfile.TemporaryDirectory() as room:
        for number in range(schedules):
            count = many and (1020 if number == schedules - 1 else chance.randrange(36, 121))
            plan, stream = made_network(chance, count)
            names = ["net.feed", "net.ts"] + [f"tx-{each['address']}.{end}" for each in plan["transmitter"] for end in ("sym", "log")]
            older = {name: chance.randbytes(2_000_000) for name in chance.sample(names, chance.choice((0, 0, 1, 2)))}
            folder = os.path.join(room, str(number))
            os.mkdir(folder)
            files, line = network(plan, stream)
            before = older | {"plan.toml": toml(plan).encode(), "s.ts": stream}
            wrong = differences([dtx, "net", "plan.toml"], folder, before, files, line)
            for kind in met:
                met[kind] += kind in line and f"{kind} 0" not in line.split(" steps")[-1]
            met["sent"] += any(name.endswith(".sym") and content for name, content in files.items())
            if not many:
                met["cadence"] += any(b"cadence" in content for name, content in files.items() if name.endswith(".log"))
            if wrong:
                failed += 1
                print(f"FAILED: network {number}: {'; '.join(wrong)}")
            else:
                passed += 1
            shutil.rmtree(folder)
    for kind, count in met.items():
        if not count:
            failed += 1
            print(f"FAILED: none of {schedules} networks is one of kind '{kind}'")
    print(f"network: {passed} passed, {failed} failed")
    return failed > 0


if __name__ == "__main__":
    if sys.argv[1] == "net":
        with open(sys.argv[2], "rb") as file:
            given = tomllib.load(file)
        with open(given["net"]["stream"], "rb") as file:
            files, line = network(given, file.read())
        put_files(sys.argv[3], files)
        print(line)
    else:
        many = sys.argv[1] == "many"
        sys.exit(main(sys.argv[-2], int(sys.argv[-1]), many))
