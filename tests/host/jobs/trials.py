"""Worked and random lists through the tool: bytes, round trips and pictures, then damaged texts and bytes under the sanitizers."""

import random
import subprocess
import sys

from lists import WORKED, random_list, to_bytes, to_text
from pictures import Answer, check_svg, check_timeline, need

SEED = 20261115
SMALL, LARGE, TEXTS, BYTES = 300, 12, 400, 300
JOBS, SANITIZED, ONE_CALL = sys.argv[1:4]


def run(*command, stdin):
    done = subprocess.run(command, input=stdin, capture_output=True)
    return done.returncode, done.stdout, done.stderr.decode()


def fine(*command, stdin, code=0):
    got, out, err = run(*command, stdin=stdin)
    need(got == code and not err, f"{command}: exit {got}: {err}")
    return out


def ask(data, slots):
    """What sleep_plan says, with a table of so many bytes: the number returned, the block's four numbers, the table's bytes."""
    returned, table, block = (line.split()[1:] for line in fine(ONE_CALL, str(slots), stdin=data).decode().splitlines())
    numbers = [int("".join(reversed(block[i:i + 4])), 16) for i in range(0, 16, 4)]
    return [int(returned[0])] + numbers + [int(byte, 16) for byte in table]


def try_list(rng, jobs, slots, wake, entries):
    """A list through all commands of the tool. Gives what sleep_plan said: the number returned, four numbers, the table."""
    text, data = to_text(rng, slots, wake, entries).encode(), to_bytes(slots, wake, entries)
    need(fine(jobs, "bytes", stdin=text) == data, "the bytes of a text")
    back = fine(jobs, "text", stdin=data)
    need(fine(jobs, "bytes", stdin=back) == data, "bytes to text to bytes")
    said = ask(data, slots)
    answer, code, width = Answer(slots, wake, entries, said), 0 if said[0] == 0 else 1, rng.choice([40, 60, 80, 80, 132, 5000])
    check_timeline(answer, fine(jobs, "show", "--width", str(width), stdin=text, code=code).decode(), width)
    check_svg(answer, fine(jobs, "svg", stdin=text, code=code).decode())
    nameless = Answer(slots, wake, [entry[:3] + ("",) for entry in entries], said)
    check_timeline(nameless, fine(jobs, "show", "--bytes", stdin=data, code=code).decode())
    check_svg(nameless, fine(jobs, "svg", "--bytes", stdin=data, code=code).decode())
    return said


def damaged(rng, data, kinds=5):
    """A few bytes struck out, put in, changed or repeated; with six kinds, also two bytes that become zero."""
    data = bytearray(data)
    for _ in range(rng.randint(1, 2)):
        at = rng.randint(0, len(data))
        kind = rng.randrange(kinds)
        if kind == 0:
            del data[at:at + rng.randint(1, 6)]
        elif kind == 1:
            data[at:at] = bytes(rng.choices(b"0123456789.#\n job volume slots wake\t\r\x00\xff", k=rng.randint(1, 5)))
        elif kind == 2 and at < len(data):
            data[at] = rng.randrange(256)
        elif kind == 3:
            data[at:at] = data[at:at + rng.randint(1, 80)]
        elif kind == 4 and at < len(data):
            data[at] ^= 1 << rng.randrange(8)
        elif kind == 5:
            data[at:at + 2] = bytes(len(data[at:at + 2]))
    return bytes(data)


def sound(code, out, err, start):
    """Exit 0 or 1 with an answer, or exit 2 with one line of complaint and nothing else. A sanitizer's report is none of these."""
    if code in (0, 1):
        need(out and not err, f"exit {code} with {err}")
    else:
        need(code == 2 and not out and err.startswith(start) and err.count("\n") == 1 and err.endswith("\n"), f"exit {code}: {err}")
    return code


def try_damaged_bytes(data):
    returned, place = ask(data, 4096)[:2]
    code, out, err = run(SANITIZED, "text", stdin=data)
    sound(code, out, err, "<stdin>: ")
    need(code == (0 if returned in (0, 18) else 2), f"{returned} gives exit {code}")
    need(code == 0 or err.endswith(f" (refused {returned} at {place})\n"), f"{returned} at {place}: {err}")
    for command in ("show", "svg"):
        need(sound(*run(SANITIZED, command, "--bytes", stdin=data), "<stdin>: ") == {0: 0, 18: 1}.get(returned, 2), f"{command} of {returned}")
    return returned


def main():
    rng = random.Random(SEED)
    for worked, table in WORKED:
        need(try_list(rng, SANITIZED, *worked)[5:] == table, f"another table for the worked list {worked}")
    answers = [try_list(rng, JOBS, *random_list(rng, rng.randint(1, 150), 8))[0] for _ in range(SMALL)]
    answers += [try_list(rng, SANITIZED, *random_list(rng, rng.choice([1025, 3000, 4096]), 64))[0] for _ in range(LARGE)]
    exits = [0, 0, 0]
    for _ in range(TEXTS):
        text = damaged(rng, to_text(rng, *random_list(rng, rng.randint(1, 150), 8)).encode())
        exits[sound(*run(SANITIZED, rng.choice(["show", "svg", "bytes"]), stdin=text), "<stdin>:")] += 1
    refused = [try_damaged_bytes(damaged(rng, to_bytes(*random_list(rng, rng.randint(1, 150), 8)), 6)) for _ in range(BYTES)]
    need({11, 12, 13, 14, 15, 16, 25, 26} <= set(refused), f"refusals seen: {sorted(set(refused))}")
    need(answers.count(0) > SMALL // 2 and answers.count(18) > 5 and min(exits) > 5, f"trials of one kind: {answers}, {exits}")
    print(f"{len(WORKED)} worked lists, {len(answers)} random lists ({answers.count(18)} overloaded, {LARGE} large), {TEXTS} damaged texts ({exits[2]} refused), "
          f"{BYTES} damaged lists ({sum(r not in (0, 18) for r in refused)} refused)")


main()
