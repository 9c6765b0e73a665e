"""Random and worked job lists, written as text in many ways, and the bytes that document 01 has for them."""

NAME_FIRST = "abcxyzABCXYZ"
NAME_REST = NAME_FIRST + "0123456789-_.<>&'\"!~:,;"


# Lists of card 6 of 02 with their tables, worked by hand: of jobs due together the one that ran last goes on, in the second over a sleeping slot.
WORKED = [
    ((4, 1, [(1, 4, 2, ""), (0, 4, 2, "")]), [1, 1, 0, 0]),
    ((12, 0, [(5, 12, 1, ""), (0, 12, 4, ""), (0, 1, 1, ""), (3, 6, 1, ""), (8, 10, 1, "")]), [2, 1, 1, 3, 1, 255, 1, 255, 255, 4, 0, 255]),
    ((16, 2, [(0, 15, 2, ""), (4, 15, 3, ""), (10, 15, 1, ""), (10, 14, 2, ""), (8, 15, 1, ""), (7, 14, 2, ""), (1, 15, 3, "")]),
     [255, 0, 0, 6, 6, 6, 1, 5, 5, 1, 3, 3, 1, 2, 4, 255]),
]


def random_list(rng, slots, most):
    """A list as (slots, wake, jobs); a job is (release, deadline, volume, name). Most lists are not overloaded."""
    jobs = []
    for _ in range(rng.randint(0, most)):
        release = rng.randrange(slots)
        span = rng.randint(1, slots - release) if rng.random() < 0.3 else rng.randint(1, min(slots - release, 1 + slots // 8))
        share = max(1, span // (1 + most // 3))
        name = "".join([rng.choice(NAME_FIRST)] + rng.choices(NAME_REST, k=rng.randrange(16))) if rng.random() < 0.5 else ""
        deadline = slots if rng.random() < 0.1 else release + span
        if jobs and jobs[0][1] > release and rng.random() < 0.2:  # due together with the first
            deadline = jobs[0][1]
        jobs.append((0 if rng.random() < 0.1 else release, deadline, rng.randint(1, share), "" if name == "volume" else name))
    if jobs and rng.random() < 0.1:
        release, deadline, _, name = jobs[-1]
        jobs[-1] = (release, deadline, rng.randint(1, 65535), name)
    return slots, rng.choice([0, 1, 2, 3, 5, 12, 40, 65535]), jobs


def to_bytes(slots, wake, jobs):
    out = slots.to_bytes(2, "little") + wake.to_bytes(2, "little") + bytes([len(jobs)])
    for release, deadline, volume, _ in jobs:
        fields = [(release, 0), (deadline, slots), (volume, 1)]
        out += bytes([sum(1 << i for i, (value, absent) in enumerate(fields) if value != absent)])
        out += b"".join(value.to_bytes(2, "little") for value, absent in fields if value != absent)
    return out


def to_text(rng, slots, wake, jobs):
    """One of the texts of a list: fields with their usual value may stand or not, blanks, comments and the order of lines are free."""
    def blank():
        return rng.choice([" ", " ", "  ", "\t", " \t "])

    def number(value):
        return rng.choice(["", "", "0", "000"]) + str(value)

    lines = []
    for release, deadline, volume, name in jobs:
        words = ["job"] + ([name] if name else [])
        left = "" if release == 0 and rng.random() < 0.5 else number(release)
        right = "" if deadline == slots and rng.random() < 0.5 else number(deadline)
        if left or right or rng.random() < 0.5:
            words.append(left + ".." + right)
        if volume != 1 or rng.random() < 0.3:
            words += ["volume", number(volume)]
        lines.append(words)
    for words in (["slots", number(slots)], ["wake", number(wake)]):
        lines.insert(rng.randint(0, len(lines)), words)
    end = rng.choice(["\n", "\n", "\r\n"])
    text = ""
    for words in lines:
        text += rng.choice(["", "", " ", "\t"]) + words[0] + "".join(blank() + word for word in words[1:])
        text += rng.choice(["", "", " ", " # job 3 volume 9", "#", "# Zeit: 5 \u00b5s"]) + end
        text += rng.choice(["", "", "", end, "   # nothing here" + end])
    return text[:-len(end)] if rng.random() < 0.2 else text
