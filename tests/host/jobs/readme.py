"""Runs the commands of README.md's guided example, and holds the list and the outputs on the page to what comes out; "update" writes these anew.

An output block has what the commands since the last output block print."""

import re
import subprocess
import sys
from pathlib import Path

root, update = Path(sys.argv[1]), sys.argv[2:] == ["update"]
printed = []


def renewed(block):
    kind, content = block.groups()
    if kind == "jobs":
        content = (root / "docs/example.jobs").read_text("utf-8")
    elif kind == "sh":
        printed.append(subprocess.run(["bash", "-euo", "pipefail", "-c", content], cwd=root, check=True, stdout=subprocess.PIPE, text=True).stdout)
    elif kind == "text":
        content = "".join(printed)
        printed.clear()
    return f"```{kind}\n{content}```"


readme = root / "README.md"
page = readme.read_text("utf-8")
section = re.search(r"^## A guided example\n.*?(?=^## )", page, re.M | re.S)[0]
now = re.sub(r"^```(\w+)\n(.*?)^```$", renewed, section, flags=re.M | re.S)
if update:
    readme.write_text(page.replace(section, now), "utf-8")
elif now != section or "".join(printed):
    sys.exit("jobs: README.md's example is not what comes out now; tests/host/jobs/run update, then read the difference")
