#!/usr/bin/env python3
"""Runs random scenarios through the program and through the model in two_ends.py, and compares the
journals, the reports and how the runs end. The model has associations already, which the program doesn't make yet:
only --worked looks at these.

Usage: tests/model.py [--scenarios N] [--seed N]   compares the program with the model
       tests/model.py --worked                     compares the model with answers worked out by hand
       tests/model.py --show <SCENARIO             prints what the model makes of a scenario
"""

import argparse
import json
import os
import random
import subprocess
import sys
from collections import Counter

from author import Author, long_scenarios
from two_ends import PEER, played, text, told
from worked import ASSOCIATING, WORKED

ROOT = os.path.dirname(os.path.dirname(os.path.abspath(__file__)))
PROGRAM = os.path.join(ROOT, "crates", "mld", "out", "mld")


# Every answer that random scenarios are to meet, with the reason, the place and the status where it has them.
HEARD = "linkdown nokey notopened replay oldnumber double stored"
SETUP = "ignored setup/0 setup/1 setup/37"
KEPT = "kept/notsetup kept/unpowered kept/unmapped"
ANSWERS = f"""queue queued; reserve reserved handfull nothingqueued windowfull; book booked noreserve spent;
    put put nothing {KEPT}; again put nothing {KEPT}; deliver notthere {HEARD} {SETUP}; alter notthere {HEARD} {SETUP};
    forge {HEARD}; inject {HEARD} {SETUP} setup/38
    badframe/Short/0 badframe/Version/0 badframe/TypeLeftOut/0 badframe/FourAddress/1
    badframe/NoDs/1 badframe/DsInManagement/1 badframe/Fragmented/1 badframe/NotProtected/1 badframe/ProtectedSetup/1
    badframe/Order/1 badframe/Fragmented/22 badframe/Short/24 badframe/TidLeftOut/24 badframe/Amsdu/24 badframe/Short/26
    badframe/NoExtIv/27 badframe/NoExtIv/29 badframe/WrongAddress/4 badframe/WrongAddress/10 badframe/WrongAddress/1;
    ack_out acked; ack_in notthere oldack done; bar_out barred notbooked behind; bar_in notthere oldbar moved;
    install installed keysspent; turn turned keysspent; power set; associate asked joined notvalid unpowered;
    map_ask asked busy notvalid; map_teardown sent notvalid; give_up given nothing"""


def answer_of(line):
    parts = [line["out"], line.get("why"), line.get("place"), line.get("status")]
    return line["do"], "/".join(str(part) for part in parts if part is not None)


def check_worked():
    """Compares the model with what was worked out by hand."""
    for row in [*WORKED, *ASSOCIATING]:
        title, scenario, answers, more = row
        model, status = played(scenario, row in ASSOCIATING)
        last = model.lines[len(model.lines) - len(answers) :]
        reports = [model.report()[name] for name in PEER]
        found = {
            "answers": [{name: line.get(name) for name in want} for line, want in zip(last, answers)],
            "dl": [report["map"]["dl"] for report in reports],
            "ul": [report["map"]["ul"] for report in reports],
            "links": [report["links"] for report in reports],
            "aired": [[octets.hex() for air in end.air.values() for octets, _ in air] for end in model.ends.values()],
            "made": [[body.hex() for body in end.sending["m"].queue] for end in model.ends.values()],
            "released": reports[1]["released"],
            "starts": model.ends["sta"].receiving[0].start,
            "status": status,
            "steps": len(model.lines),
            "written_as": text(model),
        }
        more = {"answers": answers, **more}
        if "written_as" in more:
            more["written_as"] = text(played(more["written_as"])[0])
        for name, want in more.items():
            if found[name] != want:
                sys.exit(f"model: {title}: {name}\nby hand: {want}\nmodel:   {found[name]}")


def check_random():
    """Checks that random scenarios meet each answer."""
    source, met = random.Random(1), Counter()
    for _ in range(500):
        model, status = played(Author(source, True).write(), True)
        met.update(answer_of(line) for line in model.lines)
        met["forged"] += status == 5
    wanted = [(row.split()[0], answer) for row in ANSWERS.split(";") for answer in row.split()[1:]]
    missing = [want for want in [*wanted, "forged"] if not met[want]]
    if missing:
        sys.exit(f"model: random scenarios never meet {missing}")
    print(f"model: {len(WORKED) + len(ASSOCIATING)} worked scenarios agree, and random ones meet all {len(wanted) + 1} answers")


def agrees(scenario):
    model, status = played(scenario)
    want = text(model), told(model, status), status
    ran = subprocess.run([PROGRAM, "run"], input=json.dumps(scenario), capture_output=True, text=True, check=False)
    found = ran.stdout, ran.stderr, ran.returncode
    if found == want:
        return True
    print(json.dumps(scenario))
    for ours, theirs in zip(want[0].splitlines(), found[0].splitlines()):
        if ours != theirs:
            print(f"model:   {ours}\nprogram: {theirs}")
            break
    if found[1:] != want[1:]:
        print(f"model:   status {want[2]} {want[1]!r}\nprogram: status {found[2]} {found[1]!r}")
    return False


def main():
    parser = argparse.ArgumentParser(description=__doc__.splitlines()[0])
    parser.add_argument("--scenarios", type=int, default=300)
    parser.add_argument("--seed", type=int, default=1)
    parser.add_argument("--worked", action="store_true")
    parser.add_argument("--show", action="store_true")
    arguments = parser.parse_args()
    if arguments.show:
        model, status = played(json.load(sys.stdin))
        sys.stdout.write(text(model))
        sys.stderr.write(told(model, status))
        sys.exit(status)
    check_worked()
    if arguments.worked:
        check_random()
        return
    # The launcher builds the program where that is needed.
    subprocess.run([os.path.join(ROOT, "mld"), "decode"], stdin=subprocess.DEVNULL, check=True)
    source = random.Random(arguments.seed)
    written = (Author(source).write() for _ in range(arguments.scenarios))
    count = 0
    for scenario in [*written, *long_scenarios(), *(row[1] for row in WORKED)]:
        if not agrees(scenario):
            sys.exit("model: a scenario differs")
        count += 1
    print(f"model: {count} scenarios agree")


if __name__ == "__main__":
    main()
