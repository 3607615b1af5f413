#!/usr/bin/env python3
"""Runs the programs of the gate over each must-fail edit, and tells the first line that each edit changes.

    python3 tools/run_edits.py [--jobs N] [CRATE | CRATE/EDIT]..

Each edit is applied to a copy of the last commit, and programs that use its crate are run there by `rt try`, which asks for no
proof, until one prints something else than its file `stdout`, or does not end well. Nothing here is part of the gate.
"""
import argparse
import os
import queue
import re
import subprocess
import sys
import tempfile
import threading

ROOT = os.path.dirname(os.path.dirname(os.path.abspath(__file__)))

# The programs to run for an edit of a crate, the likeliest first.
PROGRAMS = {
    "refusal": ["log_cases", "table_tests", "query_cases"],
    "field": ["table_tests", "log_cases", "record_cases"],
    "buffer": ["replay_cases", "log_cases"],
    "amounts": ["table_tests", "record_cases"],
    "ticks": ["table_tests", "record_cases"],
    "server": ["table_tests", "session_demo", "record_compare"],
    "member_map": ["table_tests", "log_cases"],
    "stored": ["table_tests", "log_cases"],
    "table_file": ["table_tests", "check_table"],
    "checks": ["record_cases", "log_cases", "session_demo"],
    "record": ["record_cases", "session_demo", "log_cases", "record_compare"],
    "answer_log": ["log_cases", "log_compare"],
    "log_record": ["log_cases", "log_compare"],
    "session": ["session_demo", "log_cases", "replay_cases"],
    "query": ["query_cases", "replay_cases"],
    "request": ["replay_cases"],
    "answer_text": ["replay_cases", "job_cases"],
    "replay_text": ["replay_cases", "job_cases"],
    "survey_job": ["job_cases"],
    "shown": ["record_cases", "session_demo"],
    "trials": ["record_compare", "log_compare"],
    "replay": ["replay"],
    "check_table": ["check_table"],
}


def read_edit(path):
    """Returns the file that an edit changes, and its pairs of old and new texts."""
    name, pairs = "", []
    for line in open(path):
        key, _, text = line.rstrip("\n").partition(": ")
        if key == "file":
            name = text
        elif key == "old":
            pairs.append([text, ""])
        elif key.rstrip(":") == "new":  # a line "new:" has no text
            pairs[-1][1] = text
    return name, pairs


def edited(text, pairs):
    """Returns a text with each old part, which has to stand there once, for the new one; nothing where one does not."""
    for old, new in pairs:
        if text.count(old) != 1:
            return ""
        text = text.replace(old, new)
    return text


def first_change(got, wanted):
    """Returns the first line that differs, or nothing."""
    got, wanted = (text.decode(errors="replace").split("\n") for text in (got, wanted))
    for number in range(max(len(got), len(wanted))):
        one, other = (lines[number] if number < len(lines) else None for lines in (got, wanted))
        if one != other:
            return f"line {number + 1}: {one!r} for {other!r}"
    return ""


def run(root, program):
    """Runs a program in a copy of the repository, and returns what it does otherwise than it should."""
    folder = f"{root}/crates/{program}"
    words = ["rt", "try", "--seconds", "300"]
    if os.path.isdir(f"{folder}/data"):
        for name in sorted(os.listdir(f"{folder}/data")):
            words += ["--data", f"{name}=data/{name}"]
    given = open(f"{folder}/stdin", "rb") if os.path.exists(f"{folder}/stdin") else subprocess.DEVNULL
    ran = subprocess.run(words, cwd=folder, stdin=given, capture_output=True)
    told = ran.stderr.decode(errors="replace")
    fault = re.search(r"^checked: fault kind=(\w+) in=(\S+)", told, re.MULTILINE)
    if fault:
        return f"it stops at a fault: {fault[1]} in {fault[2]}", ""
    if "ended status=" not in told:
        return "", told.strip().split("\n")[-1]
    change = first_change(ran.stdout, open(f"{folder}/stdout", "rb").read())
    if not change and "ended status=0" not in told:
        change = f"it ends otherwise: {told.strip().split(chr(10))[-1]}"
    return change, ""


def changes(root, programs):
    """Runs the programs up to the first that does otherwise than it should, and tells that, and which gave no answer."""
    for program in programs:
        change, trouble = run(root, program)
        if trouble:
            yield f"{program} gives no answer ({trouble})"
        if change:
            yield f"{program}, {change}"
            return


def work(tasks, lock):
    """Applies one edit after another in a copy of the last commit, and prints what the programs then do."""
    with tempfile.TemporaryDirectory(prefix="edits-") as root:
        subprocess.run(["git", "clone", "-q", ROOT, root], check=True)
        while True:
            try:
                crate, edit = tasks.get_nowait()
            except queue.Empty:
                return
            name, pairs = read_edit(f"{root}/crates/{crate}/must-fail/{edit}.edit")
            path = f"{root}/crates/{crate}/{name}"
            before = open(path).read()
            text = edited(before, pairs)
            if text:
                open(path, "w").write(text)
                told = list(changes(root, PROGRAMS[crate]))
                open(path, "w").write(before)
            else:
                told = ["the edit does not fit its file"]
            with lock:
                print(f"{crate}/{edit}: {'; '.join(told) or 'no program prints anything else'}", flush=True)


def main():
    options = argparse.ArgumentParser(description=__doc__, formatter_class=argparse.RawDescriptionHelpFormatter)
    options.add_argument("--jobs", type=int, default=2)
    options.add_argument("chosen", nargs="*")
    given = options.parse_args()
    tasks = queue.Queue()
    listed = subprocess.run(["git", "ls-files", "crates/*/must-fail/*.edit"], cwd=ROOT, capture_output=True, text=True, check=True)
    for path in listed.stdout.split():
        crate, edit = path.split("/")[1], os.path.basename(path)[: -len(".edit")]
        if given.chosen and crate not in given.chosen and f"{crate}/{edit}" not in given.chosen:
            continue
        if crate in PROGRAMS:
            tasks.put((crate, edit))
        else:
            print(f"{crate}/{edit}: nothing to run")
    lock = threading.Lock()
    workers = [threading.Thread(target=work, args=(tasks, lock)) for _ in range(given.jobs)]
    for worker in workers:
        worker.start()
    for worker in workers:
        worker.join()


if __name__ == "__main__":
    sys.exit(main())
