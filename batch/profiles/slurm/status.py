#!/usr/bin/env python3
"""Tells Snakemake how a job of Slurm stands: running, success or failed.

The controller forgets a job some minutes after its end, and then the accounts are asked, where the cluster keeps any.
"""
import re
import subprocess
import sys

RUNNING = {"PENDING", "CONFIGURING", "RUNNING", "SUSPENDED", "COMPLETING", "REQUEUED", "RESIZING", "STAGE_OUT", "SIGNALING"}


def ask(command):
    """What a command of Slurm prints, and what it says of a fault."""
    try:
        done = subprocess.run(command, capture_output=True, text=True, timeout=60, check=False)
    except (OSError, subprocess.TimeoutExpired) as error:
        return "", str(error)
    return (done.stdout, "") if done.returncode == 0 else ("", done.stderr)


def state_of(job):
    """The state of a job, or None where nobody can tell for now."""
    text, fault = ask(["scontrol", "-o", "show", "job", job])
    if match := re.search(r"JobState=(\w+)", text):
        return match[1]
    if fault and "Invalid job id" not in fault:
        return None
    text, _ = ask(["sacct", "-X", "-n", "-P", "-o", "State", "-j", job])
    return (text.split() or ["UNKNOWN"])[0]


def main():
    if len(sys.argv) != 2:
        sys.exit("status.py: the number of a job is asked for")
    state = state_of(sys.argv[1])
    # A controller that doesn't answer is asked again: were the job told as failed, it would be handed in a second time while it runs.
    print("running" if state is None or state in RUNNING else "success" if state == "COMPLETED" else "failed")


if __name__ == "__main__":
    main()
