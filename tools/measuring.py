"""Runs a program, and tells how long it took and how much memory was resident."""
import os
import re
import subprocess
import tempfile
import time
from pathlib import Path


def measured(program, words):
    """The seconds of a run, the most memory that was resident in MiB, and what it gave."""
    with tempfile.TemporaryFile() as written, tempfile.TemporaryFile() as told:
        run = subprocess.Popen([program, *words], stdin=subprocess.DEVNULL, stdout=written, stderr=told)
        most, ended = 0, 0
        while not ended:
            time.sleep(0.002)
            most = max(most, resident(run.pid))
            ended, status, used = os.wait4(run.pid, os.WNOHANG)
        run.returncode = os.waitstatus_to_exitcode(status)
        written.seek(0)
        told.seek(0)
        return used.ru_utime + used.ru_stime, most, (run.returncode, written.read(), told.read())


def resident(pid):
    """The most memory of a process that was resident so far, in MiB."""
    try:
        found = re.search(r"VmHWM:\s+(\d+)", Path(f"/proc/{pid}/status").read_text())
    except OSError:
        return 0
    return int(found[1]) / 1024 if found else 0
