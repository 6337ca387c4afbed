"""What one run of a program takes: time, memory, and by strace its calls on one file."""
import os
import re
import shutil
import subprocess
import time

READS = ("read", "pread64", "readv", "preadv", "preadv2")
WRITES = ("write", "pwrite64", "writev", "pwritev", "pwritev2")
SYNCS = ("fsync", "fdatasync", "sync_file_range", "syncfs", "sync")
# names and packages of what is measured with
PACKAGES = {"cryptsetup": "cryptsetup-bin", "/usr/bin/time": "time"}


def missing():
    """What isn't there, as a text; none where nothing is missing."""
    for needed, package in PACKAGES.items():
        if not shutil.which(needed):
            return f"{needed} isn't there: apt-get install {package}"
    return None


def timed(words, folder):
    """Status, wall seconds and processor seconds of one run."""
    begun = time.perf_counter()
    child = subprocess.Popen(words, cwd=folder, stdin=subprocess.DEVNULL, stdout=subprocess.DEVNULL, stderr=subprocess.DEVNULL)
    _, status, used = os.wait4(child.pid, 0)
    wall = time.perf_counter() - begun
    child.returncode = os.waitstatus_to_exitcode(status)
    return child.returncode, wall, used.ru_utime + used.ru_stime


def peak_of(words, folder):
    """Peak memory in MiB: by GNU time, since a child of this process would begin with its memory."""
    told = os.path.join(folder, "time")
    subprocess.run(["/usr/bin/time", "-o", told, "-q", "-f", "%M", *words], cwd=folder, stdin=subprocess.DEVNULL, stdout=subprocess.DEVNULL, stderr=subprocess.DEVNULL)
    with open(told) as line:
        return int(line.read().split()[-1]) / 1024


def calls_on(words, folder, volume, names):
    """What each of one run's calls of these names on the volume, or on one of several, answered; none where strace isn't there or may not trace."""
    if not shutil.which("strace"):
        return None
    trace = os.path.join(folder, "trace")
    ran = subprocess.run(["strace", "-f", "-y", "-e", f"trace={','.join(names)}", "-o", trace, *words], cwd=folder, stdin=subprocess.DEVNULL, capture_output=True)
    if ran.returncode != 0 or not os.path.exists(trace):
        return None
    with open(trace) as lines:
        volumes = (volume,) if isinstance(volume, str) else volume
        told = [re.search(r"^\d+ +(\w+)\(.*\) = (\d+)$", line) for line in lines if any(f"/{it}>" in line for it in volumes)]
    return [(found.group(1), int(found.group(2))) for found in told if found]
