"""Installs what a test needs of others' programs, where it is missing: by apt-get, as root."""
import os
import shutil
import subprocess

# How long it may take, in seconds.
PATIENCE = 300


def install(packages, is_there):
    """Installs these packages of Debian unless what they have is there. Returns what went wrong, if anything."""
    if is_there():
        return None
    if os.geteuid() != 0 or not shutil.which("apt-get"):
        return "only root can install it, by apt-get"
    print("apt-get installs %s" % " ".join(packages), flush=True)
    said = b""
    for words in (["update"], ["install", "-y", "--no-install-recommends", *packages]):
        # what is listed already may do where an update fails
        done = subprocess.run(
            ["apt-get", "-q", "-o", "DPkg::Lock::Timeout=%d" % PATIENCE, *words], timeout=PATIENCE, stdin=subprocess.DEVNULL,
            stdout=subprocess.PIPE, stderr=subprocess.STDOUT, env={**os.environ, "DEBIAN_FRONTEND": "noninteractive"})
        said += done.stdout
    return None if is_there() else "apt-get said %s" % said.decode(errors="replace").strip()[-600:]


def told(packages, is_there, missing):
    """The exit status of a tool that is asked to install them: what can't be had is told."""
    try:
        wrong = install(packages, is_there)
    except (OSError, subprocess.SubprocessError) as fault:
        wrong = str(fault)
    if wrong:
        print("%s, and can't be: %s" % (missing, wrong))
    return 1 if wrong else 0
