"""Finds Chromium, starts it headless with a profile of its own and a debugging port, and ends it."""

import contextlib
import pathlib
import shutil
import subprocess
import tempfile
import time

NAMES = ("chromium", "chromium-browser", "google-chrome", "google-chrome-stable")
FLAGS = (
    "--headless=new",
    "--no-sandbox",
    "--remote-debugging-port=0",
    "--no-first-run",
    "--no-default-browser-check",
    "--disable-background-networking",
    "--disable-component-update",
    "--disable-gpu",
    "--disable-dev-shm-usage",
    "--lang=en-US",
)
SECONDS = 60


class NoBrowser(Exception):
    """There is no Chromium here, or it does not start."""


def found():
    """The path of Chromium."""
    paths = [path for path in map(shutil.which, NAMES) if path]
    if not paths:
        raise NoBrowser("Chromium is not on the PATH; Debian has it in the package chromium")
    return paths[0]


def debugging_place(profile, process):
    """The port and the path at which Chromium listens; it writes them into its profile once it does."""
    told, deadline = pathlib.Path(profile, "DevToolsActivePort"), time.monotonic() + SECONDS
    while time.monotonic() < deadline:
        lines = told.read_text().split() if told.exists() else []
        if len(lines) == 2:
            return int(lines[0]), lines[1]
        if process.poll() is not None:
            raise NoBrowser("Chromium ended with status %d before it listened" % process.returncode)
        time.sleep(0.05)
    raise NoBrowser("Chromium did not listen within %d s" % SECONDS)


def ended(process):
    """Ends the process that was started here."""
    process.terminate()
    try:
        process.wait(10)
    except subprocess.TimeoutExpired:
        process.kill()
        process.wait()


@contextlib.contextmanager
def running():
    """A Chromium for as long as it is wanted: the port and the path of its debugging connection."""
    path = found()
    with tempfile.TemporaryDirectory(ignore_cleanup_errors=True) as profile:
        words = [path, *FLAGS, "--user-data-dir=%s" % profile, "about:blank"]
        process = subprocess.Popen(words, stdin=subprocess.DEVNULL, stdout=subprocess.DEVNULL, stderr=subprocess.DEVNULL)
        try:
            yield debugging_place(profile, process)
        finally:
            ended(process)
