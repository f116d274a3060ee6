"""Catches the files that a page saves."""

import pathlib


def caught_in(browser, folder):
    """From now on the browser keeps what a page saves in a folder, each file under a name of its own, and tells of it."""
    told = {"behavior": "allowAndName", "downloadPath": str(folder), "eventsEnabled": True}
    browser.ask("Browser.setDownloadBehavior", told)


def saved_by(browser, folder, act):
    """The name and the bytes of the file that the page saves when something is done."""
    since = len(browser.events)
    act()
    begun = browser.wait_for("Browser.downloadWillBegin", since, seconds=10)
    ends = lambda told: told["guid"] == begun["guid"] and told["state"] != "inProgress"
    ended = browser.wait_for("Browser.downloadProgress", since, ends, seconds=10)
    assert ended["state"] == "completed", "saving %s: %s" % (begun["suggestedFilename"], ended["state"])
    kept = pathlib.Path(folder, begun["guid"])
    data = kept.read_bytes()
    kept.unlink()
    return begun["suggestedFilename"], data
