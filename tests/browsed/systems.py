"""Which port is the board: what the page says of it on each system, where somebody must know."""

import pathlib
from typing import Dict, Tuple

from browsed.games import until_agrees
from browsed.hall import Hall
from browsed.page import Page
from browsed.stage import with_chromium
from played.stage import same

# What a browser says of its system: its name, `navigator.platform`, a part of the user agent; and what the hint must have.
SYSTEMS: Dict[str, Tuple[str, str, str]] = {
    "Windows": ("Win32", "Windows NT 10.0; Win64; x64", "COM3"),
    "macOS": ("MacIntel", "Macintosh; Intel Mac OS X 10_15_7", "cu.usbserial"),
    "Linux": ("Linux x86_64", "X11; Linux x86_64", "ttyUSB0"),
    "Chrome OS": ("Linux x86_64", "X11; CrOS x86_64 14541.0.0", "ttyUSB0"),
}
DRIVERS = {"Windows": "driver", "macOS": "Bluetooth", "Linux": "needs no driver", "Chrome OS": "Android"}


def on(stage: Hall, page: Page, system: str) -> None:
    """The page is opened in a browser of this system."""
    platform, part, _ = SYSTEMS[system]
    agent = f"Mozilla/5.0 ({part}) AppleWebKit/537.36 (KHTML, like Gecko) Chrome/156.0.0.0 Safari/537.36"
    told = {"platform": system, "platformVersion": "", "architecture": "", "model": "", "mobile": False}
    page.tab.call("Emulation.setUserAgentOverride", userAgent=agent, platform=platform, userAgentMetadata=told)
    stage.open(page)
    stage.until(lambda: page.shows("#add:enabled"), "the page")


@with_chromium
def which_device(folder: pathlib.Path) -> None:
    """On Windows, macOS, Linux and ChromeOS the page says which device is the board, before the browser's list is opened and when
    nothing was chosen in it; and what drivers are needed."""
    with Hall(folder) as stage:
        stage.may_cancel = True
        page = stage.tab()
        for system, (_, _, name) in SYSTEMS.items():
            on(stage, page, system)
            page.value("document.querySelector('#welcome details').open = true")
            stage.until(lambda: page.shows("#which"), "the hint")
            told = page.text("#which")
            assert name in told and DRIVERS[system] in told, (system, told)
            page.click("#add")
            stage.until_part(page, "#notices", f"No device was chosen. {told}")


@with_chromium
def locked_device(folder: pathlib.Path) -> None:
    """A device that can't be opened: its card says what to do, on Linux also how to be allowed to; then the recording begins."""
    with Hall(folder) as stage:
        port = stage.board()
        page = stage.tab()
        on(stage, page, "Linux")
        page.value(f"boards.lock({port.number}, true)")
        page.value(f"boards.choose({port.number})")
        page.click("#add")
        stage.enlarge(page, 1)
        stage.until_part(page, "#state", "NOT RECORDED: its device can't be opened")
        stage.until_part(page, "#mend", "sudo adduser $USER dialout")
        page.value(f"boards.lock({port.number}, false)")
        until_agrees(stage, page)
        same(page.shows("#mend"), False)
