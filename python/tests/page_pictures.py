#!/usr/bin/env python3
"""Takes the pictures of docs/PAGE.md: pages of examples at a moment each, in Chromium, as PNG.

From the top of the repository, with the built program in SRM_LAB:

    SRM_LAB=crates/srm_lab/out/srm_lab python/tests/page_pictures.py docs/pictures
"""
import contextlib
import io
import sys
import tempfile
import time
from pathlib import Path

ROOT = Path(__file__).resolve().parents[2]
sys.path.insert(0, str(ROOT / "python" / "src"))
from selenium import webdriver  # noqa: E402
from selenium.webdriver.chrome.service import Service  # noqa: E402
from srm_lab.page.command import main as write_page  # noqa: E402

SIZE = {"width": 1360, "height": 797, "deviceScaleFactor": 1, "mobile": False}
MOMENTS = {
    "page-chain-of-five": ("chain-of-five-one-loss", "tick=15.5&select=loss:0/0/0"),
    "page-star": ("star-loss-at-one-member", "tick=127&select=loss:0/0/0"),
    "page-tree": ("tree-of-1024-nodes", "tick=112&select=loss:0/0/0"),
    "page-outage": ("outage-in-mid-session", "tick=28&table=links"),
    "page-scopes": ("local-recovery", "tick=19.5&select=loss:0/0/0"),
    "page-scopes-sequence": ("local-recovery", "tick=19.5&view=sequence&select=loss:0/0/0"),
    "page-outage-sequence": ("outage-in-mid-session", "tick=85&view=sequence&select=member:2&theme=dark"),
}


def started():
    """Headless Chromium, with windows of one size."""
    options = webdriver.ChromeOptions()
    options.binary_location = "/usr/bin/chromium"
    for word in ("--headless=new", "--no-sandbox", "--disable-dev-shm-usage", "--force-prefers-color-scheme=light"):
        options.add_argument(word)
    browser = webdriver.Chrome(service=Service("/usr/bin/chromedriver"), options=options)
    browser.execute_cdp_cmd("Emulation.setDeviceMetricsOverride", SIZE)
    return browser


def page_of(example, folder):
    """The file of an example's page."""
    path = Path(folder) / f"{example}.html"
    with contextlib.redirect_stdout(io.StringIO()) as page:
        status = write_page([str(ROOT / "examples" / f"{example}.toml")])
    if status != 0:
        sys.exit(status)
    path.write_text(page.getvalue(), encoding="utf-8")
    return path


def take(browser, page, moment, picture):
    """Takes the picture of a page's moment, once it is drawn."""
    browser.get("about:blank")
    browser.get(f"{page.as_uri()}#{moment}")
    until = time.monotonic() + 60
    while not browser.execute_script("return document.body?.dataset.ready === 'yes'"):
        if time.monotonic() > until:
            sys.exit(f"{page} is not ready after a minute")
        time.sleep(0.1)
    browser.execute_async_script("requestAnimationFrame(() => requestAnimationFrame(arguments[0]))")
    browser.save_screenshot(str(picture))


def main():
    """Writes each picture into the folder of the command line."""
    folder = Path(sys.argv[1])
    browser = started()
    try:
        with tempfile.TemporaryDirectory() as pages:
            for name, (example, moment) in MOMENTS.items():
                take(browser, page_of(example, pages), moment, folder / f"{name}.png")
    finally:
        browser.quit()


if __name__ == "__main__":
    main()
