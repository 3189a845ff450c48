"""A real browser for the pages of `dme`: Debian's chromium, which is installed where that may be done.

`pages_of_parts.py` and `batch.py` use it.
"""

import functools
import os
import re
import shutil
import subprocess

SECONDS = 60
# The width and the height of A4 in points (ISO 216).
A4 = (595, 842)


@functools.cache
def browser():
    """The browser's path; None if there is none, which is said once."""
    if shutil.which("chromium") is None and os.geteuid() == 0 and shutil.which("apt-get"):
        subprocess.run(["apt-get", "install", "-y", "--no-install-recommends", "chromium"], capture_output=True, timeout=900, check=False)
    found = shutil.which("chromium")
    if found is None:
        print("skipped: pages in a real browser (no chromium, and it may not be installed)", flush=True)
    return found


def run_browser(folder, *words):
    command = [browser(), "--headless", "--no-sandbox", "--disable-gpu", f"--user-data-dir={folder / 'browser'}", *words]
    return subprocess.run(command, capture_output=True, timeout=SECONDS, check=False).stdout


def shown(folder, page):
    """What the browser makes of a page, as a page; the page itself if there is no browser."""
    if browser() is None:
        return page
    file = folder / "shown.html"
    file.write_text(page)
    return run_browser(folder, "--dump-dom", f"file://{file}").decode()


def prints_on_a4(folder, page):
    """Whether the browser prints a page on sheets A4; true if there is no browser."""
    if browser() is None:
        return True
    file, printed = folder / "printed.html", folder / "printed.pdf"
    file.write_text(page)
    run_browser(folder, "--no-pdf-header-footer", f"--print-to-pdf={printed}", f"file://{file}")
    pdf = printed.read_bytes()
    sheets = re.findall(rb"/MediaBox \[0 0 ([\d.]+) ([\d.]+)\]", pdf)
    return pdf.startswith(b"%PDF") and bool(sheets) and all((round(float(a)), round(float(b))) == A4 for a, b in sheets)
