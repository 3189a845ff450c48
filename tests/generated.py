"""The parts of pages that scripts write, between two marks: compares each with what its script would write now."""

import sys

END = "<!-- End of what it writes. -->\n"


def written(page, script, part):
    """A page with a part put in its place."""
    begin = f"<!-- Written by tests/{script} --write. -->\n"
    before, begun, rest = page.partition(begin)
    _, ended, after = rest.partition(END)
    if not begun or not ended:
        sys.exit(f"no place in the page for what tests/{script} writes")
    return f"{before}{begun}\n{part}\n{ended}{after}"


def is_present(path, script, part):
    """Whether the part of a page is what the script would write; `tests/SCRIPT --write` writes it."""
    page = path.read_text()
    if sys.argv[0].endswith(script) and sys.argv[1:] == ["--write"]:
        path.write_text(written(page, script, part))
        return True
    return written(page, script, part) == page
