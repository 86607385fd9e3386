"""Parts of pages that a script keeps: what stands between the marks of a name."""
from collections.abc import Iterable


def between(page: str, name: str, lines: Iterable[str]) -> str:
    """The page with these lines between the marks of a name."""
    head, begin, rest = page.partition(f"<!-- {name} -->\n")
    _, end, tail = rest.partition(f"<!-- end of {name} -->\n")
    if not begin or not end:
        raise ValueError(f"the page has no marks of {name}")
    return head + begin + "\n".join(lines) + "\n" + end + tail
