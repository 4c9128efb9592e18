"""The links of pages."""
import os
import re


def without_code(text):
    return re.sub(r"(?ms)^```.*?^```", "", text)


def anchors(text):
    """The anchors of a page's headings, as they are made for a page on the web."""
    heads = re.findall(r"(?m)^#+ (.*)$", without_code(text))
    return {re.sub(r"[^\w -]", "", it.lower()).replace(" ", "-") for it in heads}


def dead(top, pages):
    """The links of these pages below a folder that lead to no file in it, or to no heading."""
    found = []
    for page in pages:
        text = text_of(top, page)
        for target in re.findall(r"\]\(([^)\s]+)\)", without_code(text)):
            file, _, anchor = target.partition("#")
            file = os.path.normpath(os.path.join(os.path.dirname(page), file)) if file else page
            is_there = not file.startswith("..") and os.path.exists(os.path.join(top, file))
            if "://" not in target and not (is_there and (not anchor or anchor in anchors(text_of(top, file)))):
                found.append(f"{page}: {target}")
    return found


def text_of(top, page):
    with open(os.path.join(top, page), encoding="utf-8") as file:
        return file.read()
