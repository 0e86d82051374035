"""The page as it stands in the repository."""
import re

from harness.cases import ROOT

# what makes markup or a program of a text
MAKERS = r"innerHTML|outerHTML|insertAdjacentHTML|document\.write|\beval\(|new Function|setTimeout\(\s*[\"'`]|srcdoc|DOMParser|createContextualFragment"


def content(path):
    with open(f"{ROOT}/{path}", encoding="utf-8", newline="") as file:
        return file.read()


def no_text_is_taken_as_markup():
    """Nothing in the page makes markup, or a program, of a text."""
    yield [f"{number}: {line.strip()}" for number, line in enumerate(content("page/index.html").splitlines(), 1) if re.search(MAKERS, line)], []


def it_is_in_the_program():
    """crates/http_views/src/page.rt has the page as tools/take_page writes it."""
    page = content("page/index.html")
    yield page in content("crates/http_views/src/page.rt"), True


def it_loads_nothing():
    """No address of another server stands in the page, other than those of namespaces."""
    addresses = re.findall(r"(?:https?:)?//[\w.-]+\.[a-z]{2,}[^\s\"'<>)]*", content("page/index.html"))
    yield [address for address in addresses if not address.startswith("http://www.w3.org/")], []


CASES = [no_text_is_taken_as_markup, it_is_in_the_program, it_loads_nothing]
