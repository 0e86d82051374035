"""What viewers are answered."""
from harness.cases import ROOT
from harness.viewer import text_fields

with open(f"{ROOT}/page/index.html", "rb") as file:
    PAGE = file.read()


def refused(status, words, **others):
    body = words.encode() + b"\n"
    return status, text_fields("text/plain", body, **others), body
