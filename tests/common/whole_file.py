"""The whole file of document 01, and its listing."""

from common.cases_01 import WHOLE_LISTING
from common.mutated import ROOT

WHOLE = (ROOT / "examples" / "whole-file.txt").read_bytes()
LISTING = ("\n".join(WHOLE_LISTING) + "\n").encode()
