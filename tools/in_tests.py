"""Lets a tool find the packages of tests/ (`harness`, `pcep`, `reader`): it imports this module before them."""
import os
import sys

ROOT = os.path.dirname(os.path.dirname(os.path.realpath(__file__)))
sys.path.append(f"{ROOT}/tests")
