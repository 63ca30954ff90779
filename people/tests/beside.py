"""Puts the package on the path of the tests, which ask for a program by name: the repository's own may have to be proved first."""
import os
import sys

sys.path.insert(0, os.path.dirname(os.path.dirname(os.path.realpath(__file__))))
if "SSABENCH" not in os.environ:
    sys.exit("SSABENCH has to name the proved program that the tests call")
