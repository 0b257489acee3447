"""The tests of tools/live, which tools/test_live runs."""
from rewind_tools.testing import BUILT, PROGRAM

IS_PROVED = PROGRAM == BUILT
