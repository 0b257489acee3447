"""The tests of tools/dap, which tools/test_dap runs."""
from rewind_tools.testing import BUILT, PROGRAM

IS_PROVED = PROGRAM == BUILT
