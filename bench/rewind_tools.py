"""The modules of tools/rewind_tools, under the same name, for the scripts of this folder."""
import os

__path__ = [
    os.path.join(os.path.dirname(os.path.dirname(os.path.abspath(__file__))), "tools", "rewind_tools")
]
