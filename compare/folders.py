"""What a run left in its folder."""
import os
from pathlib import Path


def files_below(workspace):
    """The bytes of each file by its path."""
    files = {}
    for folder, _, names in os.walk(workspace):
        for name in names:
            path = Path(folder, name)
            files[path.relative_to(workspace)] = path.read_bytes()
    return files
