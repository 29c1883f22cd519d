"""`python3 -m calfrewin`, and the program `calfrewin`."""
from __future__ import annotations

from .command import main

if __name__ == "__main__":
    main()
