"""`python3 -m bay_market`: the command `bay`."""
from .commands import main

main()
