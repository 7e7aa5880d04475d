"""`python -m cloner_planning COMMAND ..` is `cloner-planning COMMAND ..`."""
from .command_line import entry

if __name__ == "__main__":
    entry()
