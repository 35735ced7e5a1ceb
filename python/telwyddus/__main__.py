"""`python -m telwyddus`: the command `telwyddus`."""
from .command import run

if __name__ == "__main__":
    run()
