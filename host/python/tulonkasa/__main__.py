"""`python3 -m tulonkasa` is the command `tulonkasa`."""

from tulonkasa.command import run

run()
