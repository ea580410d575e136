"""Runs a command by its name: python3 -m msp_tools NAME [WORD ..]."""
from .commands import run_named

run_named()
