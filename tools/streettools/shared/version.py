"""The version of the tools, which is that of the program; the wheel takes it from here (tools/wheel/backend.py)."""

VERSION = "0.8"
