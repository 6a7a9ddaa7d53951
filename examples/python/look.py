"""Reads the lines of `hart explain --json`: prints misses, repeated requests, and primary variables as numbers.

Usage: look.py < heard.jsonl
"""
import json
import struct
import sys

for one in map(json.loads, sys.stdin):
    time = one.get("time", "-")
    if one["type"] == "miss":
        print(time, one["reason"], "at place", one["start"])
    elif one["kind"] == "request" and one["sending"] > 1:
        print(time, "sending", one["sending"], "of command", one["command"])
    elif "primary_variable" in one["fields"]:
        # A float is given as the hex digits of its four bytes.
        value, = struct.unpack(">f", bytes.fromhex(one["fields"]["primary_variable"]))
        print(time, "primary variable", value, "in reply to the request at", one["answers"])
