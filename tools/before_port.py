#!/usr/bin/env python3
"""Before the kit's port.py: takes the one name out of the proof files that it reads as a sign of a text already turned.

usage: tools/before_port.py    at the top of the repository; respell.py puts the name back

port.py leaves its steps for older spellings out where an .antt file has a name that only a turned text is thought to have. One file
names the contract of the function set_key, and the kit's library has a word of that spelling.
"""
import pathlib

path = pathlib.Path("crates/coordinator_theorems/proofs/Contracts.antt")
path.write_text(path.read_text().replace("set_key", "heldKeyContract"))
