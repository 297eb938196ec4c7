#!/usr/bin/env python3
"""Builds crates/symdemangle/out/libsymdemangle.a over the libraries that `rt ci` has proved and left in crates/*/out/rlib.

`rt ci` proves the static library and doesn't keep it, and `rt lib` would prove each crate that it uses again. This script proves and
compiles only the static library's own functions, over the libraries that are there. The status is 0 where the static library was built.
"""

import os
import subprocess
import sys

TOP = os.path.realpath(os.path.join(os.path.dirname(__file__), ".."))
KIT = os.path.dirname(subprocess.check_output(["rt", "doc"], text=True).strip())
sys.dont_write_bytecode = True
sys.path.insert(0, f"{KIT}/bin")
import rtlib

os.chdir(f"{TOP}/crates/symdemangle")
os.makedirs("out", exist_ok=True)
crate = rtlib.Crate(os.getcwd(), TOP, {})
lacking = [below.name for below in crate.below() if not os.path.isdir(below.rlib)]
if lacking:
    sys.exit(f"{sys.argv[0]}: `rt ci` hasn't proved {', '.join(lacking)}")
sys.exit(crate.build_static([]))
