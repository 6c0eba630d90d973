"""Which module imports which."""
import ast
import os
import re
import subprocess
import sys
import unittest

import uuspool_calls

TOP = os.path.dirname(uuspool_calls.__file__)
OFTEN = {"call": 72, "answer": 69, "deliver": 82, "night": 84, "withoutkeys": 58}  # run by cron, by mailers and members, and by neighbours: how many modules each may load
SLOW = {"argparse", "dataclasses", "datetime", "hashlib", "json", "re", "shutil", "subprocess", "tempfile", "threading", "tomllib", "typing"}
LAST = ["answer", "backup", "restore", "call", "sysfile", "check", "deliver", "expire", "hold", "postfix", "login", "asowner", "withoutkeys", "move", "refuse", "fromtaylor", "setup", "night"]


def imported(path: str) -> set[str]:
    """The modules of the package that a module imports."""
    with open(path, encoding="utf-8") as file:
        tree = ast.parse(file.read())
    found = [it for it in ast.walk(tree) if isinstance(it, ast.ImportFrom) and it.level]
    names = {name for it in found for name in ([it.module] if it.module else [alias.name for alias in it.names])}
    return {it.partition(".")[0] for it in names if it}


class Layers(unittest.TestCase):
    def test_none_imports_what_stands_after_it(self) -> None:
        listed = re.findall(r"(?m)^    ((?:\w+ ?)+?)(?:  .*)?$", uuspool_calls.__doc__ or "")
        order = [name for line in listed for name in line.split()] + ["cli", *LAST]
        names = sorted(it.removesuffix(".py") for it in os.listdir(TOP) if it.endswith(".py") and it != "__init__.py")
        self.assertEqual(sorted([*names, "carriers"]), sorted(order))
        for at, name in enumerate(order):
            path = f"{TOP}/{name}.py" if name != "carriers" else f"{TOP}/carriers/__init__.py"
            self.assertEqual(set(), imported(path) - {*order[:at], "ssh"}, name)

    def test_a_start_loads_little(self) -> None:
        for name, most in OFTEN.items():
            line = f"import sys; sys.path.insert(0, {os.path.dirname(TOP)!r}); from uuspool_calls import cli, {name}; print(*sys.modules)"
            ran = subprocess.run([sys.executable, "-IS", "-B", "-c", line], stdout=subprocess.PIPE, check=True, text=True)
            loaded = ran.stdout.split()
            self.assertEqual(set(), SLOW & set(loaded), f"{name} loads these at its start: import them late, and NamedTuple and Any from values")
            self.assertLessEqual(len(loaded), most, f"{name} loads {len(loaded)} modules at its start")
