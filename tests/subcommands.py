#!/usr/bin/env python3
"""What the program's help names, and the lines that tests run of each subcommand. tests/check-help
fails if a subcommand lacks its line. A new subcommand has a line in MEMORY, and one in CHANGING or
ASKING; in READING too, if it reads an input."""
import re
import subprocess

from bundles import bundle, has, job, mark_of, no
from harness import LIMIT

# main handles these itself; they aren't subcommands of a batch. The first has a line of its own in the help.
BY_MAIN = {"batch"}
BY_COMMAND = {"init", "site", "vacuum", "renumber"}


class Help:
    """What the program's help names: its subcommands, each with its options, and its own options."""

    def __init__(self, program):
        text = self.of(program, "--help")
        listed = re.search(r"(?ms)^Commands:\n(.*?)\n\n", text)[1]
        self.names = [name for name in re.findall(r"(?m)^  (\w+)", listed) if name not in ("help", *BY_MAIN)]
        self.has_batch = re.search(r"(?m)^ +(?:uuspool )?(?:\[.*\] )?batch\b", text) is not None
        self.own = self.options(text)
        self.of_each = {name: self.options(self.of(program, "help", name)) for name in self.names}
        self.all = self.own.union(*self.of_each.values())

    @staticmethod
    def of(program, *words):
        return subprocess.run([program, *words], capture_output=True, text=True, check=True, timeout=LIMIT).stdout

    @staticmethod
    def options(text):
        rows = re.findall(r"(?m)^  (?:(-\w)|   )(?:,)? ?(--[\w-]+)?", text.partition("\nOptions:\n")[2].partition("\n\n")[0])
        return {word for row in rows for word in row if word}

    def having(self, option):
        """The subcommands that have an option."""
        return [name for name in self.names if option in self.of_each[name]]


def subcommand(words):
    """The subcommand of words, after the options and their values."""
    at = 0
    while at < len(words) and words[at].startswith("-"):
        at += 1 if "=" in words[at] or words[at] in ("-h", "--help", "--version", "-V", "--") else 2
    return words[at] if at < len(words) else None


def subcommands(lines):
    """The subcommands of lines, whose words come first."""
    return {subcommand(line[0]) for line in lines}


AT = ["--at", "1000000000", "--as", "ann"]


# ---- lines whose output or input fails (tests/failing-streams)

# What duke says about its jobs here, which it has and which it refuses; and mail that phs hands on
# by this site, with its answer.
OUT = bundle(b"mysite", b"duke", 1, job(b"mysite", b"duke", 1, b"N", b"ann", b"send a b", b"abc"), job(b"mysite", b"duke", 2, b"N", b"ann", b"exec lp", b"xyz"))
BACK = bundle(b"duke", b"mysite", 1, has(2, mark_of(b"mysite", b"duke", 2, b"ann", b"exec lp", b"xyz")), no(1, mark_of(b"mysite", b"duke", 1, b"ann", b"send a b", b"abc"), b"Differs"))
MAIL = bundle(b"phs", b"mysite", 7, job(b"phs", b"mysite", 7, b"A", b"bob", b"exec rmail duke!joe", b"Hello\n"))
TO_PHS = bundle(b"mysite", b"phs", 3)

# The spool that the lines below find: systems, jobs and an entry.
BEGUN = [
    (["load"], b"system duke\ntime Any\nsystem phs\ntime Any\n"),
    ([*AT, "send", "duke", "a", "b"], b"abc"),
    ([*AT, "exec", "duke", "lp"], b"xyz"),
    (["map"], b"#N unc\nunc duke(5)\n"),
]

# Words of a line, its input and its output. The first ones change the spool, and the others ask it.
CHANGING = [
    (["load"], b"system unc\nsystem mcnc\n", b"unc done\nmcnc done\n"),
    ([*AT, "send", "duke", "a", "b"], b"hello", b"job 3\n"),
    ([*AT, "request", "duke", "a", "b"], b"", b"job 3\n"),
    ([*AT, "exec", "duke", "lp"], b"x", b"job 3\n"),
    ([*AT, "mail", "duke!joe"], b"Hello\n", b"job 3\n"),
    ([*AT, "regrade", "1", "A"], b"", b"done\n"),
    ([*AT, "kill", "1"], b"", b"done\n"),
    (["--at", "1000000100", "--as", "ann", "rejuvenate", "1"], b"", b"done\n"),
    ([*AT, "done", "duke", "1", "2"], b"", b"done\n"),
    ([*AT, "failed", "duke", "busy"], b"", b"done\n"),
    ([*AT, "send", "duke", "a", "b", "--once", "phs!7"], b"hello", b"job 3\n"),
    (["forget", "phs", "7"], b"", b"done\n"),
    ([*AT, "unpack", "phs", "duke"], MAIL, b"phs done\n7 job 3\n"),
    (["settle", "duke"], BACK, b"duke 2\nduke refused 1 Differs\n"),
    (["drop", "phs"], b"", b"done\n"),
    (["map"], b"#N x\nx y(1)\n#N y\ny z(1)\n", b"x done\ny done\n"),
]
ASKING = [
    (["list"], b"", b"1 duke ann N 2001-09-09 01:46:40 3 send a b\n2 duke ann N 2001-09-09 01:46:40 3 exec lp\n"),
    (["show", "1"], b"", b"1 duke ann N 2001-09-09 01:46:40 3 send a b\nabc"),
    (["due"], b"", b"duke N 1\n"),
    (["due", "-s", "duke"], b"", b"duke N 1\nduke N 2\n"),
    ([*AT, "when"], b"", b"duke N 1 0 2001-09-09 01:46:40 due\n"),
    ([*AT, "when", "-a"], b"", b"duke - - 0 2001-09-09 01:46:40 due\nphs - - 0 2001-09-09 01:46:40 due\n"),
    (["queues"], b"", b"duke 2 6 N 2001-09-09 01:46:40\n"),
    (["status"], b"", b"duke 0 0 never\nphs 0 0 never\n"),
    (["systems", "-s", "duke"], b"", b"system duke\nmax-retries 26\nsuccess-wait 0\ntime Any\n"),
    (["pack", "duke"], b"", OUT),
    ([*AT, "answer", "phs", "duke"], MAIL, TO_PHS),
    (["neighbours", "unc"], b"", b"duke 5\n"),
    (["name"], b"", b"mysite\n"),
    (["route", "--cost", "duke"], b"", b"4000\tduke\tduke!%s\n"),
    (["routes"], b"", b"duke\tduke!%s\nphs\tphs!%s\n"),
]
# Lines that read an input, and take it once it ends.
READING = [
    (["load"], b"system unc\n"),
    (["send", "duke", "a", "b"], b"hello"),
    (["exec", "duke", "lp"], b"x"),
    (["mail", "duke!joe"], b"Hello\n"),
    (["unpack", "phs", "duke"], MAIL),
    (["settle", "duke"], BACK),
    (["answer", "phs", "duke"], MAIL),
    (["map"], b"#N x\nx y(1)\n"),
]


# ---- lines to which memory is refused (tests/refused-memory)

SYS_FILE = b"# defaults\ntime Wk2305-0755\ntimetable Lunch Wk1200-\\\n1300\nsystem duke\n  time Lunch 15\n  port ser\\#1\n  timegrade C Any\nsystem unc\n  max-retries 2\n"
FIRST_SYSTEM = b"timetable Lunch Wk1200-1300\nsystem duke\ntime Lunch 15\ntimegrade C Any\n"
MESSAGE = b"From joe Sat Sep  8 12:00:00 2001 remote from phs\nHello\n"
UNC = b"#N unc\n#S VAX 11/780\nunc duke(HOURLY+HIGH), phs(DAILY*4),\n mcnc, old(DEAD)\nunc x(2/0)\nunc = unc-ch\n"
MCNC = b"#N mcnc\nmcnc unc(5)\n"
JOB = bytes(range(256)) * 156 + b"x" * 64  # 40,000 bytes
# What unc hands on here: mail that is passed on, more mail, and a file for a system that isn't
# defined.
UNC_HERE = (b"unc", b"mysite", 7)
MAIL_ON = job(b"unc", b"mysite", 7, b"A", b"bob", b"exec rmail duke!joe", MESSAGE)
MORE = [job(b"unc", b"mysite", 9, b"N", b"bob", b"exec rmail duke!ann duke!joe", JOB)]
NOWHERE = job(b"unc", b"mysite", 8, b"N", b"bob", b"send f t", b"xyz")
DUKE = (["load"], b"system duke\ntime Any\n")
BOTH = (["load"], b"system duke\ntimegrade C Any\nsystem unc\ntime Any\n")
FOUR = [BOTH, *[([*AT, "request", name, "a", "b", "-g", grade], b"") for name, grade in (("duke", "a"), ("duke", "B"), ("unc", "z"), ("unc", "9"))]]
FULL = [*FOUR, ([*AT, "send", "duke", "f", "t"], JOB), (["map"], UNC)]

# For each line: the lines before, or the version whose kept files it opens; its words and input;
# and lines that do what its first commands do, or its opening.
MEMORY = {
    "load": ([], ["load"], SYS_FILE, [(["load"], FIRST_SYSTEM)]),
    "load again": ([DUKE], ["load"], SYS_FILE, [(["load"], FIRST_SYSTEM)]),
    "drop": ([DUKE], ["drop", "duke"], b"", []),
    "send": ([DUKE], [*AT, "send", "duke", "/tmp/a", "~/a"], JOB, []),
    "request": ([DUKE], [*AT, "request", "duke", "/tmp/a", "~/a"], b"", []),
    "exec": ([DUKE], [*AT, "exec", "-g", "A", "duke", "lp", "laser"], b"xyz", []),
    "mail": ([DUKE], [*AT, "mail", "duke!unc!ann", "duke!bob"], MESSAGE, []),
    "list": (FULL, ["list"], b"", []),
    "show": (FULL, ["show", "5"], b"", []),
    "kill": (FULL, [*AT, "kill", "5"], b"", []),
    "kill, refused": (FULL, [*AT, "kill", "77"], b"", []),
    "regrade": (FULL, [*AT, "regrade", "5", "1"], b"", []),
    "rejuvenate": (FULL, ["--at", "1000116000", "--as", "ann", "rejuvenate", "5"], b"", []),
    "due": (FOUR, ["--at", "1000000000", "due"], b"", []),
    "due, of a system": (FOUR, ["--at", "1000000000", "due", "-s", "duke"], b"", []),
    "when": (FOUR, ["--at", "1000000000", "when"], b"", []),
    "when, of each system": (FOUR, ["--at", "1000000000", "when", "-a"], b"", []),
    "queues": (FULL, ["queues"], b"", []),
    "status": ([*FULL, (["--at", "1000000000", "failed", "unc", "busy"], b"")], ["status"], b"", []),
    "systems": (FULL, ["systems"], b"", []),
    "failed": (FOUR, ["--at", "1000000000", "failed", "unc", "busy"], b"", []),
    "done": (FULL, ["--at", "1000116000", "done", "duke", "1", "2", "5"], b"", []),
    "send, once": ([BOTH], [*AT, "send", "duke", "/tmp/a", "~/a", "--once", "unc!7!524291.1"], JOB, []),
    "forget": (FOUR, ["forget", "duke", "9"], b"", []),
    "pack": (FULL, ["pack", "duke"], b"", []),
    "unpack": ([BOTH], [*AT, "unpack", "unc", "duke"], bundle(*UNC_HERE, MAIL_ON, *MORE), []),
    "settle": (FULL, ["settle", "duke"], bundle(b"duke", b"mysite", 1, has(5, mark_of(b"mysite", b"duke", 5, b"ann", b"send f t", JOB)), no(1, mark_of(b"mysite", b"duke", 1, b"ann", b"request a b", b""), b"Differs")), []),
    "answer": ([*FULL, ([*AT, "unpack", "unc", "duke"], bundle(*UNC_HERE, MAIL_ON))], [*AT, "answer", "unc", "duke"], bundle(*UNC_HERE, MAIL_ON, NOWHERE, *MORE), []),
    "map": ([DUKE], ["map"], UNC + MCNC, [(["map"], UNC)]),
    "neighbours": (FULL, ["neighbours", "unc"], b"", []),
    "name": ([DUKE], ["name"], b"", []),
    "route": (FULL, ["route", "--cost", "phs"], b"", []),
    "routes": (FULL, ["routes"], b"", []),
    "wrong words": ([DUKE], ["nonsense"], b"", []),
    "help": ([], ["-h"], b"", []),
    "version": ([], ["--version"], b"", []),
    "list, version 1": (1, ["list"], b"", []),
    "list, version 2": (2, ["list"], b"", []),
    "list, version 3": (3, ["list"], b"", []),
    "send, version 2": (2, [*AT, "send", "duke", "/tmp/a", "~/a", "--once", "unc!7"], JOB, [(["list"], b"")]),
    "a bad sys file": ([DUKE], ["load"], b"system a\nsystem a\n", []),
}
