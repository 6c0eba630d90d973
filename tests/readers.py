#!/usr/bin/env python3
"""Plain readers of time strings, sys files, map entries with their routes, and the first lines of
messages, in ASCII: a second opinion to that of the crates.

They follow the Taylor UUCP 1.07 manual ("Time Strings", "The Sys File"), the UUCP Mapping Project's
form of an entry, and what docs/decisions adds to them. They share no code with the crates and never
ask them. Each takes the whole text at once. Time strings are regular expressions, and a set of
minutes is a set. How far a text begins a time string is found by completing it.
"""
import heapq
import itertools
import re

# Time strings, those of the worked sys file among them, and texts that aren't time strings.
TIME_STRINGS = (
    "Wk2305-0755",
    "Wk1200-1300",
    "Any",
    "Lunch",
    "Wk2305-0855,Sa,Su2305-1655",
    "SuMoTuWeThFrSa0000-2400|wkANY2359-0000",
    "Never",
    "Evening",
    "NonPeak",
    "Night|Mo",
    "MoTuXx",
    "Wednesday",
    "Any,,",
    "Tu0960-1000",
)

# A sys file with defaults, a timetable on two lines, a comment, other keywords and two systems.
DUKE_AND_UNC = r"""# defaults
time Wk2305-0755
timetable Lunch Wk1200-\
1300
system duke
  time Lunch 15
  port ser\#1
  alternate backup
  timegrade C Any
system unc
  max-retries 2
"""

# Sys files with rare forms, each up to its fault, and the worked one.
SYS_FILES = (
    "max-retries 3\r\nTIME never 0\ntimetable night Mo|tu0000-2400\ntimetable Rare-1 NIGHT\n\tsystem a.b-C_9 # one\n"
    "TimeGrade 9 SuMo2300-0100,Fr 525600\ntime rare-1\\\n 007\nport x \\\\# y \\# z\nmax-retries 12\nmax-retries 0\n"
    "system b\nsystem c\ntime nonpeak|Sa\\",
    "system a\nmax-retries 1\ntime Any\nsystem A\n#\\\n\nsystem a",
    "timetable t_1 Evening\r\n\r\n\\\r\n\\\ntimetable T_1 Moonlight\ntime Any",
    "time Su2359-0000\ntimetable night Never\ntime Night 0000000001\n",
    "timegrade N Any 1\\\n5\\\n\\# x\n",
    "a\n\\\nb\\\n c\nd #\\\ne\nf\\",
    "success-wait 5\nSUCCESS-Wait 600\nsystem a\n success-wait 0\nsystem b\nsuccess-wait 60\nsuccess-wait 31536000\nsystem c\n"
    "success-wait\\\n 31536001",
    DUKE_AND_UNC,
)

# A map entry with costs of one operator, a statement on two lines, a dead link, a skipped statement
# and an alias.
ENTRY = """#N unc
#S VAX 11/780
unc duke(HOURLY+HIGH), phs(DAILY*4),
 mcnc, old(DEAD)
unc x(2/0)
unc = unc-ch
"""

# The first and the last day that a day word names; Sunday is day 0.
MESSAGE = """From ann Sun Sep  9 01:46:40 2001 remote from mysite
>From joe Sat Sep  8 12:00:00 2001 remote from phs
Hello
"""

DAYS = {
    "su": (0, 0),
    "mo": (1, 1),
    "tu": (2, 2),
    "we": (3, 3),
    "th": (4, 4),
    "fr": (5, 5),
    "sa": (6, 6),
    "wk": (1, 5),
    "any": (0, 6),
}
PREDEFINED = {
    "evening": "Wk1705-0755,Sa,Su",
    "night": "Wk2305-0755,Sa,Su2305-1655",
    "nonpeak": "Wk1805-0655,Sa,Su",
}
DAY_WORD = "|".join(DAYS)
TIME_OF_DAY = "(?:[01][0-9]|2[0-3])[0-5][0-9]"
SIMPLE = f"(?P<days>(?:{DAY_WORD})+)(?:(?P<start>{TIME_OF_DAY})-(?P<end>{TIME_OF_DAY}|2400))?"
SITE_NAME = "[0-9A-Za-z_.-]{1,63}"
TABLE_NAME = "[A-Za-z][0-9A-Za-z_-]{0,31}"
# Each text that begins a list of simple strings is one if one of these follows.
ENDINGS = (
    *("", "su", "u", "o", "e", "r", "ny", "y"),
    *("000-0000", "00-0000", "0-0000", "-0000", "0000", "000", "00", "0"),
)
# The costs that symbols mean.
COSTS = {
    "LOCAL": 25,
    "DEDICATED": 95,
    "DIRECT": 200,
    "DEMAND": 300,
    "HOURLY": 500,
    "EVENING": 1800,
    "DAILY": 5000,
    "WEEKLY": 30000,
    "HIGH": -5,
    "LOW": 5,
    "FAST": -80,
    "POLLED": 5000,
}
DEAD = float("inf")


class Fault(Exception):
    """What is wrong with a text, or with a line of it."""


class Skipped(Exception):
    """A statement of a map entry has no meaning."""


def minutes_of_simple(days, start, end):
    """The minutes of the week of a simple string. Hours that end before they begin don't go past
    their day."""
    first = int(start[:2]) * 60 + int(start[2:])
    last = 1439 if end == "2400" else int(end[:2]) * 60 + int(end[2:])
    if first <= last:
        times = range(first, last + 1)
    else:
        times = (*range(last + 1), *range(first, 1440))
    named = [DAYS[word] for word in re.findall(DAY_WORD, days)]
    return {day * 1440 + time for one, other in named for day in range(one, other + 1) for time in times}


def simples_of(text):
    """The simple strings of a list in lower case, each as its match, or as None if it isn't one."""
    return [re.fullmatch(SIMPLE, part) for part in re.split("[|,]", text)]


def minutes_of_list(text):
    """The minutes of a list of simple strings in lower case, or None if it isn't one."""
    simples = simples_of(text)
    if not all(simples):
        return None
    return set().union(*(minutes_of_simple(it["days"], it["start"] or "0000", it["end"] or "2400") for it in simples))


def begins_list(text):
    return any(all(simples_of(text + ending)) for ending in ENDINGS)


def minutes_of(text, tables):
    """The minutes of a time string after these timetables."""
    text = text.lower()
    if text == "never":
        return set()
    if text in tables:
        return tables[text]
    minutes = minutes_of_list(PREDEFINED.get(text, text).lower())
    if minutes is not None:
        return minutes
    if re.fullmatch(TABLE_NAME, text) and not re.match(DAY_WORD, text):
        raise Fault("unknown timetable")
    longest = max(length for length in range(len(text) + 1) if begins_list(text[:length]))
    raise Fault(f"bad time string at {longest}")


def runs(minutes):
    """The runs of a set of minutes, as they are shown."""
    firsts = sorted(it for it in minutes if it - 1 not in minutes)
    lasts = sorted(it for it in minutes if it + 1 not in minutes)
    return "".join(f" {first}-{last}" for first, last in zip(firsts, lasts))


def time_string(text):
    """What a time string means without a line that defines a timetable."""
    try:
        return runs(minutes_of(text, {}))
    except Fault as fault:
        return f"line 0: {fault}"


def number(text, most):
    if not re.fullmatch("[0-9]{1,9}", text) or int(text) > most:
        raise Fault("bad number")
    return int(text)


class Section:
    """The lines of one system, or those before the first: its time lines as they are shown, its
    last number of failures, and its last wait after a successful call."""

    def __init__(self, name):
        self.name, self.lines, self.retries, self.wait = name, [], None, None

    def shown(self, defaults):
        retries = next(it for it in (self.retries, defaults.retries, 26) if it is not None)
        wait = next(it for it in (self.wait, defaults.wait, 0) if it is not None)
        return f"{self.name} {retries} {wait}:{''.join(self.lines or defaults.lines)}/"


class SysFile:
    """What the lines of a sys file say, one after the other."""

    def __init__(self):
        self.sections, self.tables, self.skipped = [Section(None)], {}, []

    def system(self, *names):
        if len(names) != 1 or not re.fullmatch(SITE_NAME, names[0]):
            raise Fault("bad system name")
        if any(section.name == names[0] for section in self.sections):
            raise Fault("system defined twice")
        self.sections.append(Section(names[0]))

    def time(self, *words):
        self.timegrade("z", *words)

    def timegrade(self, *words):
        if len(words) not in (2, 3) or not re.fullmatch("[0-9A-Za-z]", words[0]):
            raise Fault("bad words")
        shown = runs(minutes_of(words[1], self.tables))
        retry = number(words[2], 525_600) if len(words) == 3 else 0
        lines = self.sections[-1].lines
        if len(lines) == 32:
            raise Fault("too many time lines")
        lines.append(f" {words[0]} {retry}:{shown}")

    def max_retries(self, *words):
        if len(words) != 1:
            raise Fault("bad words")
        self.sections[-1].retries = number(words[0], 1_000_000)

    def success_wait(self, *words):
        if len(words) != 1:
            raise Fault("bad words")
        self.sections[-1].wait = number(words[0], 31_536_000)

    def timetable(self, *words):
        if len(words) != 2 or not re.fullmatch(TABLE_NAME, words[0]):
            raise Fault("bad words")
        minutes = minutes_of(words[1], self.tables)
        if words[0].lower() in self.tables:
            raise Fault("timetable defined twice")
        self.tables[words[0].lower()] = minutes

    def shown(self):
        defaults, *systems = self.sections
        return "".join([it.shown(defaults) for it in systems] + [f"skipped {line}/" for line in self.skipped])


DIRECTIVES = {
    "system": SysFile.system,
    "time": SysFile.time,
    "timegrade": SysFile.timegrade,
    "max-retries": SysFile.max_retries,
    "success-wait": SysFile.success_wait,
    "timetable": SysFile.timetable,
}


def joined_lines(text):
    """The lines of a sys file with their numbers, joined if a backslash ends one."""
    joined, begun = "", None
    lines = text.replace("\r\n", "\n").split("\n")
    for place, line in enumerate(lines, 1):
        begun = begun or place
        if line.endswith("\\"):
            joined += line[:-1]
            if place < len(lines):
                continue
        else:
            joined += line
        yield begun, joined
        joined, begun = "", None


def sys_file(text):
    """What a sys file says, or its first fault."""
    file = SysFile()
    for place, line in joined_lines(text):
        uncommented = re.split(r"(?<!\\)#", line)[0].replace("\\#", "#")
        words = re.findall(r"[^ \t]+", uncommented)
        directive = DIRECTIVES.get(words[0].lower()) if words else None
        try:
            if directive:
                directive(file, *words[1:])
            elif words:
                file.skipped.append(place)
        except Fault as fault:
            return f"line {place}: {fault}"
    return file.shown()


def value(text):
    """The cost that a number or a symbol means."""
    if text == "DEAD":
        return DEAD
    if re.fullmatch("[0-9]+", text):
        return int(text)
    if text in COSTS:
        return COSTS[text]
    raise Skipped


def cost(text):
    """The cost of a link: a value, or two with an operator between them."""
    form = re.fullmatch(r"\s*(\w+)\s*(?:([-+*/])\s*(\w+)\s*)?", text)
    if not form:
        raise Skipped
    left = value(form[1])
    right = value(form[3]) if form[2] else 0
    if DEAD in (left, right):
        return DEAD
    if form[2] == "/" and right == 0:
        raise Skipped
    if form[2] == "/":
        quotient = abs(left) // abs(right)
        return max(0, quotient if (left < 0) == (right < 0) else -quotient)
    return max(0, {None: left, "+": left + right, "-": left - right, "*": left * right}[form[2]])


def link(text):
    """A link as its cost and its name."""
    form = re.fullmatch(rf"({SITE_NAME})\s*(?:\((.*)\))?", text)
    if not form:
        raise Skipped
    return (4000 if form[2] is None else cost(form[2])), form[1]


def elements(text):
    return [part.strip() for part in text.split(",") if part.strip()]


def statements(text):
    """The statements of an entry, each as the number of its first line and its whole text."""
    found = []
    for place, line in enumerate(text.split("\n"), 1):
        line = line.split("#")[0].rstrip()
        if line.startswith(" ") and found:
            found[-1] = (found[-1][0], f"{found[-1][1]} {line}")
        elif line:
            found.append((place, line))
    return found


def meaning(host, statement):
    """The links and the aliases of a statement."""
    form = re.fullmatch(rf"{re.escape(host)}(?:\s*=(?P<aliases>.*)|\s+(?P<links>.*))?", statement)
    if not form:
        raise Skipped
    aliases = elements(form["aliases"] or "")
    if not all(re.fullmatch(SITE_NAME, alias) for alias in aliases):
        raise Skipped
    return [link(part) for part in elements(form["links"] or "")], aliases


def network(statement):
    """The cost of a network and the names of its sites."""
    form = re.fullmatch(rf"{SITE_NAME}\s*=\s*[!@:%]?{{([^}}]*)}}[!@:%]?\s*(?:\((.*)\))?", statement)
    if not form:
        raise Skipped
    sites = elements(form[1])
    if statement.startswith(".") or not all(re.fullmatch(SITE_NAME, site) and site[0] != "." for site in sites):
        raise Skipped
    return (4000 if form[2] is None else cost(form[2])), sites


def facts(text):
    """What a map entry says, if no link has a mark and a cost has at most one operator: its host, its
    links as costs and names, its aliases, its networks as costs and lists of names, and the numbers of
    the lines that are skipped."""
    named = re.search(r"^#N(?:[ \t]+([^ \t,\n]*).*)?$", text, re.MULTILINE)
    if not named or not named[1]:
        raise Fault("no name")
    if not re.fullmatch(SITE_NAME, named[1]):
        raise Fault("bad host")
    links, aliases, networks, skipped = [], [], [], []
    for place, statement in statements(text):
        try:
            more_links, more_aliases = meaning(named[1], statement)
        except Skipped:
            try:
                networks.append(network(statement))
            except Skipped:
                skipped.append(place)
        else:
            links += more_links
            aliases += more_aliases
    return named[1], links, aliases, networks, skipped


def entry(text):
    """What a map entry says, if no link is named twice, as a text."""
    try:
        host, links, aliases, _, skipped = facts(text)
    except Fault as fault:
        return str(fault)
    shown = [f"{name} {'dead' if price == DEAD else price}/" for price, name in sorted(links)]
    shown += [f"= {alias}/" for alias in aliases]
    shown += [f"skipped {place}/" for place in skipped]
    return f"{host}: {''.join(shown)}"


class Routes:
    """The routes of a site over the entries of a map, of which none has the same host as another. A
    network is here the list of all its links. A way is a triple of its cost, its number of sites and their names. The ways are tried from the least one
    on, so the first that comes to a host is its route. A later one that comes there with fewer sites may
    still be the front of a route, because a route has at most 127 sites."""

    def __init__(self, texts, own, systems):
        self.entries, self.claims = [facts(text) for text in texts], {}
        for host, _, aliases, _, _ in self.entries:
            for name in {host, *aliases}:
                self.claims.setdefault(name, []).append(host)
        self.own, self.systems = self.host(own), sorted(systems)
        links = {}
        for host, listed, _, _, _ in self.entries:
            links[host] = [(price, self.host(name)) for price, name in listed if price != DEAD]
        self.networks = [(price, {self.host(name) for name in sites}) for _, _, _, networks, _ in self.entries for price, sites in networks if price != DEAD]
        for price, hosts in self.networks:
            for host, other in itertools.permutations(hosts, 2):
                links.setdefault(host, []).append((price, other))
        ways = [(price, 1, (host,)) for price, host in self.first_hops()]
        heapq.heapify(ways)
        self.found, fewest = {}, {}
        while ways:
            price, sites, path = heapq.heappop(ways)
            host = path[-1]
            self.found.setdefault(host, (price, path))
            if fewest.get(host, 128) <= sites:
                continue
            fewest[host] = sites
            if sites < 127 and host != self.own:
                for more, following in links.get(host, ()):
                    if fewest.get(following, 128) > sites + 1:
                        heapq.heappush(ways, (price + more, sites + 1, (*path, following)))

    def host(self, name):
        """The host that a name means."""
        claims = self.claims.get(name, [])
        return claims[0] if len(claims) == 1 else name

    def first_hops(self):
        """The systems' hosts, and what a call to each costs."""
        listed = [its for host, its, _, _, _ in self.entries if host == self.own]
        for host in {self.host(system) for system in self.systems}:
            prices = [price for price, name in (listed[0] if listed else ()) if self.host(name) == host]
            shared = [price for price, hosts in self.networks if {self.own, host} <= hosts]
            least = min(prices or shared or [4000])
            if least != DEAD:
                yield least, host

    def lines(self):
        """The lines of all routes with their costs."""
        for host, (price, path) in sorted(self.found.items()):
            if host != self.own:
                first = next(system for system in self.systems if self.host(system) == path[0])
                yield f"{price}\t{host}\t{'!'.join((first, *path[1:]))}!%s"


def leading_line(line, begin):
    """The user and the system of a line with this beginning that names both, or None."""
    front, found, system = line.removesuffix("\r").rpartition(" remote from ")
    user = front.removeprefix(begin).split(" ")[0]
    return (user, system) if found and front.startswith(begin) and user and re.fullmatch(SITE_NAME, system) else None


def way_back(text):
    """The path to the author of a message, and where the message begins after the lines that
    name it."""
    systems, begin, body = [], "From ", 0
    for line in text.splitlines(keepends=True):
        found = leading_line(line.removesuffix("\n"), begin)
        if not found:
            break
        user, body, begin = found[0], body + len(line), ">From "
        systems.append(found[1])
    return f"{'!'.join([*systems, user])} {body}" if systems else "no envelope"
