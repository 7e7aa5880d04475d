"""Deliberate mistakes in a model and a script, the error lines that cloner wrote for them, and what `explain` says."""

MODEL = """# A desk with a way back
lookahead = 2
horizon = 1000
[[station]]
name = "gate"
kind = "source"
every = [3, 5]
jobs = 100
link = [{ to = "desk", delay = 2 }]
[[station]]
name = "desk"
kind = "server"
servers = 2
room = 5
service = [4, 8]
link = [{ to = "check", delay = 2 }]
[[station]]
name = "check"
kind = "router"
by = "weights"
[[station.link]]
to = "out"
delay = 3
weight = 9
[[station.link]]
to = "desk"
delay = 4
[[station]]
name = "wait"
kind = "delay"
hold = [0, 9]
link = [
    { to = "out", delay = 2, weight = 1 },
    { to = "desk", delay = 5, weight = 2 },
]
[[station]]
"name" = "out"
kind = "sink"
"""
SCRIPT = """# What if?
fork fast from base
set fast at 8 desk service 2 2

analyst ben
fork two_clerks from base
set two_clerks at 7 desk servers 3
fork brief from fast
end brief at 90
look brief desk
"""

# of each mistake: what is replaced in the model by what, the error line, and what the explanation has
MODEL_MISTAKES = [
    ("servers = 2", "servers = 17", "model: refusal 8 at station 2 key servers",
     ["MODEL:13: servers = 17", "integer, 1 to 16"]),
    ("servers = 2", "server = 2", "model: refusal 5 at station 2 key server",
     ["MODEL:13: server = 2", "mean `servers`?"]),
    ("room = 5", "\"ro om\" = 5", "model: refusal 5 at station 2 key ro?om",
     ["MODEL:14: \"ro om\" = 5", "mean `room`?"]),
    ("room = 5", "\"room\" = -5", "model: refusal 8 at station 2 key room",
     ["MODEL:14: \"room\" = -5", "integer, 0 to 4,096"]),
    ("room = 5", "order = \"class\"\nroom = 5", "model: refusal 5 at station 2 key order",
     ["MODEL:14: order", "write `format = 2`"]),
    ("jobs = 100", "jobs = 100\nclass = 2", "model: refusal 5 at station 1 key class",
     ["MODEL:9: class = 2", "write `format = 2`"]),
    ("jobs = 100", "jobs = 100\nclas = 2", "model: refusal 5 at station 1 key clas",
     ["MODEL:9: clas = 2", "`class` needs `format = 2`"]),
    ("hold = [0, 9]", "hold = [9, 0]", "model: refusal 8 at station 4 key hold",
     ["MODEL:31: hold = [9, 0]", "mean `[0, 9]`?"]),
    ("hold = [0, 9]", "hold = [9]", "model: refusal 4 at station 4 key hold",
     ["MODEL:31: hold = [9]", "an array of 1 integers"]),
    ("hold = [0, 9]", "hold = [0.5, 9]", "model: refusal 4 at station 4 key hold",
     ["MODEL:31:", "2 elements, not all integers"]),
    ("hold = [0, 9]", "service = [0, 9]", "model: refusal 5 at station 4 key service",
     ["MODEL:31: service", "MODEL:30: kind = \"delay\"", "key of a server, and this station is a delay", "hold"]),
    ("kind = \"sink\"", "kind = \"snik\"", "model: refusal 8 at station 5 key kind",
     ["MODEL:38: kind", "mean `sink`?"]),
    ("by = \"weights\"", "by = \"turns\"", "model: refusal 8 at station 3 key by", ["MODEL:20: by", "mean `turn`?"]),
    ("by = \"weights\"", "by = weights", "model: refusal 2 at station 0",
     ["MODEL:20: by = weights", "Column 6:", "in quotes, \"weights\""]),
    ("horizon = 1000", "horizon = \"1000\"", "model: refusal 4 at station 0 key horizon",
     ["MODEL:3:", "a string", "no quotes"]),
    ("horizon = 1000", "horizon = 1000.0", "model: refusal 4 at station 0 key horizon",
     ["MODEL:3:", "a number with a point"]),
    ("horizon = 1000", "", "model: refusal 3 at station 0 key horizon",
     ["no `horizon` at the top", "1 to 1,000,000,000"]),
    ("horizon = 1000", "# horizon = 1000", "model: refusal 3 at station 0 key horizon",
     ["MODEL:3: # horizon = 1000   (a comment)"]),
    ("horizon = 1000", "horizont = 1000", "model: refusal 5 at station 0 key horizont",
     ["MODEL:3: horizont", "mean `horizon`?"]),
    ("horizon = 1000\n[[station]]", "[[station]]\nhorizon = 1000", "model: refusal 3 at station 0 key horizon",
     ["MODEL:4: horizon = 1000", "before the first `[[station]]`"]),
    ("name = \"wait\"", "name = \"wait\"\nseed = 3", "model: refusal 5 at station 4 key seed",
     ["MODEL:30: seed = 3", "key of the top"]),
    ("lookahead = 2", "lookahead = 2\nrooms = 3", "model: refusal 5 at station 0 key rooms",
     ["MODEL:3: rooms", "keys of the top"]),
    ("lookahead = 2", "lookahead = 2\nroom = 3", "model: refusal 5 at station 0 key room",
     ["MODEL:3: room", "after a line `[[station]]`"]),
    ("name = \"desk\"", "nmae = \"desk\"", "model: refusal 3 at station 2 key name",
     ["MODEL:11: nmae", "`name` in place of `nmae`"]),
    ("name = \"desk\"", "name = \"Desk\"", "model: refusal 6 at station 2",
     ["MODEL:11: name = \"Desk\"", "`desk` would be a name"]),
    ("name = \"desk\"", "name = \"gate\"", "model: refusal 7 at station 2",
     ["MODEL:11:", "MODEL:5: name = \"gate\"   (station 1"]),
    ("name = \"desk\"", "name = \"dekc\"", "model: refusal 9 at station 1",
     ["MODEL:9:", "MODEL:11: name = \"dekc\"", "mean `dekc`?"]),
    ("name = \"desk\"", "name = \"analyst\"", "model: refusal 6 at station 2",
     ["MODEL:11:", "no station is called `analyst`"]),
    ("{ to = \"desk\", delay = 5, weight = 2 }", "{ to = \"dessk\",\n delay = 5 }", "model: refusal 9 at station 4",
     ["MODEL:34: { to = \"dessk\",   (link 2)", "mean `desk`?"]),
    ("{ to = \"desk\", delay = 5, weight = 2 }", "{ to = \"gate\", delay = 5 }", "model: refusal 14 at station 4",
     ["MODEL:34: { to = \"gate\", delay = 5 },   (link 2)", "MODEL:6: kind = \"source\""]),
    ("{ to = \"desk\", delay = 5, weight = 2 }", "{ to = \"desk\",\n # near\n delay = 1, }",
     "model: refusal 10 at station 4",
     ["MODEL:36: delay = 1, },   (link 2)", "MODEL:2: lookahead = 2", "at least 2"]),
    ("{ to = \"desk\", delay = 5, weight = 2 }", "{ to = \"Desk\", delay = 5 }", "model: refusal 6 at station 4",
     ["MODEL:34:", "(link 2)", "mean `desk`?"]),
    ("{ to = \"desk\", delay = 5, weight = 2 }", "{ to = \"desk\", weight = 2 }",
     "model: refusal 3 at station 4 key delay", ["MODEL:34:", "(link 2)", "no `delay` here"]),
    ("to = \"out\"\ndelay = 3", "to = \"exit\"\ndelay = 3", "model: refusal 9 at station 3",
     ["MODEL:22: to = \"exit\"   (link 1)", "The stations: gate, desk, check, wait, out."]),
    ("weight = 9", "weight = 9000", "model: refusal 8 at station 3 key weight",
     ["MODEL:24: weight = 9000   (link 1)", "1 to 1,000"]),
    ("weight = 9", "wieght = 9", "model: refusal 5 at station 3 key wieght", ["MODEL:24: wieght", "mean `weight`?"]),
    ("weight = 9", "room = 9", "model: refusal 5 at station 3 key room", ["MODEL:24: room", "key of a station"]),
    ("by = \"weights\"\n[[station.link]]", "[[station.link]]\nby = \"weights\"", "model: refusal 3 at station 3 key by",
     ["MODEL:21: by = \"weights\"", "This line belongs to a link"]),
    ("link = [{ to = \"check\", delay = 2 }]", "", "model: refusal 11 at station 2",
     ["MODEL:11: name = \"desk\"", "only a sink has none"]),
    ("link = [{ to = \"check\", delay = 2 }]", "link = { to = \"check\", delay = 2 }",
     "model: refusal 4 at station 2 key link", ["MODEL:16:", "`link = [{ to = .., delay = .. }]`"]),
    ("link = [{ to = \"check\", delay = 2 }]", "link = [" + "{ to = \"check\", delay = 2 },\n" * 17 + "]",
     "model: refusal 12 at station 2", ["MODEL:32: { to", "There are 17"]),
    ("every = [3, 5]", "every = [3, 5", "model: refusal 2 at station 0",
     ["MODEL:7: every = [3, 5", "MODEL:8: jobs", "`]` is missing"]),
    ("name = \"wait\"", "name = \"wait", "model: refusal 2 at station 0",
     ["MODEL:29: name", "Column 8:", "no closing \""]),
    ("name = \"wait\"", "name = \"wait\"\nname = \"w\"", "model: refusal 2 at station 0",
     ["MODEL:29:", "MODEL:30:", "defined twice"]),
    ("room = 5", "room = 05", "model: refusal 2 at station 0",
     ["MODEL:14:", "Column 8: `05` is no value: a number has no leading zero"]),
    ("room = 5", "room == 5", "model: refusal 2 at station 0", ["MODEL:14:", "Column 7:", "a value is missing"]),
    ("room = 5", "room 5", "model: refusal 2 at station 0", ["MODEL:14:", "`=` is missing"]),
    ("room = 5", "room = 5 jobs = 3", "model: refusal 2 at station 0",
     ["MODEL:14:", "`jobs` is too much in this line"]),
    ("room = 5", "room = 99999999999999999999", "model: refusal 2 at station 0", ["MODEL:14:", "signed 64-bit"]),
    ("[[station]]", "[station]", "model: refusal 2 at station 0", ["MODEL:10: [station]", "`[[station]]`"]),
    ("[[station.link]]", "[station.link]", "model: refusal 2 at station 0",
     ["MODEL:25: [station.link]", "`[[station.link]]`"]),
    ("# A desk", "# A d\ufffdsk", "model: refusal 2 at station 0", ["MODEL:1:", "Column 6: the byte 0xff is no UTF-8"]),
    ("station", "stations", "model: refusal 5 at station 0 key stations", ["MODEL:4: [[stations]]", "mean `station`?"]),
]

# of each mistake: what is replaced in the script by what, the error line, and what the explanation has
SCRIPT_MISTAKES = [
    ("# What", "# Wh\u00e4t", "script: refusal 2 at line 1",
     ["Column 5: the byte 0xc3, the first of the character '\u00e4'"]),
    ("# What", "\ufeff# What", "script: refusal 2 at line 1", ["Column 1: the byte 0xef, a byte order mark"]),
    ("# What", "# Wh\ufffdt", "script: refusal 2 at line 1", ["Column 5: the byte 0xff."]),
    ("# What", "What", "script: refusal 3 at line 1", ["Column 1: `What` begins no line"]),
    ("fork fast", "frok fast", "script: refusal 3 at line 2", ["SCRIPT:2: frok", "mean `fork`?"]),
    ("fork fast from", "fork fast", "script: refusal 3 at line 2",
     ["Column 11: `base` is where `from` belongs", "`fork NEW from OLD`"]),
    ("fork fast", "fork Fast", "script: refusal 3 at line 2", ["`Fast` is no name for NEW", "`fast` would be a name"]),
    ("set fast at 8", "set fast 8", "script: refusal 3 at line 3", ["Column 10: `8` is where `at` belongs"]),
    ("at 8 desk", "at desk 8", "script: refusal 3 at line 3", ["Column 13: `desk` is where the time belongs"]),
    ("service 2 2", "servise 2 2", "script: refusal 3 at line 3",
     ["Column 20: `servise` is no parameter", "mean `service`?"]),
    ("service 2 2", "service 2", "script: refusal 3 at line 3",
     ["After `2` the value B is missing", "STATION service A B"]),
    ("service 2 2", "service 2 2 # fast", "script: refusal 3 at line 3",
     ["Column 32: `#` is too much", "a line of its own"]),
    ("service 2 2", "", "script: refusal 3 at line 3", ["After `desk` PARAMETER is missing"]),
    ("at 8", "at 08", "script: refusal 4 at line 3", ["Column 13: `08` is no number: it has a leading zero"]),
    ("at 8", "at 8.5", "script: refusal 4 at line 3", ["`8.5` is no number", "whole number"]),
    ("service 2 2", "service +2 2,000", "script: refusal 4 at line 3",
     ["`+2` is no number: a number has no sign", "`2,000`", "separator"]),
    ("service 2 2", "service 2 4294967296", "script: refusal 4 at line 3", ["the greatest is 4,294,967,295"]),
    ("look brief desk", "look brief", "script: refusal 3 at line 10", ["After `brief` STATION is missing"]),
    ("end brief at 90", "end brief at soon", "script: refusal 4 at line 9", ["`soon` is no number: digits alone"]),
    ("analyst ben", "analyst ben bob", "script: refusal 3 at line 5", ["`bob` is too much"]),
    ("set fast", "set fats", "decision: refusal 3 at line 3",
     ["SCRIPT:3: set fats", "mean `fast`?", "SCRIPT:2: fork fast", "base, fast"]),
    ("fork fast from base\nset fast at 8 desk service 2 2", "set fast at 8 desk service 2 2\nfork fast from base",
     "decision: refusal 3 at line 2", ["SCRIPT:3: fork fast from base   (it is made here, after it is used)"]),
    ("fork two_clerks", "fork fast", "decision: refusal 4 at line 6",
     ["SCRIPT:2: fork fast from base   (it is made here)"]),
    ("fork two_clerks", "fork base", "decision: refusal 4 at line 6", ["`base` is there from the start"]),
    ("look brief", "set brief at 5 desk room 1\nlook brief", "decision: refusal 12 at line 10",
     ["SCRIPT:9: end brief at 90   (its end)"]),
    ("8 desk", "8 deks", "decision: refusal 6 at line 3", ["MODEL:11: name = \"desk\"", "mean `desk`?"]),
    ("service 2 2", "every 2 2", "decision: refusal 7 at line 3",
     ["MODEL:12: kind = \"server\"", "takes `service A B`, `servers A`, `room A`", "`every` is taken by a source"]),
    ("8 desk service 2 2", "8 out room 2", "decision: refusal 7 at line 3",
     ["MODEL:38: kind = \"sink\"", "takes no set"]),
    ("servers 3", "servers 30", "decision: refusal 8 at line 7", ["The range of `servers A`: 1 <= A <= 16"]),
    ("service 2 2", "service 3 2", "decision: refusal 8 at line 3", ["mean `service 2 3`?"]),
    ("8 desk service 2 2", "8 check weight 3 2", "decision: refusal 8 at line 3",
     ["MODEL:21: [[station.link]]", "`check` has 2 links"]),
    ("at 8", "at 1000", "decision: refusal 10 at line 3",
     ["MODEL:3: horizon = 1000", "below the horizon, which is 1000"]),
]


def spoiled(text, old, new):
    """Returns the bytes of a text with a mistake; U+FFFD represents the byte 0xff."""
    if old not in text:
        raise ValueError(f"{old} is not there")
    count = -1 if old in ("station", "[[station]]", "[[station.link]]") else 1
    return text.replace(old, new, count).encode("utf-8").replace("\ufffd".encode("utf-8"), b"\xff")
