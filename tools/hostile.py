#!/usr/bin/env python3
"""Runs the program on hostile models and scripts, and tests what it says, and how soon.

    tools/hostile.py [--bin FILE] [--seconds N] [ROW ..]

Each row has a model, a script or a snapshot, and for `watch` a file of watches. It states the status, the error line,
and how the output of a finished run ends. A row fails if it ends otherwise, if anything is on the output after a
refusal, or if it takes longer than N seconds of processor time. N is 1 by default; the last row, the largest study, has
no bound. A line for each row has its time and peak memory. The status is 1 if a row failed.
"""
import argparse
import os
import sys
import tempfile
from collections import namedtuple
from pathlib import Path

HERE = Path(__file__).resolve().parent
BUILT = HERE.parent / "crates" / "cloner_cli" / "out" / "cloner_cli"
MAX_BYTES = 1_048_576

GATE = b'[[station]]\nname = "gate"\nkind = "source"\nevery = [3, 3]\njobs = 2\nlink = [{ to = "desk", delay = 2 }]\n'
DESK = b'[[station]]\nname = "desk"\nkind = "server"\nservers = 1\nroom = 5\nservice = [4, 4]\nlink = [{ to = "out", delay = 2 }]\n'
OUT = b'[[station]]\nname = "out"\nkind = "sink"\n'
HEAD = b"lookahead = 2\nhorizon = 20\n"
ONE_DESK = HEAD + GATE + DESK + OUT
ONE_DESK_REPORT = b"total handled=8 alone=8\n"
SNAPSHOT = b"""snapshot base front 10 end -
station 1 next 4 drawn 2 handled 2 source 3 3 2
station 2 next 3 drawn 2 handled 3 server 1 5 4 4 1 1 0 line 0
station 3 next 0 drawn 0 handled 0 sink 0 0
pending 2
11 2 1 3 job 1.0.3
13 2 2 2 done 1.1.6
trace 0
"""
SOURCE, SERVER, SINK = SNAPSHOT.splitlines(True)[1:4]
MESSAGES = SNAPSHOT[SNAPSHOT.index(b"pending"):]
# The latest time until which the busy desk has a snapshot of at most MAX_BYTES bytes, as the slow simulator finds it.
LAST_SHORT = 4867

# The second file is a script or a snapshot, the third one the watches. An error line that is None may be any of the
# status, an end that is None any output.
Row = namedtuple("Row", "name model second status line end mode third options", defaults=("run", None, ()))


def spin(horizon):
    """A router that sends one job to itself for ever."""
    return (b"lookahead = 1\nhorizon = %d\n" % horizon
            + b'[[station]]\nname = "gate"\nkind = "source"\nevery = [1, 1]\njobs = 1\nlink = [{ to = "spin", delay = 1 }]\n'
            + b'[[station]]\nname = "spin"\nkind = "router"\nby = "turn"\nlink = [{ to = "spin", delay = 1 }]\n')


def web(stations, links):
    """A source, and routers by weights with this number of links each, of which one in many leads out."""
    text = [b"lookahead = 1\nhorizon = 8000\nlimit = 65536\n"
            b'[[station]]\nname = "gate"\nkind = "source"\nevery = [1, 3]\njobs = 2000\nlink = [{ to = "s2", delay = 1 }]\n']
    for s in range(2, stations):
        to = b", ".join(b'{ to = "%s", delay = %d }' % (b"out" if k == 0 else b"s%d" % ((s * 7 + k * 5) % (stations - 2) + 2), k + 1)
                        for k in range(links))
        text.append(b'[[station]]\nname = "s%d"\nkind = "router"\nby = "weights"\nlink = [%s]\n' % (s, to))
    return b"".join(text) + OUT


def busy_desk():
    """A desk at which something happens at each of 20,000 times, with one job waiting at most."""
    return (b"lookahead = 1\nhorizon = 20002\nlimit = 65536\n"
            + b'[[station]]\nname = "gate"\nkind = "source"\nevery = [1, 1]\njobs = 20000\nlink = [{ to = "desk", delay = 1 }]\n'
            + DESK.replace(b"service = [4, 4]", b"service = [1, 1]") + OUT)


def crowd(clones, sets, station):
    """This number of clones, all but `base` with this number of sets each, which come late."""
    text = []
    for c in range(1, clones):
        text.append(b"fork c%d from base\n" % c)
    left = 4096 - (clones - 1)
    for k in range(sets):
        for c in range(1, clones):
            if left == 0:
                return b"".join(text)
            text.append(b"set c%d at %d %s every %d %d\n" % (c, 2000 + c * 7 + k, station, 1, 2 + (c + k) % 5))
            left -= 1
    return b"".join(text)


def rows():
    """The rows, the first six of their fields as a tuple where the mode is `run`."""
    yield "a router that spins", spin(100_000), b"", 7, b"cloner: limit 16384 met at station spin in clone base\n", None
    yield ("a router that spins up to the limit", spin(16_386), b"", 0, b"",
           b"report\ngate copies=1 handled=1 alone=1\nspin copies=1 handled=16384 alone=16384\ntotal handled=16385 alone=16385\n")
    yield "256 sets", ONE_DESK, b"set base at 8 desk room 5\n" * 256, 0, b"", b"total handled=264 alone=264\n"
    yield ("257 sets", ONE_DESK, b"set base at 8 desk room 5\n" * 257, 6,
           b"cloner: decision: refusal 9 at line 257\n", None)
    yield "4,096 looks", ONE_DESK, b"look base desk\n" * 4096, 0, b"", ONE_DESK_REPORT
    yield "4,097 looks", ONE_DESK, b"look base desk\n" * 4097, 5, b"cloner: script: refusal 5 at line 4097\n", None
    forks = b"".join(b"fork c%d from base\n" % c for c in range(1, 257))
    yield "255 forks", ONE_DESK, b"".join(forks.splitlines(True)[:255]), 0, b"", b"total handled=8 alone=2048\n"
    yield "256 forks", ONE_DESK, forks, 6, b"cloner: decision: refusal 5 at line 256\n", None
    analysts = b"".join(b"analyst a%d\n" % a for a in range(1, 18))
    yield "the analyst that is one too many", ONE_DESK, analysts, 5, b"cloner: script: refusal 6 at line 16\n", None
    yield "a script that is too long", ONE_DESK, b"#" * (MAX_BYTES + 1), 5, b"cloner: script: refusal 1 at line 0\n", None
    yield "a script of one long comment", ONE_DESK, b"#" * MAX_BYTES, 0, b"", ONE_DESK_REPORT
    yield "a script of empty lines", ONE_DESK, b"\n" * MAX_BYTES, 0, b"", ONE_DESK_REPORT
    yield "byte 200 in a comment", ONE_DESK, b"\n# \xc8\n", 5, b"cloner: script: refusal 2 at line 2\n", None
    yield "a word of a megabyte", ONE_DESK, b"set " + b"a" * (MAX_BYTES - 4), 5, b"cloner: script: refusal 3 at line 1\n", None
    no_toml = b"cloner: model: refusal 2 at station 0\n"
    yield "a model that is too long", b" " * (MAX_BYTES + 1), b"", 4, b"cloner: model: refusal 1 at station 0\n", None
    yield "a megabyte of [", b"x = " + b"[" * (MAX_BYTES - 4), b"", 4, no_toml, None
    yield "a megabyte of {", b"x = " + b"{a=" * ((MAX_BYTES - 4) // 3), b"", 4, no_toml, None
    yield "a megabyte of quotes", b'x = "' + b"'" * (MAX_BYTES - 5), b"", 4, no_toml, None
    yield "a megabyte of zero bytes", b"\0" * MAX_BYTES, b"", 4, no_toml, None
    keys = b"".join(b"k%06d=1\n" % k for k in range(100_000))
    yield "100,000 keys", keys + HEAD, b"", 4, b"cloner: model: refusal 5 at station 0 key k000000\n", None
    yield ("one key of a megabyte", b"a" * (MAX_BYTES - 2) + b"=1", b"", 4,
           b"cloner: model: refusal 5 at station 0 key " + b"a" * 32 + b"\n", None)
    yield "a dotted key of half a million parts", b"a" + b".a" * ((MAX_BYTES - 4) // 2) + b"=1", b"", 4, None, None
    yield "87,000 tables", b"[[station]]\n" * 87_000 + HEAD, b"", 4, None, None
    yield from watch_rows()
    yield from save_rows()
    yield from refused_snapshots()
    yield from accepted_snapshots()
    yield "64 stations with 16 links, 256 clones with full lists", web(64, 16), crowd(256, 256, b"gate"), 0, b"", None


def watch_rows():
    """The rows for `watch`."""
    in_vain = b"".join(b"watch base desk wait 4294967295 fork w%d set desk room 5\n" % k for k in range(256))
    at_once = in_vain.replace(b"4294967295", b"0")
    chain = b"".join(b"watch %s desk wait 0 fork w%d set desk room 5\n" % (b"w%d" % (k - 1) if k else b"base", k)
                     for k in range(255))
    for name, watches, line in [("that is too long", b"#" * (MAX_BYTES + 1), b"watches: refusal 1 at line 0"),
                                ("with one too many", in_vain, b"watches: refusal 5 at line 256"),
                                ("with a word of a megabyte", b"watch " + b"a" * (MAX_BYTES - 6), b"watches: refusal 3 at line 1"),
                                ("with a clone too many", at_once.partition(b"\n")[2], b"watch: refusal 5 at line 255")]:
        yield f"a file of watches {name}", ONE_DESK, b"fork fast from base\n", 9, b"cloner: %s\n" % line, None, "watch", watches
    for name, model, watches, handled, alone in [
            ("that are due at once", ONE_DESK, at_once.partition(b"\n")[2], 12, 2303),
            ("in a chain", ONE_DESK, chain, 22, 92),
            ("of a long log, in vain", busy_desk(), in_vain.partition(b"\n")[2], 79996, 79996)]:
        end = b"total handled=%d alone=%d\n" % (handled, alone)
        yield f"255 watches {name}", model, b"", 0, b"", end, "watch", watches


def save_rows():
    """The rows for `save`: the length of the snapshot, and the limit before the front."""
    for name, model, until, status, line, end in [
            ("as long as it may be", busy_desk(), LAST_SHORT, 0, b"", None),
            ("a little longer than it may be", busy_desk(), LAST_SHORT + 1, 11, b"cloner: snapshot too long\n", None),
            ("much longer than it may be", busy_desk(), 4294967295, 11, b"cloner: snapshot too long\n", None),
            ("of a router that spins, before the limit", spin(100_000), 16386, 0, b"",
             b"16385 spin spin 16382 job gate.0 passed=16384\n"),
            ("of a router that spins, at the limit", spin(100_000), 16387, 7,
             b"cloner: limit 16384 met at station spin in clone base\n", None)]:
        options = ("--clone", "base", "--until", str(until))
        yield f"a snapshot {name}", model, b"", status, line, end, "save", None, options


def with_messages(lines):
    """The snapshot with other messages."""
    return SNAPSHOT.replace(MESSAGES, b"pending %d\n" % len(lines) + b"".join(lines) + b"trace 0\n")


def refused_snapshots():
    """The rows for snapshots that are refused: counts that are lies, long lines, numbers of many digits."""
    half = SNAPSHOT.replace(b"trace 0\n", b"")
    ends = [b"11 2 1 2 done 1.0.3\n", b"13 2 2 2 done 1.1.6\n"]
    jobs, unfit = (MAX_BYTES - len(SNAPSHOT)) // 6 - 2, SNAPSHOT.replace(b"handled 3", b"handled 16385")
    for name, text, refusal in [
            ("that is empty", b"", b"2 at 1"),
            ("that is too long", b"y" * (MAX_BYTES + 1), b"1 at 0"),
            ("of a megabyte of line ends", b"\n" * MAX_BYTES, b"2 at 1"),
            ("of a megabyte of zero bytes", b"\0" * MAX_BYTES, b"2 at 1"),
            ("of a megabyte of spaces", b"snapshot" + b" " * (MAX_BYTES - 8), b"2 at 1"),
            ("with a name of a megabyte", b"snapshot " + b"a" * (MAX_BYTES - 9), b"2 at 1"),
            ("with more messages than there are", SNAPSHOT.replace(b"pending 2", b"pending 4294967295"), b"2 at 8"),
            ("with many messages and none of them", SNAPSHOT[:SNAPSHOT.index(b"pending")] + b"pending 4294967295\n",
             b"2 at 6"),
            ("with more lines than there are", SNAPSHOT.replace(b"trace 0", b"trace 4294967295"), b"2 at 9"),
            ("with more lines than a number says", SNAPSHOT.replace(b"trace 0", b"trace 4294967296"), b"2 at 8"),
            ("with 10,000,000,000 messages", SNAPSHOT.replace(b"pending 2", b"pending 10000000000"), b"2 at 5"),
            ("with a number of a megabyte", SNAPSHOT.replace(b"next 3", b"next " + b"9" * (MAX_BYTES - len(SNAPSHOT))),
             b"2 at 3"),
            ("with zeros before a number", SNAPSHOT.replace(b"next 3", b"next " + b"0" * (MAX_BYTES - len(SNAPSHOT))),
             b"2 at 3"),
            ("with a sum of 65 bits", SNAPSHOT.replace(b"sink 0 0", b"sink 0 18446744073709551616"), b"2 at 4"),
            ("with a sum of 64 bits", SNAPSHOT.replace(b"sink 0 0", b"sink 0 18446744073709551615"), b"3 at 3"),
            ("with a line of a megabyte", half + b"trace 1\n" + b"y" * (MAX_BYTES - len(half) - 9) + b"\n", b"2 at 9"),
            ("with a job too many in line", SNAPSHOT.replace(b"line 0", b"line 4294967295 1.0.0"), b"2 at 3"),
            ("with 170,000 jobs in line", SNAPSHOT.replace(b"line 0", b"line %d" % jobs + b" 1.0.0" * jobs), b"3 at 2"),
            ("with 4,097 jobs in line", SNAPSHOT.replace(b"line 0", b"line 4097" + b" 1.0.0" * 4097), b"3 at 2"),
            ("with a time of 32 bits", SNAPSHOT.replace(b"13 2 2 2", b"2147483648 2 2 2"), b"4 at 1"),
            ("with a time of 33 bits", SNAPSHOT.replace(b"13 2 2 2", b"4294967296 2 2 2"), b"2 at 7"),
            ("with two ends of one service", with_messages(ends), b"4 at 1"),
            ("with a bad line after all else", SNAPSHOT.replace(b"front 10", b"front 99") + b"\n", b"2 at 9"),
            ("with a bad front before all else", unfit.replace(b"front 10", b"front 99"), b"6 at 0"),
            ("of another model", SNAPSHOT.replace(SERVER, b"station 2 next 0 drawn 0 handled 0 sink 0 0\n"), b"3 at 2"),
            ("with a station beyond the limit", unfit, b"3 at 2")]:
        yield f"a snapshot {name}", ONE_DESK, text, 10, b"cloner: snapshot: refusal %s\n" % refusal, None, "resume"


def accepted_snapshots():
    """The rows for snapshots that no run reaches and that are resumed as they are."""
    far = b"".join(b"%d 1 0 3 tick\n" % time for time in range(20, 50_020))
    ticks = [b"%d 1 %d 1 tick\n" % (time, time - 11) for time in (11, 12, 13)]
    strange = [b"11 1 0 3 tick\n", b"12 1 1 1 job 1.0.0\n", b"13 2 0 3 done 1.0.0\n",
               b"14 0 255 1 set room 4294967295\n", b"15 2 1 1 set every 4294967295 0\n"]
    sum_kept = SNAPSHOT.replace(SINK, b"station 3 next 0 drawn 0 handled 1 sink 0 281474976710655\n")
    for name, text, end in [
            ("with jobs made and nothing handled", SNAPSHOT.replace(b"handled 2 source", b"handled 0 source"),
             b"15 out desk 3 job gate.1 got=2 stay=17\n"),
            ("with the greatest sum", sum_kept, b"15 out desk 3 job gate.1 got=2 stay=281474976710672\n"),
            ("with three ticks and no job left", with_messages(ticks),
             b"13 gate gate 2 tick sent=5\n13 desk gate 4 job gate.2 busy=1 wait=1 done=1 lost=0\n"
             b"14 desk gate 5 job gate.3 busy=1 wait=2 done=1 lost=0\n"
             b"15 desk gate 6 job gate.4 busy=1 wait=3 done=1 lost=0\n"),
            ("with one number at two times", with_messages([b"11 2 1 3 job 1.0.3\n", b"12 2 1 3 job 1.0.3\n"]),
             b"clone base\n11 out desk 1 job gate.0 got=1 stay=8\n12 out desk 1 job gate.0 got=2 stay=17\n"),
            ("with a server that is never free", SNAPSHOT.replace(b"4 4 1 1 0", b"4 4 16 1 0"),
             b"13 desk desk 2 done gate.1 busy=15 wait=0 done=2 lost=0\n15 out desk 3 job gate.1 got=2 stay=17\n"),
            ("with a job that is not made yet", SNAPSHOT.replace(b"1.0.3", b"1.0.19"),
             b"11 out desk 1 job gate.0 got=1 stay=0\n13 desk desk 2 done gate.1 busy=0 wait=0 done=2 lost=0\n"
             b"15 out desk 3 job gate.1 got=2 stay=9\n"),
            ("with messages that nobody takes", with_messages(strange),
             b"clone base\n11 out gate 0 tick got=0 stay=0\n12 gate gate 1 job gate.0 sent=2\n"
             b"13 out desk 0 done gate.0 got=0 stay=0\n14 gate analyst 255 set room 4294967295 sent=2\n"
             b"15 gate desk 1 set every 4294967295 0 sent=2\n"),
            ("that ends at its front", SNAPSHOT.replace(b"end -", b"end 10"), b"clone base\n"),
            ("at time 0", SNAPSHOT.replace(b"front 10", b"front 0"), b"15 out desk 3 job gate.1 got=2 stay=17\n"),
            ("with a trace of lies", SNAPSHOT.replace(b"trace 0\n", b"trace 2\nclone base\n~\n"),
             b"clone base\nclone base\n~\n11 out desk 1 job gate.0 got=1 stay=8\n"
             b"13 desk desk 2 done gate.1 busy=0 wait=0 done=2 lost=0\n15 out desk 3 job gate.1 got=2 stay=17\n"),
            ("with 50,000 messages", SNAPSHOT.replace(MESSAGES, b"pending 50000\n" + far + b"trace 0\n"),
             b"clone base\n")]:
        yield f"a snapshot {name}", ONE_DESK, text, 0, b"", end, "resume"
    yield from long_snapshots()


def long_snapshots():
    """The rows for snapshots that are accepted, at the limit or of much work."""
    at_limit = SNAPSHOT.replace(b"handled 3", b"handled 16384")
    limit_line = b"cloner: limit 16384 met at station desk in clone base\n"
    yield "a snapshot at the limit", ONE_DESK, at_limit, 7, limit_line, None, "resume"
    wide = ONE_DESK.replace(b"horizon = 20\n", b"horizon = 1000000000\nlimit = 65536\n")
    wide = wide.replace(b"jobs = 2", b"jobs = 1000000")
    words = SNAPSHOT.replace(SOURCE, b"station 1 next 1048576 drawn 1048576 handled 65535 source 3 3 2\n")
    last = words.replace(MESSAGES, b"pending 1\n30 1 0 1 tick\ntrace 0\n")
    yield ("a snapshot with a million words drawn", wide, last, 7,
           b"cloner: limit 65536 met at station gate in clone base\n", None, "resume")
    ticks = b"".join(b"%d 1 0 3 tick\n" % time for time in range(30, 50_030))
    many = SNAPSHOT.replace(MESSAGES, b"pending 50000\n" + ticks + b"trace 0\n")
    yield ("a snapshot with 50,000 messages to handle", wide, many, 0, b"", b"\n50029 out gate 0 tick got=0 stay=0\n",
           "resume")
    head = SNAPSHOT.replace(b"trace 0\n", b"trace 5216\n")
    lines, last = divmod(MAX_BYTES - len(head), 201)
    text = head + (b"~" * 200 + b"\n") * lines + b"~" * (last - 1) + b"\n"
    yield ("a snapshot as long as it may be", ONE_DESK, text, 0, b"",
           b"15 out desk 3 job gate.1 got=2 stay=17\n", "resume")


def run(words):
    """Runs words: status, output, error line, processor seconds, peak memory in MB."""
    with tempfile.TemporaryFile() as out, tempfile.TemporaryFile() as err:
        child = os.posix_spawn(words[0], words, os.environ, file_actions=[
            (os.POSIX_SPAWN_DUP2, out.fileno(), 1), (os.POSIX_SPAWN_DUP2, err.fileno(), 2)])
        _, status, used = os.wait4(child, 0)
        out.seek(0)
        err.seek(0)
        code = os.waitstatus_to_exitcode(status)
        return code, out.read(), err.read(), used.ru_utime + used.ru_stime, used.ru_maxrss // 1024


def words_of(row, folder):
    """Writes the files of a row into a folder; the words after the program's name."""
    files = []
    for name, data in [("model", row.model), ("second", row.second), ("third", row.third)]:
        if data is not None:
            files.append(folder / name)
            files[-1].write_bytes(data)
    return [row.mode, *map(str, files), *row.options]


def tried(row, program, folder, most):
    """Whether a row ends as it must, within `most` seconds; prints how it ended."""
    code, out, err, seconds, memory = run([program, *words_of(row, folder)])
    well = code == row.status and (row.line is None or err == row.line) and (row.end is None or out.endswith(row.end))
    well = well and (row.status == 0 or (not out and err.count(b"\n") == 1))
    well = well and (seconds <= most or "full lists" in row.name)
    print(f"{'ok    ' if well else 'FAILED'} {row.name}: status {code}, {seconds:.2f} s, {memory} MB"
          + ("" if well else f"; {err[:120]!r}"), flush=True)
    return well


def main():
    """Runs the rows that are asked for, and says how each ended; status 1 where one failed."""
    parser = argparse.ArgumentParser(description="Runs `cloner` on hostile models, scripts, watches and snapshots.")
    parser.add_argument("--bin", type=Path, metavar="FILE", default=BUILT, help="the program; by default as built")
    parser.add_argument("--seconds", type=float, default=1, metavar="N", help="the most that a row may take; by default 1")
    parser.add_argument("names", nargs="*", metavar="ROW", help="names of rows; by default all")
    given = parser.parse_args()
    failed = count = 0
    with tempfile.TemporaryDirectory() as folder:
        for row in (Row(*fields) for fields in rows()):
            if not given.names or row.name in given.names:
                count += 1
                failed += not tried(row, str(given.bin.resolve()), Path(folder), given.seconds)
    print(f"{count} rows, {failed} failed")
    return 1 if failed else 0


if __name__ == "__main__":
    sys.exit(main())
