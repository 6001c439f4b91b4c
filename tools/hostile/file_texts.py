"""Awkward former texts of 16 MiB, texts of events of a megabyte, and words."""
from texts import FORMER, MODEL, Text, counted, filled, random_bytes, separated

HOSTS = """class Host { var cap as 2..2; where count v in Vm { v.host = this } <= cap; }
class Vm { var host as ref Host; } var hosts as Host[2]; var vms as Vm[2];
"""
# Two sets that may have each of 9,990 objects, and 20 leaves beside.
SETS = """class H { } class S { var some as ref H[9990]; var more as ref H[5000]; }
var h as H[9990]; var s as S;
"""
DEEP = "class K0 { } " + " ".join(
    f"class K{n} {{ var a as K{n - 1}; }}" for n in range(1, 60)
) + " class R { var to as ref K0; } var a as K59; var r as R;"
LONG = "n" * 10_000
BESIDE = {"hosts.conf": HOSTS, "sets.conf": SETS, "deep.conf": DEEP, "hosts.json": "{}",
          "long.conf": f"class H {{ }} class R {{ var to as ref H; }} var {LONG} as H; "
                       "var other as H; var r as R;"}
REPAIR = "reconfigure --budget 0 {model} TEXT"
VERIFY = "verify {model} TEXT"


def former(name, pieces, model="hosts.conf", words=REPAIR):
    return Text(name, FORMER, words.format(model=model), pieces, BESIDE)


def events(name, pieces, model="hosts.conf"):
    return Text(name, MODEL, f"session --budget 0 {model} hosts.json TEXT", pieces, BESIDE)


def nested_arrays(depth):
    """Pieces: arrays in one another, so many at a time, in a long list of them."""
    return separated('{"vms":[', "[" * depth + "]" * depth, ",", "]}")


FORMERS = [
    former("blanks", filled("", " ")),
    former("random bytes", random_bytes),
    former("`[` in one another", filled("", "[")),
    former("`{\"a\":` in one another", filled("", '{"a":')),
    former("arrays, 120 in one another, in a list", nested_arrays(120)),
    former("a list of empty arrays", separated('{"vms":[', "[]", ",", "]}")),
    former("a list of empty objects", separated('{"vms":[', "{}", ",", "]}")),
    former("a list of objects with an empty key", separated('{"vms":[', '{"":0}', ",", "]}")),
    former("a list of truths", separated('{"vms":[', "true", ",", "]}")),
    former("one key", filled('{"', "k", '":0}')),
    former("many keys", counted("{", lambda n: f'"{n}":0,', '"":0}')),
    former("the same key", separated("{", '"a":0', ",", "}")),
    former("the same key, of a list that counts", separated(
        "{", '"vms":[{"host":"hosts[1]"}]', ",", "}")),
    former("keys that differ at their ends", counted(
        "{", lambda n: f'"{"k" * 200}{n}":0,', '"":0}')),
    former("one string", filled('{"vms":[{"host":"', "h", '"}]}')),
    former("a path of many names", filled('{"r":{"to":"a', ".a", '"}}'), "deep.conf"),
    former("a path of many indexes", filled('{"vms":[{"host":"hosts', "[0]", '"}]}')),
    former("a path with a long index", filled('{"vms":[{"host":"hosts[', "9", ']"}]}')),
    former("many short strings", separated('{"vms":[', '""', ",", "]}")),
    former("escapes `\\u0041`", filled('{"vms":[{"host":"', "\\u0041", '"}]}')),
    former("escapes `\\n`", filled('{"vms":[{"host":"', "\\n", '"}]}')),
    former("escaped pairs of surrogates", filled('{"', "\\ud83d\\ude00", '":0}')),
    former("half a pair, at the end", filled('{"', "\\ud83d\\ude00", '\\ud83d":0}')),
    former("bytes that are no UTF-8", filled('{"', b"\xc3", '":0}')),
    former("numbers of a digit", separated('{"vms":[', "7", ",", "]}")),
    former("one number of many digits", filled('{"a":', "7", "}")),
    former("one number of many noughts", filled('{"a":1', "0", "}")),
    former("one fraction of many digits", filled('{"a":0.', "7", "}")),
    former("one fraction of many noughts", filled('{"a":0.', "0", "1}")),
    former("one exponent of many digits", filled('{"a":0e', "7", "}")),
    former("fractions", separated('{"a":[', "0.12345678901234567", ",", "]}")),
    former("exponents", separated('{"a":[', "1.7976931348623157e308", ",", "]}")),
    former("a set with one member, again and again", separated(
        '{"s":{"some":[', '"h[0]"', ",", "]}}"), "sets.conf"),
    former("a set with all members and more", counted(
        '{"s":{"some":[', lambda n: f'"h[{n}]",', '"h[0]"]}}'), "sets.conf"),
    former("`verify`, a list of empty objects", separated('{"vms":[', "{}", ",", "]}"),
           words=VERIFY),
    former("`verify`, many keys", counted("{", lambda n: f'"{n}":0,', '"":0}'), words=VERIFY),
]

EVENTS = [
    events("line feeds", filled("", "\n")),
    events("random bytes", random_bytes),
    events("one line, with no end", filled("fail ", "a")),
    events("one line", filled("fail ", "a", "\n")),
    events("events of one object", filled("", "fail hosts[0]\n")),
    events("100 events, and one long line", filled("repair hosts[0]\n" * 99 + "fail ", "a", "\n")),
    events("100 events of long paths", lambda size: [f"fail {LONG}\n".encode() * (size // 10_485)],
           "long.conf"),
    events("one path of many names", filled("fail a", ".a", "\n"), "deep.conf"),
    events("one path of many indexes", filled("fail hosts", "[0]", "\n")),
    events("one path with a long index", filled("fail hosts[", "9", "]\n")),
]

WORDS = [
    Text("10,000 failed words", MODEL, "reconfigure hosts.conf hosts.json " + "hosts[0] " * 10_000,
         filled("", " "), BESIDE),
    Text("10,000 options", MODEL, "solve hosts.conf " + "--budget=1 " * 10_000, filled("", " "),
         BESIDE),
]
