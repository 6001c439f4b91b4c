"""Awkward models, of a megabyte each where nothing else is said."""
import json
import random

from texts import MODEL, Text, counted, filled, random_bytes, short_name

SOLVE = "solve --budget 0 TEXT"
# Makes the ground problem and doesn't search; the log says nothing, so nothing is shown.
GROUND = "check TEXT empty.log"
EMPTY = {"empty.log": ""}

WORDS = ("enum class var as where forall in sum count { } ( ) ; , . .. + - * < <= = -> and or not "
         "a b 0 1 int bool ref [ ]").split()


def random_words(size):
    """Words of the language in no order."""
    made = random.Random(size)
    yield " ".join(made.choice(WORDS) for _ in range(size // 4)).encode()[:size]


def model(name, pieces, words=SOLVE, size=MODEL, beside=None):
    return Text(name, size, words, pieces, beside)


def said(text):
    """Pieces: a model that is so whatever the size."""
    return lambda size: [text.encode()]


def chain(use, share=1.0, reverse=False):
    """Pieces: classes that each derive from the one before, in a share of the size, the first with
    attributes x and y; `use` gives what stands behind, from the last one's name and the room."""

    def pieces(size):
        room = int(size * share) - 100
        made = ["class a0{var x as 0..9;var y as bool;}"]
        last = "a0"
        held = len(made[0])
        for number in range(1, size):
            name = f"{short_name(number)}_"
            text = f"class {name} extends {last}{{}}"
            held += len(text)
            if held > room:
                break
            made.append(text)
            last = name
        if reverse:
            made.reverse()
        yield "".join(made).encode()
        yield use(last, size - held - 200).encode()

    return pieces


def nested_quantifiers(objects, depth):
    """Pieces: so many quantifiers in one another, over a class of so many objects, many times."""
    heads = "".join(f"forall {short_name(n)}_ in C{{" for n in range(depth))
    unit = f"where {heads}true{';}' * depth};"
    return filled(f"class C{{}} var c as C[{objects}];", unit)


def inherited_names(last, room):
    """An inherited attribute, named in a constraint of the last class as often as there is room."""
    body = "where " + "x+" * 180 + "x>=0;"
    return f"class Last extends {last}{{" + body * (room // len(body)) + "} var z as Last;"


def branching(size):
    """Classes that each contain two of the next one: 2 to the n objects, if there were one."""
    parts = [f"class k{n}{{var a as k{n + 1};var b as k{n + 1};}}" for n in range(size // 45)]
    yield ("".join(parts) + f"class k{len(parts)}{{}}").encode()


def contained(size, end):
    """Classes that each contain the next one, and what stands for the last one's inside."""
    parts = [f"class k{n}{{var a as k{n + 1};}}" for n in range(size // 32)]
    yield ("".join(parts) + f"class k{len(parts)}{{{end}}} var k as k0;").encode()


TOKENS = [
    model("blanks", filled("", " ")),
    model("one comment", filled("//", "x")),
    model("one token, a name", filled("", "a")),
    model("one token, a number", filled("", "7")),
    model("bytes 0", filled("", b"\0")),
    model("bytes 255", filled("", b"\xff")),
    model("random bytes", random_bytes),
    model("random words of the language", random_words),
    model("one long name, of a variable", filled("var ", "a", " as bool;")),
    model("one long name, of a class", filled("class ", "a", "{}")),
]

NESTED = [model(f"`{unit}` in one another", filled(f"where {head}", unit)) for head, unit in [
    ("", "("), ("", "not "), ("", "-"), ("x", ".x"), ("", "true->"), ("", "1+"), ("", "{"),
    ("", "forall a in A{"), ("", "pack a in A{")]]
NESTED += [
    model("`class A{` in one another", filled("", "class A{")),
    model("199 parentheses, again and again", filled("", f"where {'(' * 199}true{')' * 199};")),
    model("190 operators, again and again", filled("", f"where {'1+' * 190}1>0;")),
    model("60 quantifiers over nobody", nested_quantifiers(0, 60)),
    model("60 quantifiers over one object", nested_quantifiers(1, 60)),
    model("60 quantifiers over two objects", nested_quantifiers(2, 60)),
    model("190 quantifiers over one object", nested_quantifiers(1, 190)),
]

DECLARED = [
    model("100,000 short constraints", counted(
        "var a as bool;", lambda n: "where a;", "", 100_000)),
    model("short classes", counted("", lambda n: f"class {short_name(n)}{{}}")),
    model("short enumerations", counted("", lambda n: f"enum {short_name(n)}{{a}}")),
    model("20,000 variables", counted("", lambda n: f"var {short_name(n)} as bool;", "", 20_000)),
    model("variables beyond 20,000", counted("", lambda n: f"var {short_name(n)} as bool;")),
    model("objectives", filled("var x as 0..9;", "minimize x;")),
    model("values of an enumeration", counted(
        "enum E{z", lambda n: f",{short_name(n + 53)}", "} var e as E;")),
    model("values of an enumeration, 9,000 variables", lambda size: [
        b"enum E{z" + "".join(f",{short_name(n + 53)}" for n in range(size // 9)).encode() + b"}",
        "".join(f"var v{n} as E;" for n in range(size * 9000 // MODEL)).encode()]),
    model("a class with 10,000 attributes", counted(
        "class Class{", lambda n: f"var {short_name(n)} as bool;", "} var c as Class;", 10_000)),
    model("a class with 10,000 attributes, two objects", counted(
        "class Class{", lambda n: f"var {short_name(n)} as bool;", "} var c as Class[2];", 10_000)),
    model("attributes, no object", counted("class Class{", lambda n: f"var {short_name(n)} as bool;",
                                           "}")),
    model("attributes, 10,000 objects", counted(
        "class Class{", lambda n: f"var {short_name(n)} as bool;", "} var c as Class[10000];")),
    model("the name of the last of many, twice", counted(
        "", lambda n: f"class {short_name(n)}{{}}", "class a{}")),
]

CLASSES = [
    model("a chain of 10,000 classes", chain(lambda last, room: f"var z as {last};", 0.24)),
    model("a chain of classes", chain(lambda last, room: f"var z as {last};")),
    model("a chain of classes, the last first", chain(lambda last, room: f"var z as {last};", 1.0,
                                                      True)),
    model("a chain of classes that closes", lambda size: ["".join(
        f"class k{n} extends k{n + 1}{{}}" for n in range(size // 32)).encode(),
        f"class k{size // 32} extends k0{{}}".encode()]),
    model("inherited names below 10,000 classes", chain(inherited_names, 0.24)),
    model("inherited names below a chain of half the text", chain(inherited_names, 0.5)),
    model("10,000 objects below 10,000 classes", chain(
        lambda last, room: f"var z as {last}[10000];", 0.24)),
    model("10,000 objects below a chain of classes", chain(
        lambda last, room: f"var z as {last}[10000];")),
    model("the same, and 20 quantifiers over a class without objects", chain(
        lambda last, room: f"var z as {last}[10000];class Nobody{{}}"
        + "where forall a in Nobody{true;};" * 20, 0.9)),
    model("classes that contain the next", lambda size: contained(size, "")),
    model("classes that contain in a circle", lambda size: contained(size, "var a as k0;")),
    model("classes that contain two of the next", branching),
]


def leaves_without_cells(size):
    """10,000 objects with attributes that have no cells."""
    parts = "".join(f"var {short_name(n)} as ref Empty[0];" for n in range(size // 25))
    yield f"class Empty{{}} class Class{{{parts}}} var c as Class[10000];".encode()


def long_keys(size):
    """10,000 objects with an attribute of a long name."""
    yield b"class C{var " + b"a" * (size - 60) + b" as 1..1;} var c as C[10000];"


def long_paths(size):
    """References to an object with a long path, in half of the text."""
    yield b"class B{} class A{var " + b"a" * (size // 2) + b" as B;} var k as A;"
    yield "".join(f"var {short_name(n)}_ as ref B;" for n in range(size // 2 // 18)).encode()


def gaps(size):
    """20,000 references to a class whose objects have gaps between them."""
    racks = 5000 * size // MODEL
    yield f"class H{{}} class R{{var h as H;}} var r as R[{racks}];".encode()
    yield "".join(f"var {short_name(n)}_ as ref H;" for n in range(4 * racks)).encode()


def placed():
    """A former text in which each of the 20,000 references names an object."""
    values = {f"{short_name(n)}_": f"r[{n % 5000}].h" for n in range(20_000)}
    return json.dumps({"r": [{"h": {}}] * 5000, **values})


def scaled(text, **counts):
    """Pieces: a text with numbers that go with the size."""

    def pieces(size):
        made = {}
        for name, value in counts.items():
            made[name] = int(value * size / MODEL)
        yield text(**made).encode()

    return pieces


def known(times):
    asked = "where count s in Service { this in s.hosts } <= 2; " * times
    return (f"class Host {{ {asked}}} class Service {{ var hosts as ref Host[3]; }} "
            "var hosts as Host[5000]; var services as Service[3];")


def chosen(calls):
    return ("class Host { } class Service { var hosts as ref Host[3]; } "
            "class Call { var main as ref Host; var peer as ref Service; var other as ref Service; "
            "where main in peer.hosts; where not (main in other.hosts); } "
            "var hosts as Host[80]; var services as Service[100]; " f"var calls as Call[{calls}];")


def single(objects):
    asked = "where forall b in One { b.x = y; }; " * 39
    return (f"class One {{ var x as 0..9; }} class A {{ var y as 0..9; {asked}}} "
            f"var one as One; var a as A[{objects}];")


def listed(times):
    asked = "where this in home.items; " * times
    return (f"class Item {{ {asked}}} class Home {{ var items as Item[5000]; }} "
            "var home as Home;")


def different(objects):
    return (f"class X {{ var v as 1..2000; }} var x as X[{objects}]; "
            "where alldifferent a in X { a.v };")


def packing(machines):
    return ("class Host { var cap as 8..16; } class Vm { var size as 1..4; var host as ref Host; } "
            f"var hosts as Host[400]; var machines as Vm[{machines}]; "
            "where pack v in Vm { v.host; v.size; v.host.cap; };")


def objectives(goals):
    """Variables whose values are known, each with an objective that could be better."""
    return "".join(f"var v{n} as 0..1;where v{n}=1;minimize v{n};" for n in range(goals))


def through(picks):
    """References through references, to a class whose objects have gaps between them."""
    return ("class H {} class R { var h as H; } var r as R[2400]; class A { var r as ref H; } "
            "class P { var x as ref A; var y as ref H; where x.r = y; } "
            f"var a as A[4700]; var p as P[{picks}];")


def wide_enumeration(objects):
    values = ",".join(short_name(n + 53) for n in range(100_000))
    return f"enum E{{{values}}} class C{{var e as E;}} var c as C[{objects}];"


LARGE = [
    model("10,000 objects, leaves without cells", leaves_without_cells, SOLVE, MODEL // 40),
    model("10,000 objects, more leaves without cells", leaves_without_cells),
    model("10,000 objects, an attribute of a name of 53,000 bytes", long_keys, SOLVE, 53_060),
    model("10,000 objects, an attribute of a longer name", long_keys),
    model("5,700 objectives on as many variables", scaled(objectives, goals=5_700)),
    model("20,000 objectives on as many variables", scaled(objectives, goals=20_000)),
    model("references to an object of a long path", long_paths),
    model("20,000 references to a class with 5,000 gaps", gaps),
    model("the same, a repair", gaps, "reconfigure --budget 0 TEXT former.json r[0]", MODEL,
          {"former.json": "{}"}),
    model("the same, a repair of a placement", gaps,
          "reconfigure --budget 0 TEXT former.json r[0]", MODEL, {"former.json": placed()}),
    model("the same, a session of two failures", gaps,
          "session --budget 0 TEXT former.json events", MODEL,
          {"former.json": "{}", "events": "fail r[0]\nfail r[1]\n"}),
    model("270 references through references to a class with 2,400 gaps",
          scaled(through, picks=270), GROUND, MODEL, EMPTY),
    model("10,000 variables of 100,000 values", scaled(wide_enumeration, objects=10_000)),
    model("`limit-known`: 14 questions, sets of 5,000", scaled(known, times=14), GROUND, MODEL,
          EMPTY),
    model("`limit-chosen`: 4,000 questions, 100 sets of 80", scaled(chosen, calls=4000), GROUND,
          MODEL, EMPTY),
    model("`limit-single`: 195,000 quantifiers over one", scaled(single, objects=5000), GROUND,
          MODEL, EMPTY),
    model("`limit-listed`: 66 questions, a list of 5,000", scaled(listed, times=66), GROUND, MODEL,
          EMPTY),
    model("`limit-different`: 1,400 values", scaled(different, objects=1400), GROUND, MODEL, EMPTY),
    model("`limit-packing`: 750 machines, 400 hosts", scaled(packing, machines=750), GROUND, MODEL,
          EMPTY),
]

TEXTS = TOKENS + NESTED + DECLARED + CLASSES + LARGE
