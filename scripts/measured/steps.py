"""Definitions in which one step meets much of something.

Each function makes, for a size, a definition and two lists of events. The first list makes a few such steps, and the second one many
(TIMES), and nothing else, so the difference of two runs is what these steps cost.
"""
from .parts import RETURN, TALLY, interfaces, numbered, numbers, one, places, program

FEW, MANY = 8, 58
TIMES = {"few": FEW, "many": MANY}
EMPTY = program("f", [], 1)
NUMBER = {"properties": [{"name": "n", "kind": "int"}, *numbers(16)]}
ONE = [["const", 1, "int", 1]]
SET = [["set", 0, "n", 1]]
LINK = {"properties": [{"name": "to", "kind": "object:GObject"}, {"name": "seen", "kind": "object:GObject", "weak": True}]}
IT = {"prototypes": [{"id": "it", "class": "Item"}], "classes": [{"name": "Item"}]}


def repeated(name, code, setup, kinds, named, times):
    """A program that carries out the code so many times. Register 0 has its object; then come the objects that are named, then what is set up."""
    given = ["some:Box", *(f"at:{it}" for it in named)]
    end = len(named) + 2
    blocks = [{"in": given[:i + 1], "code": [["object", i + 1, it], ["ifnull", i + 1, end, i + 1]]} for i, it in enumerate(named)]
    blocks += [{"in": given, "code": [*setup, ["jump", end - 1]]}, {"in": [*given, *kinds], "repeat": times, "code": [*code, ["jump", end]]}]
    blocks += [{"in": ["some:Box"], "code": [RETURN]}]
    del blocks[0]["in"]
    return {"name": name, "params": ["some:Box"], "registers": 8, "blocks": blocks}


def steps(code, setup=(), kinds=(), named=(), box=None, a=None, **more):
    """An object `a`, which repeats the code where the event says so. `box` is more of its class, and `a` more of the object."""
    box, a = dict(box or {}), dict(a or {})
    signals = [*({"name": it} for it in TIMES), *box.pop("signals", [])]
    handlers = [*({"name": it, "handler": it} for it in TIMES), *a.pop("signals", [])]
    programs = [repeated(it, code, setup, kinds, named, times) for it, times in TIMES.items()]
    definition = one([{"name": "Box", **box, "signals": signals}, *more.pop("classes", [])], limits={"objects": 4096, "handlers": 1},
                     programs=[*programs, *more.pop("programs", [])],
                     objects=[{"id": "a", "class": "Box", **a, "signals": handlers}, *more.pop("objects", [])], **more)
    return {**definition, "format": 2}, *([{"emit": ["a", it, []]}] for it in TIMES)


def asked(definition, event, before=()):
    """The same event, a few times and often. `event` may be a function of a number."""
    return definition, *([*before, *(event(i) if callable(event) else event for i in range(times))] for times in TIMES.values())


def boxes(n, box=None, **more):
    """So many objects of a class, which may have more."""
    return one([{"name": "Box", **(box or {})}], limits={"objects": 4096}, objects=places(n), **more)


# Values.


def additions(n):
    """An addition beside so many other programs of 400 instructions."""
    return steps([["add", 1, 1, 1]], ONE, ["int"], programs=[program(f"f{i}", [["const", 1, "int", 1]] * 400) for i in range(n)])


def conversions(n):
    """A number is converted to the last member of an enum of n."""
    members = [[f"M{i}", f"m{i}", i] for i in range(n)]
    code = [["convert", 2, 1, "enum:Mode"]]
    return steps(code, [["const", 1, "int", n - 1], *code], ["int", "enum:Mode"], enums=[{"name": "Mode", "members": members}])


def joins(n):
    """Two texts are joined to one of so many bytes."""
    return steps([["join", 2, 1, 1]], [["const", 1, "text", "x" * (n // 2)], ["join", 2, 1, 1]], ["text", "text"])


# Properties.


def sets(code=SET, box=None, **more):
    return steps(code, ONE, ["int"], box=box or NUMBER, **more)


def sets_among_objects(n):
    return sets(objects=places(n))


def sets_among_properties(n):
    return sets([["set", 0, f"p{n - 1}", 1]], {"properties": numbers(n)})


def gets_among_properties(n):
    return sets([["get", 1, 0, f"p{n - 1}"]], {"properties": numbers(n)})


def notifies_among_properties(n):
    return sets([["notify", 0, f"p{n - 1}"]], {"properties": numbers(n)})


def sets_beside_details(n):
    """Handlers of the notifications of other properties."""
    return sets(a={"signals": [{"name": "notify", "detail": f"p{i % 16}", "handler": "f"} for i in range(n)]}, programs=[EMPTY])


def sets_beside_bindings(n):
    """The object is the source of bindings of its other properties."""
    return sets(objects=places(n, properties=[{"name": f"p{k}", "bind": {"source": "a"}} for k in range(16)]))


def sets_in_the_depth(n):
    """So many tasks wait for the program, which runs at the end of a chain of bindings."""
    def bound(source):
        return [{"name": it, "bind": {"source": source}} for it in ("p0", "p1")]
    chain = places(1) + [{"id": f"o{i}", "class": "Box", "properties": bound(f"o{i - 1}")} for i in range(1, n)]
    heard = [{"name": "notify", "detail": f"p{i}", "handler": it} for i, it in enumerate(TIMES)]
    definition, *_ = sets(a={"properties": bound(f"o{n - 1}"), "signals": heard}, objects=chain)
    return definition, *([{"set": ["o0", it, 1]}] for it in ("p0", "p1"))


def sets_of_an_object(n):
    """A strong and a weak reference to an object that so many others refer to."""
    others = places(n, properties=[{"name": "to", "value": "a"}, {"name": "seen", "value": "a"}])
    return steps([["set", 0, "to", 0], ["set", 0, "seen", 0]], box=LINK, objects=others)


def freezes(n):
    """Notifications wait and are made, beside other objects."""
    return sets([["freeze", 0], *SET, ["thaw", 0]], objects=places(n))


# Objects.


def objects_by_id(n):
    return steps([["object", 1, f"o{n - 1}"]], [["object", 1, f"o{n - 1}"]], [f"at?:o{n - 1}"], objects=places(n))


def made_among_objects(n):
    """An object is made and ends, beside so many others."""
    return steps([["new", 1, "it"], ["clear", 1]], objects=places(n), **IT)


def made_among_prototypes(n):
    prototypes = [{"id": f"it{i}", "class": "Item"} for i in range(n)]
    return steps([["new", 1, f"it{n - 1}"], ["clear", 1]], prototypes=prototypes, classes=IT["classes"])


def made_with_peers(n):
    """An object takes the next of so many peers, and closes it."""
    prototypes = [{"id": "it", "class": "Item", "peers": [f"p{i:05}" for i in range(n + MANY)]}]
    return steps([["new", 1, "it"], ["clear", 1]], classes=[{"name": "Item", "shape": "Tally"}], shapes=[TALLY], prototypes=prototypes)


def adoptions(n, child=None):
    """One of so many children is taken out and adopted again."""
    child = n - 1 if child is None else child
    parent = {"id": "p", "class": "Box", "children": places(n)}
    return steps([["orphan", 2], ["adopt", 3, 1, 2]], [["const", 3, "bool", False]], ["bool"], ["p", f"o{child}"], objects=[parent])


def adoptions_of_two(n):
    """The first two of so many children are taken out and adopted again, so that the first is another each time."""
    parent = {"id": "p", "class": "Box", "children": places(n)}
    code = [[word, *more] for child in (2, 3) for word, *more in (["orphan", child], ["adopt", 4, 1, child])]
    return steps(code, [["const", 4, "bool", False]], ["bool"], ["p", "o0", "o1"], objects=[parent])


def sinks(n):
    return steps([["sink", 0]], objects=places(n))


def disposals(n):
    """An object that is disposed already is disposed again, beside so many others."""
    return steps([["dispose", 1]], named=["o0"], objects=places(n))


# Signals.

EMIT = [["emit", None, 0, "s", None, []]]
SIGNAL = {"signals": [{"name": "s"}]}


def emissions_among_signals(n):
    return steps([["emit", None, 0, f"s{n - 1}", None, []]], box={"signals": [{"name": it} for it in numbered("s", n)]})


def emissions_among_interfaces(n):
    return steps([["emit", None, 0, f"s{n - 1}-7", None, []]], box={"implements": [f"I{i:02}" for i in range(n)]}, interfaces=interfaces(n, 8))


def emissions_beside_blocked(n):
    """All handlers of the signal are blocked."""
    return steps(EMIT, [["block", 0, "f"]], box=SIGNAL, a={"signals": [{"name": "s", "handler": "f"}] * n}, programs=[EMPTY])


def emissions_beside_details(n):
    box = {"signals": [{"name": "s", "flags": ["run-last", "detailed"]}]}
    heard = [{"name": "s", "detail": f"x{i}", "handler": "f"} for i in range(n)]
    return steps([["emit", None, 0, "s", "y", []]], box=box, a={"signals": heard}, programs=[EMPTY])


def emissions_that_stop(n):
    """The first of so many handlers stops the emission."""
    stops = program("stops", [["stop"]], 1)
    return steps(EMIT, box=SIGNAL, a={"signals": [{"name": "s", "handler": it} for it in ["stops"] + ["f"] * n]}, programs=[stops, EMPTY])


def connections(n):
    """A handler is connected and disconnected beside so many others."""
    code = [["connect", 1, 0, "s", None, "g", [], None], ["disconnect", 0, "g"]]
    return steps(code, [["const", 1, "bool", False]], ["bool"], box=SIGNAL, a={"signals": [{"name": "s", "handler": "f"}] * n},
                 programs=[EMPTY, program("g", [], 1)])


def blocks(n, others=0):
    """So many handlers are blocked and unblocked, beside others."""
    heard = [{"name": "s", "handler": it} for it in ["g"] * n + ["f"] * others]
    return steps([["block", 0, "g"], ["unblock", 0, "g"]], box=SIGNAL, a={"signals": heard}, programs=[EMPTY, program("g", [], 1)])


def unbinds(n):
    """Bindings end, beside so many others."""
    total = n + FEW + MANY
    names = numbered("b", total)
    bound = [{"name": f"p{i % 16}", "bind": {"source": "a", "name": it}} for i, it in enumerate(names)]
    objects = [{"id": f"o{i}", "class": "Box", "properties": bound[16 * i:16 * i + 16]} for i in range(1 + (total - 1) // 16)]
    programs = [program("ends_few", [["unbind", it] for it in names[n:n + FEW]]), program("ends_many", [["unbind", it] for it in names[n + FEW:]])]
    handlers = [{"name": name, "handler": f"ends_{name}"} for name in TIMES]
    definition = one([{"name": "Box", **NUMBER, "signals": [{"name": it} for it in TIMES]}], limits={"objects": 4096}, programs=programs,
                     objects=[{"id": "a", "class": "Box", "signals": handlers}, *objects])
    return definition, *([{"emit": ["a", it, []]}] for it in TIMES)


# Sources and peers.


def ticking(name):
    return program(name, [["const", 0, "bool", True]], 1, (), "bool", 0)


def attached(n, source):
    """Programs of which one attaches so many sources of `other`."""
    return [program("attach", [source("other")] * n, 2), ticking("other"), ticking("tick")]


def sources(n, source, priority=9):
    """A source is attached and removed beside so many others."""
    box = {"signals": [{"name": "attach"}]}
    definition, few, many = steps([source("tick"), ["remove", "tick"]], [["const", 1, "bool", False]], ["bool"], box=box,
                                  a={"signals": [{"name": "attach", "handler": "attach"}]}, programs=attached(n, source))
    first = [{"emit": ["a", "attach", []]}]
    return definition, first + few, first + many


def idles(n):
    return sources(n, lambda name: ["idle", 1, name, 9, None])


def timeouts(n):
    return sources(n, lambda name: ["timeout", 1, name, 9, 1000, None])


def calls_among_peers(n):
    shaped = {"shape": "Tally"}
    objects = [{**it, "peer": f"q{i}"} for i, it in enumerate(places(n))]
    return steps([["call", 1, 0, "add", [1]]], [["const", 1, "int64", 1]], ["int64"], box=shaped, a={"peer": "t"}, objects=objects, shapes=[TALLY])


# Events.


def set_events(n):
    return asked(boxes(n, NUMBER), {"set": [f"o{n - 1}", "n", 1]})


def set_events_among_properties(n):
    return asked(boxes(1, {"properties": numbers(n)}), {"set": ["o0", f"p{n - 1}", 1]})


def get_events(n):
    return asked(boxes(n, NUMBER), {"get": [f"o{n - 1}", "n"]})


def emit_events(n):
    return asked(boxes(n, SIGNAL), {"emit": [f"o{n - 1}", "s", []]})


def emit_events_among_interfaces(n):
    box = {"implements": [f"I{i:02}" for i in range(n)]}
    return asked(boxes(1, box, interfaces=interfaces(n, 8)), {"emit": ["o0", f"s{n - 1}_7", []]})


def unknown_events(n):
    return asked(boxes(n, NUMBER), {"get": ["zoo", "n"]})


def release_events(n):
    """Objects are let go, beside so many others."""
    return asked(boxes(n + MANY), lambda i: {"release": f"o{i}"})


def turns(n, priority, interval):
    """A turn in which one idle runs, beside so many other sources."""
    heard = {"signals": [{"name": "go", "handler": "attach"}]}
    other = ["timeout", 1, "other", priority, interval, None] if interval else ["idle", 1, "other", priority, None]
    programs = [program("attach", [*[other] * n, ["idle", 1, "tick", 0, None]], 2), ticking("other"), ticking("tick")]
    definition = one([{"name": "Box", "signals": [{"name": "go"}]}], programs=programs, objects=places(1, **heard))
    return asked(definition, lambda i: {"turn": i}, [{"emit": ["o0", "go", []]}])


# What a step changes.


def releases_of_parents(n):
    """Each of the objects that are let go has so many children."""
    objects = [{**it, "children": [{"id": f"c{i}-{k}", "class": "Box"} for k in range(n)]} for i, it in enumerate(places(MANY))]
    return asked({**boxes(0), "objects": objects}, lambda i: {"release": f"o{i}"})


def releases_of_handlers(n):
    """Each of the objects that are let go has so many handlers."""
    objects = places(MANY, signals=[{"name": "s", "handler": "f"}] * n)
    return asked({**boxes(0, SIGNAL, programs=[EMPTY]), "objects": objects}, lambda i: {"release": f"o{i}"})


def releases_of_weak_targets(n):
    """Each of the objects that are let go is named by so many weak properties."""
    seen = [{"name": f"w{i}", "kind": "object:GObject", "weak": True} for i in range(MANY)]
    holders = [{"id": f"h{k}", "class": "Box", "properties": [{"name": f"w{i}", "value": f"o{i}"} for i in range(MANY)]} for k in range(n)]
    return asked({**boxes(0, {"properties": seen}), "objects": [*places(MANY), *holders]}, lambda i: {"release": f"o{i}"})


def releases_of_sources(n):
    """Each of the objects that are let go is the source of so many bindings."""
    bound = [{"name": f"p{i}", "bind": {"source": f"o{i}"}} for i in range(MANY)]
    targets = [{"id": f"t{k}", "class": "Box", "properties": bound} for k in range(n)]
    return asked({**boxes(0, {"properties": numbers()}), "objects": [*places(MANY), *targets]}, lambda i: {"release": f"o{i}"})


def be_timed():
    """Makes as many steps as processor time needs, which is less exact than a count of instructions."""
    TIMES.update(few=1_000, many=31_000)


# The rows: a function of a size, the least size, and the greatest.
ROWS = {
    "an addition among programs": (additions, 1, 64),
    "a conversion to an enum of many members": (conversions, 1, 4096),
    "a set among objects": (sets_among_objects, 1, 500),
    "a set among properties": (sets_among_properties, 1, 64),
    "a get among properties": (gets_among_properties, 1, 64),
    "a notification among properties": (notifies_among_properties, 1, 64),
    "a set beside handlers of other details": (sets_beside_details, 1, 4096),
    "a set beside bindings of other properties": (sets_beside_bindings, 1, 500),
    "a set for which many tasks wait": (sets_in_the_depth, 1, 500),
    "a reference to an object that many refer to": (sets_of_an_object, 1, 500),
    "a freeze and a thaw among objects": (freezes, 1, 500),
    "an object by its id": (objects_by_id, 1, 500),
    "an object that is made and ends among objects": (made_among_objects, 1, 500),
    "an object that is made of one of many prototypes": (made_among_prototypes, 1, 500),
    "an object that takes one of many peers": (made_with_peers, 1, 4096),
    "the last of many children goes and comes": (adoptions, 2, 500),
    "the first of many children goes and comes": (adoptions_of_two, 2, 500),
    "a sink among objects": (sinks, 1, 500),
    "a second dispose among objects": (disposals, 1, 500),
    "an emission among signals": (emissions_among_signals, 1, 60),
    "an emission among interfaces": (emissions_among_interfaces, 1, 250),
    "an emission whose handlers are blocked": (emissions_beside_blocked, 1, 4096),
    "an emission beside handlers of other details": (emissions_beside_details, 1, 4096),
    "an emission that its first handler stops": (emissions_that_stop, 1, 4096),
    "a connect and a disconnect beside handlers": (connections, 1, 4096),
    "a block and an unblock beside handlers": (lambda n: blocks(1, n), 1, 4096),
    "an unbind beside bindings": (unbinds, 1, 1024),
    "an idle that comes and goes beside sources": (idles, 1, 255),
    "a timeout that comes and goes beside sources": (timeouts, 1, 255),
    "a call among peers": (calls_among_peers, 1, 500),
    "a set event among objects": (set_events, 1, 500),
    "a set event among properties": (set_events_among_properties, 1, 64),
    "a get event among objects": (get_events, 1, 500),
    "an emission event among objects": (emit_events, 1, 500),
    "an emission event among interfaces": (emit_events_among_interfaces, 1, 250),
    "an event that names no object": (unknown_events, 1, 500),
    "a release among objects": (release_events, 1, 450),
    "a turn beside idles that wait": (lambda n: turns(n, 9, None), 1, 255),
    "a turn beside timeouts that are not due": (lambda n: turns(n, 0, 1_000_000), 1, 255),
}

# The rows that grow with what the step changes or says: also how often each of the things is changed, and why.
GROWING = {
    "a join of texts": (joins, 2, 4096, 1, "a join makes a text, and costs something for each of its bytes"),
    "a block and an unblock of many handlers": (blocks, 1, 4096, 2, "a block changes each handler that it matches, and so does an unblock"),
    "a turn beside timeouts that are ready": (lambda n: turns(n, 9, 1), 1, 255, 1, "a turn looks at each timeout that is ready"),
    "a release of a parent": (releases_of_parents, 1, 7, 1, "a dispose lets go of each child"),
    "a release of an object with handlers": (releases_of_handlers, 1, 256, 1, "a dispose removes each handler"),
    "a release of an object with weak references": (releases_of_weak_targets, 1, 256, 1, "a dispose makes each weak reference null"),
    "a release of an object with bindings": (releases_of_sources, 1, 256, 2, "a dispose ends each binding, at both of its ends"),
}

# The rows that are not timed: their definitions have something for each step, so that there can't be as many as processor time needs, or each
# step does too much for so many.
COUNTED = {"an object that takes one of many peers", "an unbind beside bindings", "a release among objects",
           *(name for name in GROWING if name.startswith(("a block", "a release")))}
