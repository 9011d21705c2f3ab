"""Definitions at the format's limits, or of nearly 4 MiB, with their events: a row for each list of the format and each product of two lists."""
from .parts import MOST_LINES, MOST_MEMBERS, MOST_PLACES, RETURN, TALLY, box, filled, interfaces, numbered, numbers, one, places, program
from .running import packed

MANY = MOST_LINES - 1
LAST = "s249-63"


def placed(classes, objects, **more):
    return one(classes, limits={"objects": MOST_PLACES, "handlers": more.pop("handlers", 0)}, objects=objects, **more)


def shares(listed, n):
    """A list cut into n parts."""
    return [listed[i::n] for i in range(n)]


def each(event, n=MOST_PLACES):
    """An event for each of the first n objects."""
    return [event(it) for it in numbered("o", n)]


def emits(signal="s0", n=MOST_PLACES):
    return each(lambda it: {"emit": [it, signal, []]}, n)


# Lists of the types.


def members_of_an_enum():
    return filled(lambda n: {"format": 1, "enums": [{"name": "Mode", "members": [[f"M{i}", f"m{i}", i] for i in range(n)]}]}), []


def members_of_many_enums():
    def made(n):
        return {"format": 1, "enums": [{"name": f"Mode{k}", "members": [[f"M{i}", f"m{i}", i] for i in range(n)]} for k in range(254)]}
    return filled(made, step=300), []


def members_of_flags():
    return filled(lambda n: {"format": 1, "flags": [{"name": "Marks", "members": [[f"M{i}", f"m{i}", 1] for i in range(n)]}]}), []


def words_of_flags():
    """64 properties, each with a default of n words of n members."""
    def made(n):
        listed = [{"name": name, "kind": "flags:Marks", "default": "|".join(numbered("m", n))} for name in numbered("p", MOST_MEMBERS)]
        return one([box(*listed)], flags=[{"name": "Marks", "members": [[f"M{i}", f"m{i}", 1] for i in range(n)]}])
    return filled(made, step=600), []


def interfaces_that_require_interfaces():
    names = numbered("Iface", 200)
    brought = [{"name": name, "requires": names[:i]} for i, name in enumerate(names)]
    return one([box(name=f"Box{i}", implements=names[::-1]) for i in range(50)], interfaces=brought), []


def classes_by_interfaces_by_signals():
    """A class with one half of 190 interfaces of 64 signals, and 60 children with the other half."""
    brought = interfaces(190)
    names = [it["name"] for it in brought]
    classes = [box(implements=names[:95]), *(box(name=f"Box{i}", parent="Box", implements=names[95:]) for i in range(60))]
    return one(classes, interfaces=brought, objects=places(60)), []


def signals_by_inherited_signals():
    """A class with 120 interfaces of 64 signals, and 120 children with 64 signals of their own, all of names that differ at their ends."""
    names, long = numbered("Iface", 120), "s" * 220
    brought = [{"name": name, "signals": [{"name": f"{long}{i}-{k}"} for k in range(64)]} for i, name in enumerate(names)]
    children = [box(name=f"Box{i}", parent="Box", signals=[f"{long}{i}x{k}" for k in range(64)]) for i in range(120)]
    return one([box(implements=names), *children], interfaces=brought), []


def signals_of_one_name_by_classes():
    """A class with 120 interfaces, and 133 children that each declare signals of the same 64 names."""
    names = numbered("Iface", 120)
    children = [box(name=f"Box{i}", parent="Box", signals=[f"s{k}" for k in range(64)]) for i in range(133)]
    return one([box(implements=names), *children], interfaces=[{"name": name} for name in names]), []


def interfaces_by_what_they_require():
    """Each of 120 interfaces requires those before it, and 100 classes with 14 ancestors implement all of them."""
    names = numbered("Iface", 120)
    line = [box(name="Line0"), *(box(name=f"Line{i}", parent=f"Line{i - 1}") for i in range(1, 14))]
    brought = [{"name": name, "requires": names[:i]} for i, name in enumerate(names)]
    heirs = [box(name=f"Box{i}", parent="Line13", implements=names) for i in range(100)]
    return one([*line, *heirs], interfaces=brought), []


def classes_by_interfaces_by_properties():
    """Classes that override the same 64 properties of each of 190 interfaces."""
    brought = [{"name": f"I{i:02}", "properties": numbers()} for i in range(190)]
    names = [it["name"] for it in brought]
    return one([box(*numbers(), name=f"Box{i}", implements=names) for i in range(60)], interfaces=brought, objects=places(60, "Box0")), []


def classes_by_properties():
    classes = [box(*numbers(), name=f"Box{i}") for i in range(254)]
    objects = [{"id": f"o{i}", "class": f"Box{i % 254}"} for i in range(MOST_PLACES)]
    return placed(classes, objects), each(lambda it: {"get": [it, "p63"]})


def classes_by_ancestors():
    """Chains of 15 classes, of which each adds four properties and four signals and has a program for its constructions."""
    classes = []
    for i in range(250):
        parent = {"parent": f"Box{i - 1}"} if i % 15 else {}
        listed = [{"name": f"p{i % 15}-{k}", "kind": "int", "flags": ["readable", "writable", "construct"]} for k in range(4)]
        classes.append(box(*listed, signals=[f"s{i % 15}-{k}" for k in range(4)], name=f"Box{i}", constructed="f", **parent))
    programs = [program("f", [], params=("some:GObject",))]
    return placed(classes, places(kind="Box239"), programs=programs), each(lambda it: {"set": [it, "p14_3", 1]})


def parameters_of_a_signal():
    return filled(lambda n: one([{"name": "Box", "signals": [{"name": "s", "params": ["int"] * n}]}], objects=places(1))), []


def methods_of_a_shape():
    return filled(lambda n: one([], shapes=[{"name": "Host", "methods": [{"name": f"m{i}", "result": "int"} for i in range(n)]}])), []


def parameters_of_a_method():
    return filled(lambda n: one([], shapes=[{"name": "Host", "methods": [{"name": "m", "params": ["int"] * n, "result": "int"}]}])), []


# Places, and what each of them has.


def places_by_properties():
    return placed([box(*numbers())], places()), each(lambda it: {"set": [it, "p63", 1]})


def places_by_given_values():
    given = [{"name": f"p{k}", "value": k} for k in range(MOST_MEMBERS)]
    return placed([box(*numbers())], places(properties=given)), []


def prototypes_by_given_values():
    given = [{"name": f"p{k}", "value": k} for k in range(MOST_MEMBERS)]
    prototypes = [{"id": f"it{i}", "class": "Box", "properties": given} for i in range(MOST_PLACES)]
    return one([box(*numbers())], prototypes=prototypes), []


def places_by_signals_of_a_class():
    return placed([box(signals=numbered("s", MOST_MEMBERS))], places()), emits("s63")


def places_by_signals_of(n):
    """Places of one class of n interfaces with 64 signals each."""
    brought = interfaces(n)
    return placed([box(implements=[it["name"] for it in brought])], places(), interfaces=brought), emits(f"s{n - 1}-63")


def places_by_class_handlers():
    listed = numbered("s", MOST_MEMBERS)
    return placed([box(signals=listed, **{"class-handlers": [[it, "f"] for it in listed]})], places(), programs=[program("f", [])]), emits("s63")


def places_by_handlers():
    def made(n):
        parts = shares([{"name": f"s{i % MOST_MEMBERS}", "handler": "f"} for i in range(n)], MOST_PLACES)
        objects = [{"id": f"o{i}", "class": "Box", "signals": part} for i, part in enumerate(parts)]
        return placed([box(signals=numbered("s", MOST_MEMBERS))], objects, programs=[program("f", [])])
    return filled(made), emits("s63")


def handlers_of_one_signal():
    def made(n):
        return one([box(signals=["s"])], programs=[program("f", [])], objects=places(1, signals=[{"name": "s", "handler": "f"}] * n))
    return filled(made), [{"emit": ["o0", "s", []]}]


def handlers_by_signals_of_interfaces():
    """100,000 handlers of one object, for signals of 250 interfaces."""
    brought = interfaces(250)
    signals = [{"name": f"s{i % 250}-{i % MOST_MEMBERS}", "handler": "f"} for i in range(100_000)]
    classes = [box(implements=[it["name"] for it in brought])]
    return packed(one(classes, interfaces=brought, programs=[program("f", [])], objects=places(1, signals=signals))), emits("s0-0", 1)


def handlers_by_data():
    """Handlers with a detail and an object as their data."""
    def made(n):
        heard = [{"name": "notify", "detail": f"p{i % MOST_MEMBERS}", "handler": "f", "object": f"o{i % MOST_PLACES}"} for i in range(n)]
        parts = shares(heard, MOST_PLACES)
        objects = [{"id": f"o{i}", "class": "Box", "signals": part} for i, part in enumerate(parts)]
        return placed([box(*numbers())], objects, programs=[program("f", [], params=("some:Box", "some:Box"))])
    return filled(made), each(lambda it: {"set": [it, "p0", 1]})


def places_by_bindings():
    bound = [{"name": name, "bind": {"source": "o0"}} for name in numbered("p", MOST_MEMBERS)]
    return placed([box(*numbers())], [*places(1), *places(properties=bound)[1:]]), [{"set": ["o0", f"p{i}", 1]} for i in range(MOST_MEMBERS)]


def places_by_pairs():
    """Each second object has its 64 properties in pairs with those of the object before it."""
    objects = []
    for i in range(0, MOST_PLACES, 2):
        pairs = [{"name": name, "bind": {"source": f"o{i}", "flags": ["bidirectional", "sync-create"]}} for name in numbered("p", MOST_MEMBERS)]
        objects += [{"id": f"o{i}", "class": "Box"}, {"id": f"o{i + 1}", "class": "Box", "properties": pairs}]
    return placed([box(*numbers())], objects), each(lambda it: {"set": [it, "p63", 1]})


def forward_references():
    listed = [{"name": f"p{i}", "kind": "object:Box"} for i in range(MOST_MEMBERS)]
    objects = places(properties=[{"name": f"p{i}", "value": f"o{MOST_PLACES - 1 - i}"} for i in range(MOST_MEMBERS)])
    return placed([box(*listed)], objects), each(lambda it: {"release": it})


def objects_by_children():
    """A parent of 450 children, of which one is the first of a nest of 60 objects."""
    nest = {"id": "n0", "class": "Box"}
    for i in range(1, 58):
        nest = {"id": f"n{i}", "class": "Box", "children": [nest]}
    parent = {"id": "a", "class": "Box", "children": [*({"id": f"c{i}", "class": "Box"} for i in range(450)), nest]}
    released = [{"release": it} for it in [*numbered("c", 450), *numbered("n", 58), "a"]]
    return placed([box(*numbers(1))], [parent]), released


# Programs.


def programs_by_instructions():
    code = [["add", 1, 1, 1]] * 511
    return one([box()], programs=[program(f"f{i}", code, params=("some:Box", "int")) for i in range(256)]), []


def programs_by_blocks_by_registers():
    blocks = [{"in": ["int"] * 32, "code": [["jump", i + 1]]} for i in range(63)] + [{"in": ["int"] * 32, "code": [RETURN]}]
    blocks[0] = {"code": [["jump", 1]]}
    return packed(one([], programs=[{"name": f"f{i}", "params": ["int"] * 32, "registers": 32, "blocks": blocks} for i in range(256)])), []


def programs_by_connects_by_places():
    """Each program connects all programs to signals that each of 512 places has."""
    names, signals = numbered("f", 200), numbered("s", MOST_MEMBERS)
    listed = []
    for i, name in enumerate(names):
        code = [["connect", 1, 0, signals[(i + k) % MOST_MEMBERS], None, names[k % 200], [], None] for k in range(400)]
        listed.append(program(name, code, registers=2))
    return packed(placed([box(signals=signals)], places(), handlers=16, programs=listed)), emits("s0", 8)


def programs_by_emissions_by_places():
    """Programs that emit each signal of whichever object they are given, connected at each of 512 places."""
    signals = numbered("s", MOST_MEMBERS - 1)
    listed = [program(f"f{i}", [["emit", None, 0, it, None, []] for it in signals]) for i in range(250)]
    handlers = [[{"name": "go", "handler": f"f{(i + k) % 250}"} for k in range(64)] for i in range(MOST_PLACES)]
    objects = [{"id": f"o{i}", "class": "Box", "signals": it} for i, it in enumerate(handlers)]
    return packed(placed([box(signals=[*signals, "go"])], objects, programs=listed)), emits("go", 8)


def programs_of_last_signals():
    """160 programs of 500 emissions of the last of 16,000 signals."""
    brought = interfaces(250)
    classes = [box(implements=[it["name"] for it in brought])]
    listed = [program(f"f{i}", [["emit", None, 0, LAST, None, []]] * 500) for i in range(160)]
    return packed(one(classes, interfaces=brought, programs=listed, objects=places(1))), []


def events_of_last_signals(spelling):
    brought = interfaces(250)
    return one([box(implements=[it["name"] for it in brought])], interfaces=brought, objects=places(1)), [{"emit": ["o0", spelling, []]}] * MANY


def events_of_last_properties():
    listed = [{"name": f"p-{i}", "kind": "int"} for i in range(MOST_MEMBERS)]
    return placed([box(*listed)], places()), [{"set": ["o511", "p_63", i]} for i in range(MANY)]


def class_handlers_by_channels():
    """Classes that each have a class handler for each of 15,360 signals of their interfaces."""
    brought = interfaces(240)
    names = [it["name"] for it in brought]
    own = [[it["name"], "f"] for interface in brought for it in interface["signals"]]
    classes = [box(name=f"Box{i}", implements=names, **{"class-handlers": own}) for i in range(10)]
    objects = [{"id": f"o{i}", "class": f"Box{i}"} for i in range(10)]
    return packed(one(classes, interfaces=brought, programs=[program("f", [], params=("some:GObject",))], objects=objects)), emits("s239-63", 10)


# Peers.


def shaped(prototypes):
    return one([{"name": "Box", "shape": "Tally"}], shapes=[TALLY], prototypes=prototypes)


def peers_of_one_prototype():
    return filled(lambda n: shaped([{"id": "it", "class": "Box", "peers": [f"p{i:x}" for i in range(n)]}]), most=400_000), []


def prototypes_by_peers():
    def made(n):
        return shaped([{"id": f"it{k}", "class": "Box", "peers": [f"p{i:x}" for i in range(k, n, MOST_PLACES)]} for k in range(MOST_PLACES)])
    return filled(made, most=400_000), []


# Texts and members.


def texts_by_escapes():
    """Given texts of 4,096 control characters, each of which is read."""
    given = [{"name": "t", "value": "\u0001" * 4096}]
    objects = places(170, properties=given)
    return packed(placed([box({"name": "t", "kind": "text"})], objects)), [{"get": [f"o{i}", "t"]} for i in range(170)] * 4


def constants_by_escapes():
    code = [["const", 1, "text", "\u0001\"" * 2048]]
    return packed(one([box({"name": "t", "kind": "text"})], programs=[program(f"f{i}", code * 2) for i in range(124)])), []


def unknown_member(value):
    return '{"format":1,"objects":[],"zoo":' + value + "}", []


def deep_lists():
    return "[" + ",".join(["[" * 120 + "]" * 120] * 17_000) + "]"


def deep_unknown_member():
    return unknown_member(deep_lists())


def deep_known_member():
    return '{"format":1,"objects":[' + deep_lists() + "]}", []


def wide_unknown_member():
    return unknown_member("[" + ",".join("0" * 2_000_000) + "]")


def deep_unknown_objects():
    return unknown_member("[" + ",".join(['{"":' * 120 + "0" + "}" * 120] * 6_900) + "]")


def small_unknown_objects():
    return unknown_member("[" + ",".join(['{"":0}'] * 590_000) + "]")


def empty_unknown_lists():
    return unknown_member("[" + ",".join(["[]"] * 1_380_000) + "]")


def short_unknown_texts():
    return unknown_member("[" + ",".join(['"a"'] * 1_040_000) + "]")


def many_unknown_members():
    return '{"format":1,' + ",".join(f'"m{i:05x}":0' for i in range(380_000)) + "}", []


def member_given_many_times():
    return "{" + ",".join(['"format":1'] * 380_000) + "}", []


# Sources.


def attached(code, n):
    """256 sources of a program, which the first event attaches, and then n turns."""
    tick = program("tick", [["const", 0, "bool", True]], 1, (), "bool", 0)
    listed = [program("add", [code(i) for i in range(256)], 2), tick]
    definition = one([box(signals=["go"])], programs=listed, objects=places(1, signals=[{"name": "go", "handler": "add"}]))
    return definition, [*emits("go", 1), *({"turn": i + 1} for i in range(n))]


def turns_with_idles():
    return attached(lambda i: ["idle", 1, "tick", 0, None], 400)


def turns_with_timeouts():
    return attached(lambda i: ["timeout", 1, "tick", 0, 256 + i, None], 60_000)


ROWS = {
    "members of an enum of 4 MiB": members_of_an_enum,
    "enums by members": members_of_many_enums,
    "members of a flags type of 4 MiB": members_of_flags,
    "properties by words of flags by members": words_of_flags,
    "interfaces by interfaces that they require": interfaces_that_require_interfaces,
    "classes by interfaces by signals": classes_by_interfaces_by_signals,
    "signals by inherited signals": signals_by_inherited_signals,
    "signals of one name by classes": signals_of_one_name_by_classes,
    "interfaces by what they require": interfaces_by_what_they_require,
    "classes by interfaces by properties": classes_by_interfaces_by_properties,
    "classes by properties": classes_by_properties,
    "classes by ancestors": classes_by_ancestors,
    "parameters of a signal of 4 MiB": parameters_of_a_signal,
    "methods of a shape of 4 MiB": methods_of_a_shape,
    "parameters of a method of 4 MiB": parameters_of_a_method,
    "places by properties": places_by_properties,
    "places by given values": places_by_given_values,
    "prototypes by given values": prototypes_by_given_values,
    "places by signals of a class": places_by_signals_of_a_class,
    "places by signals of 50 interfaces": lambda: places_by_signals_of(50),
    "places by signals of 250 interfaces": lambda: places_by_signals_of(250),
    "places by class handlers": places_by_class_handlers,
    "places by handlers of 4 MiB": places_by_handlers,
    "handlers of one signal of 4 MiB": handlers_of_one_signal,
    "handlers by signals of interfaces": handlers_by_signals_of_interfaces,
    "handlers by their data": handlers_by_data,
    "places by bindings": places_by_bindings,
    "places by pairs": places_by_pairs,
    "places by forward references": forward_references,
    "objects by children": objects_by_children,
    "programs by instructions": programs_by_instructions,
    "programs by blocks by registers": programs_by_blocks_by_registers,
    "programs by connects by places": programs_by_connects_by_places,
    "programs by emissions by places": programs_by_emissions_by_places,
    "programs that emit the last of many signals": programs_of_last_signals,
    "events that emit the last of many signals": lambda: events_of_last_signals(LAST),
    "events that emit the last of many signals with _": lambda: events_of_last_signals(LAST.replace("-", "_")),
    "events that set the last of many properties with _": events_of_last_properties,
    "class handlers by channels": class_handlers_by_channels,
    "peers of one prototype of 4 MiB": peers_of_one_prototype,
    "prototypes by peers": prototypes_by_peers,
    "texts by escapes": texts_by_escapes,
    "constants by escapes": constants_by_escapes,
    "an unknown member that is deep": deep_unknown_member,
    "an unknown member that is wide": wide_unknown_member,
    "an unknown member of deep objects": deep_unknown_objects,
    "an unknown member of small objects": small_unknown_objects,
    "an unknown member of empty lists": empty_unknown_lists,
    "an unknown member of short texts": short_unknown_texts,
    "objects that are deep lists": deep_known_member,
    "many unknown members": many_unknown_members,
    "a member that is given many times": member_given_many_times,
    "turns with 256 idles": turns_with_idles,
    "turns with 256 timeouts": turns_with_timeouts,
}

# The rows whose definitions are refused: that has to be as cheap as anything else.
REFUSED = {
    "an unknown member that is deep",
    "an unknown member that is wide",
    "an unknown member of deep objects",
    "an unknown member of small objects",
    "an unknown member of empty lists",
    "an unknown member of short texts",
    "objects that are deep lists",
    "many unknown members",
}
