"""Looks up names in a definition: its types, members, objects, programs and bindings."""
from json_places import at_path


def objects_of(holder, name):
    """The JSON objects in a list that a JSON object has as a member."""
    entries = holder.get(name) if isinstance(holder, dict) else None
    return [it for it in entries if isinstance(it, dict)] if isinstance(entries, list) else []


def names_in(tree, section, member="name"):
    """The names of the entries of a section."""
    return [it.get(member) for it in objects_of(tree, section)]


def all_objects(tree):
    """All objects, children among them."""
    found, left = [], objects_of(tree, "objects")
    while left:
        it = left.pop()
        found.append(it)
        left += objects_of(it, "children")
    return found


def ids_in(tree):
    """The ids of all objects."""
    return [it.get("id") for it in all_objects(tree)]


def named(entries, name, member="name"):
    """The number of an entry of a list by its name, and the entry."""
    return next(((number, it) for number, it in enumerate(entries) if it.get(member) == name), (0, None))


def place_paths(tree):
    """The path of each prototype and object, by its id."""
    left = [*((f"/prototypes/{n}", it) for n, it in enumerate(objects_of(tree, "prototypes"))),
            *((f"/objects/{n}", it) for n, it in enumerate(objects_of(tree, "objects")))]
    found = {}
    while left:
        path, it = left.pop()
        found[it["id"]] = path
        left += ((f"{path}/children/{n}", child) for n, child in enumerate(objects_of(it, "children")))
    return found


def type_of(tree, kind):
    """The class or interface of what a register of a kind of objects holds, or None."""
    sort, _, name = kind.partition(":")
    if sort in ("at", "at?"):
        return (at_path(tree, place_paths(tree).get(name, "/none")) or {}).get("class")
    return name if sort in ("object", "some") else None


def line_of(tree, name):
    """A class or an interface and the ancestors that the definition declares, the nearest first."""
    types = {it["name"]: it for it in [*objects_of(tree, "interfaces"), *objects_of(tree, "classes")] if isinstance(it.get("name"), str)}
    found = {}
    while isinstance(name, str) and name in types and name not in found:
        found[name] = types[name]
        name = types[name].get("parent")
    return list(found.values())


def shape_of(tree, name):
    """The shape of a class, its own or an inherited one, or None."""
    return next((it["shape"] for it in line_of(tree, name) if "shape" in it), None)


def methods_of(tree, name):
    """The methods that objects of a class are called with, by their names, or None where the class has no shape."""
    shape = shape_of(tree, name)
    if shape is None:
        return None
    return {it.get("name"): it for it in objects_of(named(objects_of(tree, "shapes"), shape)[1] or {}, "methods")}


def class_of(tree, identifier):
    """The class of the object of an id, or None."""
    return next((it.get("class") for it in all_objects(tree) if it.get("id") == identifier), None)


def is_a(tree, name, wanted):
    """Whether a class is a type: the same, derived from it, or one that implements it."""
    types = [name, "GObject", *(of for it in line_of(tree, name) for of in (it["name"], it.get("parent"), *it.get("implements", [])))]
    return wanted in types


def members_of(tree, name, section):
    """The properties or the signals of a class or an interface by their names, inherited ones first."""
    found = {}
    for it in reversed(line_of(tree, name)):
        interfaces = [of for each in it.get("implements", []) for of in line_of(tree, each)] if section == "signals" else []
        for entry in (entry for of in (it, *interfaces) for entry in objects_of(of, section)):
            if isinstance(entry.get("name"), str):
                found.setdefault(entry["name"].replace("_", "-"), entry)
    return found


def signal_of(tree, name, signal):
    """A signal of a type by its name, or None. Each class has `notify`."""
    if signal == "notify":
        return {"name": "notify", "flags": ["run-first", "detailed"]}
    return members_of(tree, name, "signals").get(signal.replace("_", "-"))


def bindings_in(tree):
    """The names of the bindings, and None for each that has no name."""
    return [it["bind"].get("name") for of in all_objects(tree) for it in objects_of(of, "properties") if "bind" in it]
