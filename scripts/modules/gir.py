"""Reads GIR files, which describe the types of GObject libraries: kinds of properties, parameters of signals, members of enums."""
import re
import xml.etree.ElementTree as ElementTree
from pathlib import Path

FOLDER = Path("/usr/share/gir-1.0")
CORE = "{http://www.gtk.org/introspection/core/1.0}"
GLIB = "{http://www.gtk.org/introspection/glib/1.0}"
C = "{http://www.gtk.org/introspection/c/1.0}"
KINDS = {"gboolean": "bool", "gint": "int", "guint": "uint", "gint64": "int64", "guint64": "uint64", "glong": "int64", "gulong": "uint64",
         "gint32": "int", "guint32": "uint", "gsize": "uint64", "gunichar": "uint", "utf8": "text", "filename": "text", "gint16": "int",
         "guint16": "uint", "gshort": "int", "gushort": "uint"}
# The names of types of one library begin with these letters in C.
PREFIXES = {"Gtk": "Gtk", "Gdk": "Gdk", "Gsk": "Gsk", "Gio": "G", "GObject": "G", "GLib": "G", "Pango": "Pango", "GdkPixbuf": "Gdk", "Atk": "Atk"}
LIBRARIES = {"4": ("Gtk-4.0", "Gdk-4.0", "Gsk-4.0"), "3": ("Gtk-3.0", "Gdk-3.0", "Atk-1.0")}
COMMON = ("Gio-2.0", "GObject-2.0", "GLib-2.0", "Pango-1.0", "GdkPixbuf-2.0")


def installed(version):
    """The GIR files that are on this machine for a version of GTK."""
    files = (FOLDER / f"{name}.gir" for name in (*LIBRARIES.get(version, ()), *COMMON))
    return [file for file in files if file.exists()]


class Girs:
    """The classes, interfaces, enums and flags types of some GIR files, by their names in C."""

    def __init__(self, files):
        self.classes, self.members = {}, {}
        for file in files:
            space = ElementTree.parse(file).getroot().find(CORE + "namespace")
            for it in space:
                name = it.get(GLIB + "type-name") or PREFIXES.get(space.get("name"), space.get("name")) + it.get("name", "")
                if it.tag in (CORE + "class", CORE + "interface"):
                    self.classes[name] = (it, space.get("name"))
                elif it.tag in (CORE + "enumeration", CORE + "bitfield"):
                    self.members[name] = it

    def c_name(self, name, space):
        """The name in C of a type that a library names."""
        of, _, short = name.rpartition(".")
        return PREFIXES.get(of or space, of or space) + short

    def line(self, name):
        """A class, its ancestors and all their interfaces."""
        left, seen = [name], []
        while left:
            name = left.pop(0)
            if name in self.classes and name not in seen:
                seen.append(name)
                it, space = self.classes[name]
                left += [self.c_name(it.get("parent"), space)] if it.get("parent") else []
                left += [self.c_name(of.get("name"), space) for of in (*it.findall(CORE + "implements"), *it.findall(CORE + "prerequisite"))]
        return seen

    def member(self, name, tag, wanted):
        """A property or a signal of a class by its name, with the library that declares it; None where it has none."""
        for each in self.line(name):
            it, space = self.classes[each]
            found = next((of for of in it.findall(tag) if of.get("name") == wanted), None)
            if found is not None:
                return found, space
        return None

    def kind(self, of, space):
        """The kind of what a property, a parameter or a result is, and the enum or flags type that it names: None for what is no kind here."""
        found = of.find(CORE + "type")
        name = found.get("name") if found is not None else None
        if name is None or name == "none":
            return None if name is None else "none"
        if name in KINDS:
            return KINDS[name]
        name = self.c_name(name, space)
        if name in self.members:
            return ("flags:" if self.members[name].tag == CORE + "bitfield" else "enum:") + name
        return "object" if name in self.classes else None

    def rows(self, name):
        """The members of an enum or a flags type as a definition has them. Of members with one number the first is taken."""
        it, found = self.members[name], {}
        for of in it.findall(CORE + "member"):
            number = int(of.get("value"))
            word = re.sub(r"[^A-Za-z0-9_-]", "-", of.get(C + "identifier") or of.get("name"))[:64]
            if it.tag != CORE + "bitfield" or 0 < number < 2**32:
                found.setdefault(number, [word, of.get(GLIB + "nick") or of.get("name").replace("_", "-"), number])
        return list(found.values())
