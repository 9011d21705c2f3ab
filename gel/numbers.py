"""The bounds of a source: beside each way in, each handler and each program."""
from .costs import Costs
from .faults import Fault
from .model import canonical
from .refusals import Told


def rows(compiled):
    """Rows of (line, text, number, what the number is), in the order of the source."""
    told, costs = Told(compiled), Costs(compiled.definition)
    bounds = {text: bound for text, _, bound in costs.bounds()}
    found = [(told.line(told.way_at(channel)), text, bound, "bound") for text, channel, bound in costs.bounds() if text != "build"]
    for number, it in enumerate(compiled.definition.get("programs", [])):
        found.append((told.line(told.at(f"/programs/{number}")), f"program {it['name']}", costs.program(it["name"]), "steps"))
    for path, entry in told.object_paths():
        found += [(told.line(told.at(f"{path}/signals/{number}")), *row, "bound") for number, it in enumerate(entry.get("signals", []))
                  for row in [handler_row(bounds, entry, it)] if row]
    for number, entry in enumerate(compiled.definition.get("classes", [])):
        for at, (signal, program) in enumerate(entry.get("class-handlers", [])):
            own = class_bounds(costs, bounds, entry["name"], canonical(signal), program)
            if own:
                found.append((told.line(told.at(f"/classes/{number}/class-handlers/{at}")), f"  on {signal} -> {program}", max(own), "bound"))
    return [(1, "build", bounds["build"], "bound"), *sorted(found, key=lambda row: row[0])]


def class_bounds(costs, bounds, name, signal, program):
    """The bounds of what runs a class handler, of all objects that have it."""
    found = []
    for place, entry in costs.model.places.items():
        if costs.model.is_a(entry["class"], name) and costs.class_handler(place, signal) == program:
            own = f"signal {place}.{signal}"
            found += [bound for key, bound in bounds.items() if key == own or signal == "notify" and key.startswith(f"property {place}.")]
    return found


def handler_row(bounds, entry, it):
    """The text of a handler, and the bound of what runs it; None where each property may."""
    detail = f"::{it['detail']}" if "detail" in it else ""
    text = f"  on {it['name']}{detail} -> {it['handler']}"
    name = f"property {entry['id']}.{canonical(it.get('detail', ''))}" if it["name"] == "notify" else f"signal {entry['id']}.{canonical(it['name'])}"
    if name in bounds:
        return text, bounds[name]
    own = [bound for key, bound in bounds.items() if key.startswith(f"property {entry['id']}.")]
    return (text, max(own)) if own else None


def table(file, compiled):
    """The lines of the table."""
    found = [(f"{file}:{line}", text, str(number), sort) for line, text, number, sort in rows(compiled)]
    widths = [max(len(row[at]) for row in found) for at in range(3)]
    return [f"{row[0]:<{widths[0]}}  {row[1]:<{widths[1]}}  {row[2]:>{widths[2]}} {row[3]}" for row in found]


def check_most(compiled, most):
    """Fails where a bound is above a number, with the path that costs most."""
    costs, told = Costs(compiled.definition), Told(compiled)
    text, channel, bound = max(costs.bounds(), key=lambda it: it[2])
    if bound > most:
        raise Fault(told.way_at(channel), f"{bound:,} steps may follow `{text}`, and {most:,} are the most here{told.path_text(costs, channel)}\n  "
                                          f"({costs.objects:,} of them are for objects that may be finalised: `limits objects` says how many)")
