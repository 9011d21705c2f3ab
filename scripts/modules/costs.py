"""An estimate of the counted steps that a channel leads to, by which the dearest path through the handlers is found."""
from raises import Definition, bindings, built, channels, raised, runs_at

LONGEST = 6


class Costs:
    """The steps of channels and programs of a definition without cycles, as the rules count them but for finalisations."""

    def __init__(self, tree):
        self.of, self.known = Definition(tree), {}
        self.paired = [end for *ends, is_pair in bindings(self.of) if is_pair for end in ends]
        self.bound = {}
        for source, target, is_pair in bindings(self.of):
            self.bound.setdefault(source, []).append(target)
            if is_pair:
                self.bound.setdefault(target, []).append(source)

    def channel(self, channel):
        """The steps that a channel leads to: one, and those of what runs there. The way back from a property to its pair counts nothing."""
        if channel not in self.known:
            self.known[channel] = 0
            self.known[channel] = 1 + sum(steps for _, steps in self.ways(channel))
        return self.known[channel]

    def ways(self, channel):
        """What runs at a channel, program or binding, each with its steps."""
        for name in runs_at(self.of, channel):
            yield name, self.program(name)
        for target in self.bound.get(channel, []):
            yield target, 1 + self.channel(target)

    def program(self, name):
        """The steps of a program with all that it raises."""
        if ("program", name) not in self.known:
            self.known["program", name] = sum(steps for _, _, _, steps in self.instructions(name))
        return self.known["program", name]

    def instructions(self, name):
        """Each instruction of a program: its word, how often it is carried out, the dearest channel that it may raise, and its steps."""
        for code, kinds, passes in self.of.instructions(self.of.programs[name]):
            targets = list(raised(self.of, code, kinds, self.paired))
            known = set(channels_of(self.of))
            steps = {it: self.channel(it) for it in targets if it in known}
            all_of_it = sum(steps.values()) if code[0] == "new" else max(steps.values(), default=0)
            yield code, passes, max(steps, key=steps.get, default=None), passes * (1 + all_of_it)


def channels_of(of):
    """The channels of a definition, listed once."""
    if not hasattr(of, "channels"):
        of.channels = list(channels(of))
    return of.channels


def beginnings(costs, entry):
    """The channels at which an entry of the report begins."""
    if entry.partition(" ")[0] in ("property", "signal", "constructed"):
        return [entry]
    if entry != "build":
        return []
    of = costs.of
    made = [f"constructed {place}" for place in of.earlier] + [it for place in of.earlier for it in built(of, place)]
    return [it for it in made if it in set(channels_of(of))]


def dearest(tree, entry):
    """The links of the dearest path from an entry on, as texts, and the program that its first link runs, or None."""
    costs, links, first = Costs(tree), [], None
    name = entry.partition(" ")[2] if entry.startswith("source ") else None
    channel = max(beginnings(costs, entry), key=costs.channel, default=None)
    while len(links) < LONGEST and (name or channel):
        if name is None:
            way, steps = max(costs.ways(channel), key=lambda it: it[1], default=(None, 0))
            if way is None:
                break
            if way not in costs.of.programs:
                links.append(f"`{channel}` has a binding to `{way}`")
                channel = way
                continue
            name = way
        begin = f"`{channel}` runs `{name}`" if channel else f"the source `{name}`"
        first = first or name
        code, passes, target, _ = max(costs.instructions(name), key=lambda it: it[3])
        times = f" {passes:,} times" if passes > 1 else ""
        links.append(f"{begin}, which does `{code[0]}`{times}" + (f" and raises `{target}`" if target else ""))
        channel, name = target, None
    return links, first
