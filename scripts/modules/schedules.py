"""The order in which crates are proved side by side: lowest first, and of those that may begin the one with the longest chain above it."""
import heapq

# What a crate takes beside what its size takes, in bytes.
LEAST = 20000


class Schedule:
    """Crates that wait for those that they depend on."""

    def __init__(self, dependencies, sizes):
        """Takes what each crate depends on, and the sizes of the crates: 0 for one that is proved already."""
        self.below = {name: [it for it in dependencies[name] if it in sizes] for name in sizes}
        self.cost = {name: size + LEAST if size else 1 for name, size in sizes.items()}
        self.chain = {}
        for name in reversed(list(sizes)):
            above = [it for it in sizes if name in self.below[it]]
            self.chain[name] = self.cost[name] + max((self.chain[it] for it in above), default=0)

    def ready(self, done, begun):
        """The crates that may begin, the one with the longest chain first."""
        found = [name for name, below in self.below.items() if name not in begun and all(it in done for it in below)]
        return sorted(found, key=lambda name: -self.chain[name])

    def rest(self, done, running, workers):
        """How long the crates that are left take with so many at a time, in bytes of size. Of one that runs, `running` has what is left."""
        done, begun = set(done), {*done, *running}
        ends, now = [(left, name) for name, left in running.items()], 0
        heapq.heapify(ends)
        while ends or len(done) < len(self.below):
            for name in self.ready(done, begun)[:workers - len(ends)]:
                begun.add(name)
                heapq.heappush(ends, (now + self.cost[name], name))
            now, name = heapq.heappop(ends)
            done.add(name)
        return now
