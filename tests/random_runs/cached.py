"""What each rank caches, in the order of its use. Its cache is never full here, so a leaf goes by an eviction alone, or with its end."""


class Cached:
    def __init__(self, count, root):
        # of each rank the leaves that it caches, the least recently used first
        self.orders = [[] for _ in range(count)]
        self.orders[0].append(root)

    def has(self, rank, leaf):
        return leaf in self.orders[rank]

    def use(self, rank, leaf):
        """A leaf is the most recently used of a rank: it is fetched where it isn't cached."""
        self.forget(leaf)
        self.orders[rank].append(leaf)

    def forget(self, leaf):
        for order in self.orders:
            if leaf in order:
                order.remove(leaf)

    def evict(self, rank, is_clean):
        """The least recently used clean leaf of a rank goes; whether there is one."""
        leaf = next(filter(is_clean, self.orders[rank]), None)
        self.forget(leaf)
        return leaf is not None

    def move(self, leaves, importer):
        """Leaves are another rank's: the first of them is the most recently used there."""
        for leaf in reversed(leaves):
            self.use(importer, leaf)

    def write(self, is_clean):
        """All that isn't clean is committed, at each rank from the most recently used on."""
        for rank, order in enumerate(self.orders):
            for leaf in [leaf for leaf in reversed(order) if not is_clean(leaf)]:
                self.use(rank, leaf)
