"""What of each leaf isn't in the store yet: all of a new one, and the names that changed since; and how often it was written since it was new."""


class Unclean:
    def __init__(self, new):
        self.new, self.dirty, self.changes, self.versions = {new}, {}, 0, {new: 0}

    def change(self, leaf, name):
        self.changes += 1
        self.dirty.setdefault(leaf, {})[name] = self.changes

    def make(self, leaf, names):
        """A leaf is new, with these names."""
        self.new.add(leaf)
        self.versions[leaf] = 0
        for name in names:
            self.change(leaf, name)

    def forget(self, leaf):
        self.new.discard(leaf)
        self.dirty.pop(leaf, None)
        self.versions.pop(leaf, None)

    def is_clean(self, leaf):
        return leaf not in self.new and not self.dirty.get(leaf)

    def snapshot(self, leaf):
        return dict(self.dirty.get(leaf, {}))

    def written(self, leaf, snapshot):
        """A leaf is in the store as it was then: what changed since isn't."""
        self.new.discard(leaf)
        self.versions[leaf] += 1
        self.dirty[leaf] = {name: change for name, change in self.snapshot(leaf).items() if snapshot.get(name) != change}

    def sent(self, leaf, table):
        """How many bytes are sent of a leaf: of a name that stands its inode too, with a link's target."""
        rows = [(name, table.find(leaf[0], name)) for name in self.snapshot(leaf)]
        return 0 if self.is_clean(leaf) else 25 + sum(
            2 + len(name) + (42 + (row.size if row.kind == 'link' else 0) if row else 0) for name, row in rows)
