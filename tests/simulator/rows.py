"""Lists in the order in which a journal's base has them: a new item stands last, and the last one takes the place of one that goes."""


class Rows:
    """Such a list. Its items are found by their values."""

    def __init__(self):
        self.items, self.places = [], {}

    def __iter__(self):
        return iter(self.items)

    def __len__(self):
        return len(self.items)

    def append(self, item):
        self.places.setdefault(item, set()).add(len(self.items))
        self.items.append(item)

    def forget(self, place):
        """No item stands at the place any more."""
        item = self.items[place]
        self.places[item].remove(place)
        if not self.places[item]:
            del self.places[item]

    def put(self, place, item):
        self.items[place] = item
        self.places.setdefault(item, set()).add(place)

    def remove(self, item):
        """The first such item goes."""
        place, end = min(self.places[item]), len(self.items) - 1
        self.forget(place)
        if place < end:
            self.forget(end)
            self.put(place, self.items[end])
        self.items.pop()

    def change(self, item, other):
        """The first such item becomes another, in its place."""
        place = min(self.places[item])
        self.forget(place)
        self.put(place, other)

    def in_order(self, items):
        """Items of the list, each as often as it is given, in the list's order."""
        given, found = {}, []
        for item in items:
            given[item] = given.get(item, 0) + 1
        for item, count in given.items():
            found += [(place, item) for place in sorted(self.places[item])[:count]]
        return [item for _, item in sorted(found, key=lambda placed: placed[0])]


class KeyedRows(dict):
    """What is known under keys, which stand in such an order."""

    def __init__(self):
        super().__init__()
        self.rows = Rows()

    def __setitem__(self, key, value):
        if key not in self:
            self.rows.append(key)
        super().__setitem__(key, value)

    def __delitem__(self, key):
        super().__delitem__(key)
        self.rows.remove(key)

    def pop(self, key, *default):
        if key in self:
            self.rows.remove(key)
        return super().pop(key, *default)
