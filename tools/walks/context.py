"""The context of a walk: what is at hand, an entry after the other, each with a name; and the steps so far."""


class Context:
    def __init__(self, entries):
        self.entries = list(entries)
        self.steps = []

    def step(self, text):
        self.steps.append(text)

    def bring(self, *names):
        """these entries come first, in this order"""
        places = [self.entries.index(name) for name in names]
        if places != list(range(len(places))):
            self.step('move ! (%s ∷ [])' % ' ∷ '.join(map(str, places)))
        self.entries = list(names) + [e for e in self.entries if e not in names]

    def push(self, text, name):
        """a step that makes an entry"""
        self.step(text)
        self.entries.insert(0, name)

    def merge(self, text, name):
        """a step that makes one entry of the first two"""
        self.step(text)
        self.entries[:2] = [name]

    def divide(self, text, first, second):
        """a step that makes two entries of the first"""
        self.step(text)
        self.entries[:1] = [first, second]

    def drop(self):
        self.step('drop !')
        self.entries.pop(0)

    def on_a_line(self):
        return ' $ '.join(self.steps).replace('.  $ ', '. ')
