"""What hostile requests and answers cost, counted by callgrind over replays."""


class Families:
    """By group and name: a function that gives a script for a size, with its bounds."""

    def __init__(self):
        self.all = {}

    def add(self, group, plain=None, name=None, is_one=True, sizes=None):
        """`plain` is what one of 32 KB is held to; several in one piece (`is_one` false) are held to their growth alone."""

        def keep(function):
            it = Family(group, name or function.__name__, function, plain if is_one else None, sizes)
            self.all[it.name] = it
            return function

        return keep


class Family:
    def __init__(self, group, name, script, plain, sizes):
        self.group, self.name, self.script, self.plain, self.sizes = group, name, script, plain, sizes
        self.what = (script.__doc__ or "").strip()


FAMILIES = Families()
