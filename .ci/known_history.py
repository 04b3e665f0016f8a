"""A history of landings of which each version is known beforehand, for scripts that test the program."""
from plain_landings import landing_block
from plain_store import Map, key_of

NAMES = [b"%d" % number for number in range(16)]


def change_of(version):
    """The name that a version changes, and its value, or None if it is removed."""
    return NAMES[version * 7 % len(NAMES)], None if version % 5 == 0 else b"%d" % version


def line_of(version):
    name, value = change_of(version)
    return f"del {name.hex()}" if value is None else f"put {name.hex()} ={value.hex()}"


class KnownHistory:
    """The maps of the versions from 0 on, as far as they were asked for."""

    def __init__(self):
        self.maps = [Map({})]

    def map_of(self, version):
        while len(self.maps) <= version:
            name, value = change_of(len(self.maps))
            self.maps.append(self.maps[-1].after({key_of(name): value}))
        return self.maps[version]

    def root_of(self, version):
        return self.map_of(version).root

    def block_of(self, version):
        name, value = change_of(version)
        return landing_block(version, self.root_of(version), {key_of(name): value})


class Script:
    """The lines of one run that land versions, by commits or as chains of forks."""

    def __init__(self):
        self.forks = 0

    def commit(self, version):
        """Lands one version."""
        return [line_of(version), "commit"]

    def chain(self, first, count):
        """Lands so many versions together."""
        lines = []
        for place in range(count):
            lines += [line_of(first + place), "fork head" if place == 0 else f"fork f{self.forks - 1}"]
            self.forks += 1
        return [*lines, f"land f{self.forks - 1}"]
