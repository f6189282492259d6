"""The crates of crates.txt, and which leans on which."""


def listed(text):
    """The crates that a text of crates.txt lists, with those of them that each leans on."""
    lines = [line.partition("#")[0].partition(":") for line in text.splitlines()]
    named = {head.split()[0]: tail.split() for head, _, tail in lines if head.strip()}
    return {name: [dep for dep in deps if dep in named] for name, deps in named.items()}


def below(name, crates):
    """A crate and all that it leans on."""
    found, left = set(), [name]
    while left:
        one = left.pop()
        if one not in found:
            found.add(one)
            left += crates[one]
    return sorted(found)
