"""Whether a policy holds of a printed state: by the rules of docs/separation.md, gone through anew here."""
import itertools
import re

REST = "rest"
# The restrictions with which a capability is harmless; what stands in none of both never is.
HARMLESS = {"page": "r", "cappage": "rw", "gpt": "rwn"}


class Policy:
    """Domains and what each may do, from lines."""

    def __init__(self):
        self.domains, self.reads, self.writes, self.shared = {}, {}, {}, {"sysctl": set(), "kernlog": set()}

    def take(self, words):
        if words[0] == "domain":
            first, last = int(words[3]), int(words[-1])
            for number in range(first, last + 1):
                self.domains[words[2], number] = words[1]
        elif words[0] in ("halts", "logs"):
            self.shared["sysctl" if words[0] == "halts" else "kernlog"].add(words[1])
        else:
            (self.reads if words[0] == "reads" else self.writes).setdefault(words[1], set()).add(words[2])

    def domain(self, kind, number):
        return self.domains.get((kind, number), REST)

    def seen_by(self, one):
        """The domains that one reads, itself or by others between."""
        seen, left = {one}, [one]
        while left:
            new = self.reads.get(left.pop(), set()) - seen
            seen |= new
            left.extend(new)
        return seen

    def may_hold(self, domain, capability):
        """Whether a capability may stand in an object of a domain."""
        word = capability.partition("+")[0].split(":")[0]
        if word == "range":
            return False
        if word in self.shared:
            return domain in self.shared[word]
        named = named_by(capability)
        if named is None or self.domain(*named) == domain:
            return True
        other, is_page = self.domain(*named), named[0] == "page" and word == "page"
        if is_page and other in self.writes.get(domain, set()):
            return True
        limits = HARMLESS.get(word)
        if limits is None or not set(limits) <= set(capability.partition("+")[2]):
            return False
        seen = self.seen_by(domain)
        return other in seen or (is_page and any(other in self.writes.get(one, set()) for one in seen))

    def is_crossed(self, state):
        """Whether a state has something that the policy doesn't allow."""
        held = itertools.chain.from_iterable(((kind, number, word) for word in words)
                                             for (kind, number), words in state.held.items())
        return any(not self.may_hold(self.domain(kind, number), word) for kind, number, word in held) or any(
            self.domain("process", process) != self.domain("process", on) for process, on in state.sleepers.items())


def named_by(capability):
    """The object that a capability names, by kind and number; an entry names its endpoint."""
    found = re.match(r"(page|cappage|gpt|endpoint|entry|process):(\d+)", capability)
    return found and ({"entry": "endpoint"}.get(found[1], found[1]), int(found[2]))
