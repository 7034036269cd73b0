"""The domains of a plan as lines for `separation`, or one of them as a cut for `coyotos confine`."""
from plans.listing import remark, runs
from plans.words import need

KINDS = ("page", "cappage", "gpt", "endpoint", "process")


def objects_of(plan, domain):
    """The numbers of a domain's objects by their kind: of a program all that is its own, and an endpoint with its
    recipient where no line names the endpoint."""
    found = {kind: [] for kind in KINDS}
    named = [member for other in plan.domains.values() for member in other.members]
    for member in domain.members:
        if member.kind == "program":
            found["process"].append(member.number)
            found["gpt"].extend(member.space.gpts())
            found["page"].extend(member.pages)
            found["endpoint"].extend(one.number for one in plan.all("endpoint")
                                     if one.recipient is member and one not in named)
        elif member.kind == "endpoint":
            found["endpoint"].append(member.number)
        else:
            found[member.kind].extend(range(member.first, member.first + member.count))
    return found


def lines_of(plan, domain, words):
    """A line for each run of numbers of a domain's objects, behind these words."""
    for kind, numbers in objects_of(plan, domain).items():
        for first, last in runs(numbers):
            yield f"{words} {kind} {first}" + (f" {last}" if last > first else "")


def named_lines(plan):
    """The lines of all domains, and of what each may do."""
    for domain in plan.domains.values():
        yield from lines_of(plan, domain, f"domain {domain.name}")
    yield from plan.allowed


def policy_lines(plan, name):
    """The policy of a plan."""
    need(plan.domains, "the plan has no line `domain`")
    yield remark(f"The domains of {name}, made by tools/listing-of.")
    yield from named_lines(plan)
    yield "end"
    yield from plan.setup


def cut_lines(plan, name, domain):
    """The cut that has this domain on the left."""
    need(domain in plan.domains, f"no domain was named {domain}")
    yield remark(f"Domain {domain} of {name} on the left, made by tools/listing-of.")
    yield from lines_of(plan, plan.domains[domain], "left")
