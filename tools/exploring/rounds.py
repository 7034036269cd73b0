"""What must come as long as each choice comes again and again, of states of which all choices are known.

A run without end in which each choice comes again and again stays in the end among states that lead back to one another, and
passes for each choice a place where that choice leads from one of them to one of them. So the atoms can be avoided exactly
where such states can be reached that don't have them: strongly connected components of the states without the atoms, with
an inner edge for each choice."""
from collections import deque


class Rounds:
    """States by their numbers; `edges` has for each state, and each choice in its order, a line of a schedule and the state
    to which it leads."""

    def __init__(self, edges):
        self.edges, self.width = edges, len(edges[0])

    def avoided(self, first, goal):
        """A schedule by which no state of `goal` comes, behind one of `first` (the start where that is None): the lines that
        lead to a state, as few as can be, and those that lead from there back to it, each choice among them. None where it
        must come."""
        knots = self.knots(goal)
        before = self.ways(first, goal)
        end = next((node for node in before if node[1] and node[0] in knots), None)
        if end is None:
            return None
        path, node = [], end
        while before[node]:
            node, line = before[node]
            path.append(line)
        return path[::-1], self.loop(end[0], knots[end[0]])

    def ways(self, first, goal):
        """Breadth first, and by the order of choices, each state by whether it has to come from there: the pair before it, and
        the line between. Where it has to come, only states without it follow. Pairs that the same choices lead to go on
        together."""
        before = {(0, False): None} if first is not None else {}
        if (first is None or 0 in first) and 0 not in goal:
            before[0, True] = None
        left = deque([list(before)] if before else [])
        while left:
            pairs = left.popleft()
            for line, state in self.edges[pairs[0][0]]:
                fresh = []
                for pair in pairs:
                    has_to = (pair[1] or state in first) and state not in goal
                    new = [(state, False)] * (not pair[1]) + [(state, True)] * has_to
                    fresh += [one for one in new if one not in before]
                    before.update((one, (pair, line)) for one in new if one not in before)
                if fresh:
                    left.append(fresh)
        return before

    # -- components

    def knots(self, goal):
        """The component of each state without the atoms that can be in one for ever, whatever round comes."""
        found = {}
        for component in self.components([state for state in range(len(self.edges)) if state not in goal]):
            if all(any(self.edges[state][choice][1] in component for state in component) for choice in range(self.width)):
                found.update((state, component) for state in component)
        return found

    def components(self, inside):
        """The strongly connected components of some states, by two sweeps (Kosaraju, Sharir)."""
        left, before = set(inside), {state: [] for state in inside}
        for state in inside:
            for _, other in self.edges[state]:
                if other in before:
                    before[other].append(state)
        for root in reversed(self.finished(inside)):
            if root in left:
                component, todo = {root}, [root]
                left.discard(root)
                while todo:
                    new = [state for state in before[todo.pop()] if state in left]
                    left.difference_update(new)
                    component.update(new)
                    todo.extend(new)
                yield component

    def finished(self, inside):
        """Some states in the order in which a search in depth is done with them."""
        members, seen, order = set(inside), set(), []
        for root in inside:
            todo = [] if root in seen else [(root, iter(self.edges[root]))]
            seen.add(root)
            while todo:
                state, rest = todo[-1]
                new = next((other for _, other in rest if other in members and other not in seen), None)
                if new is None:
                    order.append(state)
                    todo.pop()
                else:
                    seen.add(new)
                    todo.append((new, iter(self.edges[new])))
        return order

    # -- the way round

    def loop(self, state, component):
        """Lines that lead within a component from a state back to it, each choice among them."""
        here, left, lines = state, set(range(self.width)), []
        while left or here != state:
            way = self.nearest(here, component, lambda choice, to: choice in left if left else to == state)
            for choice in way:
                line, here = self.edges[here][choice]
                lines.append(line)
                left.discard(choice)
        return lines

    def nearest(self, start, component, is_wanted):
        """The choices that lead within a component to the nearest edge that is wanted, and over it."""
        before, left = {start: None}, deque([start])
        while left:
            state = left.popleft()
            for choice, (_, other) in enumerate(self.edges[state]):
                if other not in component:
                    continue
                if is_wanted(choice, other):
                    return self.choices(before, state) + [choice]
                if other not in before:
                    before[other] = (state, choice)
                    left.append(other)
        raise AssertionError("a component is connected, and has each choice")

    @staticmethod
    def choices(before, state):
        found = []
        while before[state]:
            state, choice = before[state]
            found.append(choice)
        return found[::-1]
