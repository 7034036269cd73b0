"""States of a run between its events, as the program writes them."""
from debugger.listing import Listing
from debugger.places import Run, Trouble, place_of_state
from debugger.state import State


def states(program, text, events):
    """The state before each of these events of a listing's run; they are given in their order. The program waits at each
    of them, and a copy of it writes the state (debugger/places.py)."""
    listing = Listing(text)
    run = Run(program, listing.statements, listing.schedule)
    try:
        going = run.begun("run")
        run.quick.append(going)
        for event in events:
            going.go(event)
            data = going.copy().end()
            at = place_of_state(data)
            if at is None:
                raise Trouble(f"{program} ended without a state")
            yield State(data[at:])
    finally:
        run.close()


__all__ = ["Trouble", "states"]
