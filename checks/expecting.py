"""What the checks expect, and how often they were let down."""

failed = 0


def expect(name, found, wanted):
    global failed
    if found != wanted:
        failed += 1
        print(f"{name}: found {str(found)[:300]}, wanted {str(wanted)[:300]}")


def ends(name, note=""):
    """Prints how a check ended: its status."""
    print(f"{name}: {note}{f'{failed} failed' if failed else 'ok'}")
    return 1 if failed else 0
