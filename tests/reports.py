"""How a test that looks through sources or documents reports: each fault by its name, then the counts."""


def report(judged: dict[str, list[str]]) -> list[str]:
    """A line for each fault of what was judged, then how many have none and how many have some."""
    lines = [f"{name}: {fault}" for name, faults in judged.items() for fault in faults]
    failed = sum(1 for faults in judged.values() if faults)
    return [*lines, f"{len(judged) - failed} passed, {failed} failed"]
