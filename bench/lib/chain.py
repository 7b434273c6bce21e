"""The longest chain of crates that stand on one another, by the processor minutes of their proofs."""


def longest_chain(crates, minutes):
    """Returns the crates that stand on one another and take the most minutes together."""
    heavy = lambda chain: sum(minutes[it] for it in chain)
    chains = {}
    # (lowest first, so that the chains of those below are known)
    for crate in crates.values():
        below = max((chains[it.name] for it in crate.deps), key=heavy, default=[])
        chains[crate.name] = [*below, crate.name]
    return max(chains.values(), key=heavy)


def told_chain(crates, minutes):
    """Returns a line on the longest chain, and its share of all proofs."""
    chain = longest_chain(crates, minutes)
    names = ", ".join(f"{it} {minutes[it]:.1f}" for it in chain)
    return f"Longest chain: {names}: {sum(minutes[it] for it in chain):.1f} of {sum(minutes.values()):.1f} processor minutes."
