"""The least budget of decisions with which a program answers."""

MOST_DECISIONS = 10000


def least_budget(answers):
    """The least budget that is answered, by halving, where the greatest one is."""
    low, high = -1, MOST_DECISIONS
    while high - low > 1:
        middle = (low + high) // 2
        if answers(middle):
            high = middle
        else:
            low = middle
    return high
