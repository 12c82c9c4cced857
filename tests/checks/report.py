"""How a check ends: its failures, and the line `N passed, M failed`."""


def end(results):
    """results: pairs of what was looked at and whether it is so. Nothing looked at is a failure."""
    for text, good in results:
        if not good:
            print(f"error: {text}")
    if not results:
        print("error: nothing was looked at")
    failed = sum(1 for _, good in results if not good) or (0 if results else 1)
    print(f"{sum(1 for _, good in results if good)} passed, {failed} failed")
    return 1 if failed else 0
