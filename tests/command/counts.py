"""The checks of a program of this test, counted."""
results = []


def check(true, what):
    results.append(bool(true))
    if not true:
        print("FAIL:", what)


def last_line():
    """Prints how many checks passed, which the test adds to its own."""
    print(f"{results.count(True)} passed, {results.count(False)} failed")
