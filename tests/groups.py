"""Groups of tests. The name of a test is that of its group, a dot, and its own."""


class Test:
    """A test: a name and a function that is called with a fixture. Long ones are started first."""

    def __init__(self, name, function, is_long=False):
        self.name, self.function, self.is_long = name, function, is_long


class Group:
    def __init__(self, name):
        self.name, self.tests = name, []

    def add(self, name, function, is_long=False):
        self.tests.append(Test(f"{self.name}.{name}", function, is_long))

    def test(self, function):
        """A decorator: this function is a test."""
        self.add(function.__name__, function)
        return function

    def long_test(self, function):
        """The same for a test that takes seconds."""
        self.add(function.__name__, function, is_long=True)
        return function


def selected(tests, words):
    """The tests that these words name, each by its name or by the front of it up to a dot. Without words all of them."""
    if not words:
        return list(tests)
    return [test for test in tests if any(test.name == word or test.name.startswith(word.rstrip("./") + ".") for word in words)]
