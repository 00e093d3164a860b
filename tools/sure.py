"""What a tool holds for true before it goes on. No flag of Python turns it off, as -O does an assert."""


def sure(holds, *what):
    if not holds:
        raise AssertionError(*what)
