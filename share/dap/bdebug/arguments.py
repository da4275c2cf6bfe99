"""The arguments of a request."""
from .program import Refused


def argument(arguments: dict, name: str, kind=object, default=None):
    """A member of the arguments, which has to be of this kind; a Refused tells what isn't."""
    value = arguments.get(name, default)
    is_wrong = isinstance(value, bool) and kind is int or not isinstance(value, kind)
    if is_wrong and not (name not in arguments and default is None and kind is object):
        raise Refused(f"{name} is missing or wrong")
    return value


def optional(arguments, name, kind, default):
    """The same of one that may be missing, or null."""
    return default if arguments.get(name) is None else argument(arguments, name, kind)
