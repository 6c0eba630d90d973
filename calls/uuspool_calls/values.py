"""Values of named parts. The module typing takes a third of a start to load, so only mypy reads it."""
from operator import itemgetter

TYPE_CHECKING = False
if TYPE_CHECKING:
    from typing import Any as Any
    from typing import NamedTuple as NamedTuple
    from typing import Self as Self
else:
    Any = Self = object

    class NamedTuple(tuple):
        """What typing.NamedTuple makes of a class, as far as it is used here."""

        _fields = ()
        _field_defaults = {}

        def __init_subclass__(cls):
            cls._fields = tuple(cls.__annotations__)
            cls._field_defaults = {name: getattr(cls, name) for name in cls._fields if name in cls.__dict__}
            for at, name in enumerate(cls._fields):
                setattr(cls, name, property(itemgetter(at)))

        def __new__(cls, *values, **named):
            rest, its = cls._fields[len(values) :], {**cls._field_defaults, **named}
            if len(values) > len(cls._fields) or not named.keys() <= set(rest) <= its.keys():
                raise TypeError(f"{cls.__name__} has the parts {', '.join(cls._fields)}")
            return tuple.__new__(cls, (*values, *map(its.__getitem__, rest)))

        def __repr__(self):
            return f"{type(self).__name__}{tuple(self)}"

        def _asdict(self):
            return dict(zip(self._fields, self))

        def _replace(self, **changes):
            return type(self)(**{**self._asdict(), **changes})
