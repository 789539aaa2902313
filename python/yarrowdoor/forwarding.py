"""Attributes whose value another object has."""
from __future__ import annotations

from typing import Any, Generic, NoReturn, TypeVar

__all__ = ["Forwarded", "Settable"]

_Value = TypeVar("_Value")


class Forwarded(Generic[_Value]):
    """An attribute that is the one of the same name of another object, which is in the attribute `owner`. It is not set."""

    def __init__(self, owner: str, text: str) -> None:
        self._owner, self.__doc__ = owner, text

    def __set_name__(self, kind: type, name: str) -> None:
        self._name = name

    def __get__(self, of: Any, kind: Any = None) -> _Value:
        found: _Value = self if of is None else getattr(getattr(of, self._owner), self._name)
        return found

    def __set__(self, of: Any, value: NoReturn) -> None:
        raise AttributeError(f"{self._name} is not set")


class Settable(Forwarded[_Value]):
    """One that is set too."""

    def __set__(self, of: Any, value: _Value) -> None:
        setattr(getattr(of, self._owner), self._name, value)
