"""The result of one thing that is shown."""

from dataclasses import dataclass


@dataclass(frozen=True)
class Outcome:
    """The place of the expectation, the line that reports the result, and what else helps with a failure."""

    place: str
    line: str
    detail: str | None = None

    @property
    def has_passed(self) -> bool:
        return self.detail is None
