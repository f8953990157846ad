"""Templates of a map: which texts of a record make a name, and which an event.

`admit({patient},{bed})` takes two fields of a record. What stands around a field stays
as it is: `p{patient}` makes `p177` of 177. An argument without a field is a name or a
whole number of `ec`.
"""

from __future__ import annotations

import re
from dataclasses import dataclass
from typing import List, Mapping, Tuple, Union

from .errors import HistoryError
from .names import Form, NameFault, Names
from .terms import MOST_ARGUMENTS, is_name, number_value


class TemplateFault(HistoryError, ValueError):
    """A template that makes no name or no event."""


class FieldFault(HistoryError, ValueError):
    """A field of a record that makes no argument; the message says what to do."""


@dataclass(frozen=True)
class NameTemplate:
    """A name made of literal pieces and fields."""

    form: Form
    fields: Tuple[str, ...]

    @classmethod
    def read(cls, text: str, kind: str) -> "NameTemplate":
        fields = tuple(re.findall(r"\{([^{}]*)\}", text))
        literal = re.sub(r"\{[^{}]*\}", "{}", text)
        rest = literal.replace("{}", "")
        if not re.fullmatch("[A-Za-z0-9_]*", rest) or literal[:1].isupper():
            raise TemplateFault(
                f"in `{text}` only letters, digits and `_` may stand beside a field, "
                "and a name begins with a lower case letter"
            )
        if not fields and not is_name(text):
            raise TemplateFault(f"`{text}` is no name of ec and has no field in braces")
        return cls(Form(kind, literal), fields)

    def fill(self, record: Mapping[str, str], names: Names) -> str:
        """The name for a record; raises FieldFault."""
        if not self.fields:
            return self.form.text
        parts = self.parts(record)
        for field, part in zip(self.fields, parts):
            if not part:
                raise FieldFault(f"column {field}: it is empty")
        try:
            return names.name_of(self.form, parts)
        except NameFault as fault:
            raise FieldFault(f"column {self.fields[0]}: {fault}") from None

    def parts(self, record: Mapping[str, str]) -> Tuple[str, ...]:
        """The texts of its fields."""
        return tuple(record[field] for field in self.fields)


@dataclass(frozen=True)
class NumberTemplate:
    """An argument that is a number: of a field, or as it stands."""

    field: str
    value: str = ""
    drop_zeros: bool = False

    @property
    def fields(self) -> Tuple[str, ...]:
        return (self.field,) if self.field else ()

    def fill(self, record: Mapping[str, str], names: Names) -> str:
        """The number of a record; raises FieldFault."""
        if not self.field:
            return self.value
        text = record[self.field].strip()
        value = number_value(text)
        if value is None:
            raise FieldFault(
                f"column {self.field}: {text!r} is no whole number of 64 bits"
            )
        if str(value) != text and not self.drop_zeros:
            raise FieldFault(
                f"column {self.field}: {text} has leading zeros, and ec would read it "
                f'as {value}: say `zeros = "drop"` or `kind = "name"` under '
                f"[columns.{self.field}]"
            )
        return str(value)


Argument = Union[NameTemplate, NumberTemplate]


@dataclass(frozen=True)
class EventTemplate:
    """An event: its name and its arguments."""

    name: NameTemplate
    arguments: Tuple[Argument, ...]

    @classmethod
    def read(cls, text: str, numbers: Mapping[str, bool]) -> "EventTemplate":
        """The template of a text.

        `numbers` has the columns that hold numbers, and whether leading zeros may be
        dropped there.
        """
        found = re.fullmatch(r"((?:[^(){},]|\{[^{}]*\})+)(?:\((.*)\))?", text.strip())
        if found is None or found[2] == "":
            raise TemplateFault(f"`{text}` is no event: write `name({{column}},..)`")
        name = NameTemplate.read(found[1].strip(), "name")
        texts = _split(found[2]) if found[2] is not None else []
        if len(texts) > MOST_ARGUMENTS:
            raise TemplateFault(f"`{text}` has over {MOST_ARGUMENTS} arguments")
        return cls(name, tuple(_argument(part, numbers) for part in texts))

    @property
    def fields(self) -> Tuple[str, ...]:
        """The columns that the event takes."""
        of_arguments = (field for part in self.arguments for field in part.fields)
        return (*self.name.fields, *of_arguments)

    def fill(self, record: Mapping[str, str], names: Names) -> str:
        """The event of a record; raises FieldFault."""
        name = self.name.fill(record, names)
        if not self.arguments:
            return name
        parts = [part.fill(record, names) for part in self.arguments]
        return f"{name}({','.join(parts)})"


def _split(text: str) -> List[str]:
    """The texts between the commas that stand in no braces."""
    pieces = re.findall(r"\{[^{}]*\}|[^,{}]+|[,{}]", text)
    parts = [""]
    for piece in pieces:
        if piece == ",":
            parts.append("")
        else:
            parts[-1] += piece
    return [part.strip() for part in parts]


def _argument(text: str, numbers: Mapping[str, bool]) -> Argument:
    whole = re.fullmatch(r"\{([^{}]*)\}", text)
    if whole and whole[1] in numbers:
        return NumberTemplate(whole[1], drop_zeros=numbers[whole[1]])
    if number_value(text) is not None:
        return NumberTemplate("", str(number_value(text)))
    template = NameTemplate.read(text, "name")
    for field in template.fields:
        if field in numbers:
            raise TemplateFault(f"`{text}`: a number stands alone as an argument")
    return template
