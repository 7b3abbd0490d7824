"""Forms of several files, as browsers and `curl -F` send them (multipart/form-data, RFC 7578), parsed by aiohttp while
they arrive."""
import contextlib
import email
import email.utils
from typing import AsyncGenerator, Iterator, NamedTuple

from aiohttp import BodyPartReader, MultipartReader, http_exceptions


from walrus.network.gateway.http.errors import Problem

from .source import Parts, Source

PART = 32_768  # bytes of a file that are read at once
FAULTS = (
    ValueError,
    LookupError,
    AssertionError,
    RuntimeError,
    http_exceptions.HttpProcessingError,
)  # what aiohttp raises for a malformed form
# A file of a form: its name, its field's name, and its bytes, which must be read before the next file.
Sent = NamedTuple("Sent", [("name", str), ("field", str), ("parts", Parts)])


async def files_of(kind: str, source: Source, asked: str) -> AsyncGenerator[Sent, None]:
    """Yields the files of a form of media type `kind`. Raises `Problem`, with `asked` as advice, if it is malformed."""
    try:
        told = email.message_from_string(f"Content-Type: {kind}\n\n")
        bound = told.get_boundary() or ""
    except (ValueError, TypeError, LookupError):
        raise Problem(415, asked) from None
    if told.get_content_type() != "multipart/form-data" or not 1 <= len(bound) <= 70:
        raise Problem(415, asked)
    with must_be_form(asked):
        reader = MultipartReader({"Content-Type": f'multipart/form-data; boundary="{bound}"'}, source)  # type: ignore
        while part := await reader.next():
            if not isinstance(part, BodyPartReader):
                raise Problem(400, f"a form may not contain another form: {asked}")
            yield Sent(*names_in(part.headers.get("Content-Disposition", "")), parts_of(part, asked))
    await source.rest()


async def parts_of(part: BodyPartReader, asked: str) -> AsyncGenerator[bytes, None]:
    with must_be_form(asked):
        while data := await part.read_chunk(PART):
            yield data


@contextlib.contextmanager
def must_be_form(asked: str) -> Iterator[None]:
    """Turns what aiohttp raises for a malformed form into a `Problem` with status 400."""
    try:
        yield
    except FAULTS:
        raise Problem(400, f"the form breaks off or is malformed: {asked}") from None


def names_in(text: str) -> tuple[str, str]:
    """Returns the names of a file and of its field in a part's Content-Disposition, or raises `Problem`."""
    told = email.message_from_string(f"Content-Disposition: {text}\n\n")
    try:
        text.encode()
        field = email.utils.collapse_rfc2231_value(told.get_param("name", "", "Content-Disposition"))
        name = told.get_filename() or ""
        f"{name}{field}".encode()
    except (ValueError, TypeError, LookupError) as fault:
        raise Problem(400, f"the name of a file cannot be read: {fault}") from None
    return name, field
