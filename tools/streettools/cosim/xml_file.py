"""A file in XML, as SUMO has them, read whole."""

import gzip
import pathlib
import zlib
from xml.etree import ElementTree as xml

from ..shared.fault import Fault
from ..shared.status import Status


def root_of(path: pathlib.Path) -> xml.Element:
    """Returns the first element of a file, which may be compressed (.gz)."""
    try:
        with gzip.open(path) if path.suffix == ".gz" else open(path, "rb") as text:
            return xml.parse(text).getroot()
    except OSError as fault:
        raise Fault(f"{path}: {fault.strerror or fault}", Status.FILE) from None
    except (EOFError, zlib.error) as fault:
        raise Fault(f"{path}: not compressed as .gz: {fault}") from None
    except (xml.ParseError, LookupError, ValueError) as fault:  # the latter two: an encoding that isn't known
        raise Fault(f"{path}: no XML: {fault}") from None
