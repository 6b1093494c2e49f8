"""The script `map`: a picture of a network with its hubs, trunks and spokes."""

from __future__ import annotations

from . import pythons
from .faults import Parser
from .files import picture_path, put_all
from .options import options_of
from .tables import add_accepted, read_named


def parser() -> Parser:
    """The command line."""
    words = Parser(description="a picture of a network: nodes, hubs, trunks and spokes", epilog=EPILOG)
    add_accepted(words)
    words.add_argument("--title", default="", help="a line above the cost")
    words.add_argument("--out", required=True, help="the picture: a name that ends in .svg, .png or .pdf")
    return words


def main(words: list[str]) -> int:
    """Draws a network."""
    args = parser().parse_args(words)
    path = picture_path(args.out)
    pythons.want("numpy", "matplotlib")
    from .drawing import picture, picture_bytes
    from .places import positions

    named = read_named(options_of(args), args.certificate, args.names)
    places, note = positions(named.network.instance, args.names)
    put_all({path: picture_bytes(picture(named, places, args.title, note), path.suffix)})
    return 0


EPILOG = """A node's area tells its flow in and out, a line's width the flow both ways. Without places in the instance
or the table of names, nodes are placed by their distances. A certificate that hub check does not accept is not
drawn."""
