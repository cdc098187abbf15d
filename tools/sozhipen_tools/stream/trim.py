"""Takes away what a stream no longer wants: lines that are in the images, and answers that were read.

    tools/run stream.trim [--redis SERVER | --jetstream SERVER] [--answers NUMBER]

Of the script of each partition the entries before the last one in its image go; with --answers also the answers to
lines before line NUMBER of the script, up to which the reader has them. The last entry of a log stays, from which
routers and workers know how far it is. It may run at any time beside them. A line for each partition is printed: the
number of the last line in its image.
"""

from __future__ import annotations

import argparse
import sys

from ..words import Parser
from .broker import Broker, answers_of, script_of, state_of, until_reached
from .brokers import broker_of, broker_words
from .routes import partitions_of


def trim(broker: Broker, partition: int, answers: int) -> int:
    """Trims the logs of a partition; the offset of its image."""
    offset = broker.offset(state_of(partition))
    broker.trim(script_of(partition), offset)
    broker.trim(answers_of(partition), answers)
    return offset


def asked() -> argparse.Namespace:
    parser = Parser(description=__doc__, formatter_class=argparse.RawDescriptionHelpFormatter)
    parser.add_argument("--answers", metavar="NUMBER", type=int, default=0, help="answers to lines before this one go")
    broker_words(parser)
    return parser.parse_args()


def main() -> int:
    words = asked()
    broker = broker_of(words)
    for partition in range(until_reached(lambda: partitions_of(broker))):
        print(f"{partition} {until_reached(lambda: trim(broker, partition, words.answers))}")
    return 0


if __name__ == "__main__":
    sys.exit(main())
