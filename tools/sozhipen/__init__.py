"""A client of the programs `replay` and `desk` (docs/LIVE.md), and the engine in this process (docs/EMBEDDING.md).

    from sozhipen import Desk, Session
"""

from .answers import Answer, ClientError, Ended, Fact, Fault, Faulty, Firing, NoProgram, NotKnown
from .client import Client
from .desk import Desk
from .lines import Script
from .ordering import Ordered
from .programs import program_words
from .session import Session
from .times import date_of, milliseconds

__all__ = ["Answer", "Client", "ClientError", "Desk", "Ended", "Fact", "Fault", "Faulty", "Firing", "NoProgram",
           "NotKnown", "Ordered", "Script", "Session", "date_of", "milliseconds", "program_words"]
