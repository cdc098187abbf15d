"""The class Desk over the library, beside a Session over a program that behaves as `desk`. It is skipped where there is
no library; SOZHIPEN_LIBRARY names one."""

import io
import os
import threading
import unittest
from pathlib import Path
from typing import Any

from support import TOP
from test_client import BILLS, READINGS, Case
from test_desk_client import ENDLESS

from sozhipen import Client, Desk, Ended, Faulty, NoProgram, Ordered, Session
from sozhipen.library import Engine, places
from sozhipen_tools.places import command_of

SMOKE = TOP / "examples" / "smoke.drl"
LOOP = """declare Item n : long end
rule "more" when $i : Item( $n : n ) then insert( new Item( $n + 1 ) ); end
"""


@unittest.skipUnless(any(place.is_file() for place in places()), f"there is no library {places()[-1]}")
class Embedded(Case):
    def both(self, rules: str, **options: Any) -> tuple[Client, Client]:
        """A desk in this process, and one over a pipe."""
        session = self.session(rules, command_of("reference.desk"), live=True, **options)
        desk = Desk(self.file("rules.drl", rules), **options)
        self.addCleanup(desk.kill)
        return desk, session

    def test_one_interface(self) -> None:
        seen = []
        for client in self.both(BILLS):
            order = client.insert("Order", {"number": 1, "cents": 5, "paid": False}).fact
            assert order is not None
            firing, *rest = client.fire()
            told = [[it.values for it in facts] for facts in (firing.facts, firing.made, firing.modified)]
            held, faulty = client.held(), client.modify("Order", 9, {"cents": 1})
            seen.append((order.id, order.values, firing.rule, dict(firing.names)["n"], told, len(rest), held.held,
                         str(faulty.fault), [it.values for it in client.kept()], client.counts()["kept"],
                         client.clock, client.lines, client.close()))
        self.assertEqual(seen[0], seen[1])

    def test_events_in_order(self) -> None:
        seen = []
        for client in self.both(READINGS):
            ordered = Ordered(client)
            for arrived, at, value in ((1000, 900, 1), (2000, 1500, 5), (2500, 1200, 3)):
                ordered.until(arrived)
                ordered.insert("Reading", {"at": at, "value": value}, "plant")
            seen.append([(it.rule, it.line, it.clock, it.results) for answer in ordered.rest() for it in answer])
            client.close()
        self.assertEqual(seen[0], seen[1])
        self.assertTrue(seen[0])

    def test_faults_as_the_caller_wants_them(self) -> None:
        for client in self.both(READINGS, raises=True):
            with self.assertRaises(Faulty) as told:
                client.insert("Reading", {"at": 0})
            self.assertEqual((told.exception.fault.code, told.exception.fault.line), ("BadFields", 1))
            client.at(10)
            with self.assertRaises(Faulty):
                client.at(5)
            self.assertEqual((client.clock, client.lines, client.close()), (10, 3, 1))

    def test_faults_among_lines_that_wait(self) -> None:
        with Desk(text=READINGS) as desk:
            answers = [desk.insert("Limit", {"value": k} if k % 3 else {"valve": k}) for k in range(10)]
            self.assertEqual([it.fault.code if it.fault else None for it in answers[:4]],
                             ["BadFields", None, None, "BadFields"])
            self.assertEqual([fault.line for fault in desk.faults], [1, 4, 7, 10])
            self.assertEqual(desk.known_counts()["faults"], {"BadFields": 4})

    def test_firings_one_by_one(self) -> None:
        for client in self.both(ENDLESS):
            client.insert("Clock", {"ticks": 0})
            found = []
            for firing in client.each_firing():
                found.append(firing.facts[0]["ticks"])
                if len(found) == 4:
                    break
            self.assertEqual((found, client.lines), ([0, 1, 2, 3], 5))

    def test_images(self) -> None:
        path = self.folder / "image"
        with Desk(SMOKE, image=path) as desk:
            desk.insert("Smoke", {"room": "hall"})
            image = desk.save()
            self.assertEqual(path.read_bytes(), image)
            desk.at(20_000)
            self.assertEqual([it.names["r"] for it in desk.fire()], ["hall"])
        self.assertNotEqual(path.read_bytes(), image)
        with Desk(SMOKE, image=image) as desk:
            self.assertEqual((desk.lines, desk.clock, desk.counts()["pending"]), (2, 0, 0))
            desk.at(20_000)
            self.assertEqual([it.line for it in desk.fire()], [5])
        with self.assertRaises(Ended) as told:
            Desk(SMOKE, image=b"nonsense")
        self.assertEqual((told.exception.status, told.exception.said), (9, "refused checkpoint BadImage"))
        self.assertRaises(Ended, Desk, text="rule")
        self.assertRaises(NoProgram, Desk, "no such file")

    def test_bounds(self) -> None:
        with Desk(text=LOOP, limit=3) as desk:
            desk.insert("Item", {"n": 1})
            answer = desk.fire()
            self.assertEqual((answer.fired, answer.limit, answer.pending), (3, 3, True))
        desk = Desk(text=LOOP, memory=2_000_000)
        with self.assertRaises(Ended) as told:
            for n in range(1_000_000):
                desk.insert("Item", {"n": n})
        self.assertEqual(told.exception.status, 7)
        self.assertRaises(Ended, desk.close)
        self.assertEqual(desk.engine.memory(), 0)

    def test_record_and_answers_as_they_come(self) -> None:
        lines, seen = io.BytesIO(), []
        with Desk(SMOKE, record=lines, on_answer=lambda answer: seen.append(answer.text)) as desk:
            desk.insert("Smoke", {"room": 'the "fault": hall'})
            desk.send_line("no line")
        self.assertEqual(lines.getvalue().decode().splitlines(), seen)
        self.assertEqual(len(seen), 2)

    def test_threads(self) -> None:
        """Several threads with desks of their own, and all in one."""
        with Desk(text=LOOP) as shared:
            def work() -> None:
                with Desk(text=LOOP) as own:
                    for n in range(20):
                        own.insert("Item", {"n": n})
                        self.assertIsNotNone(shared.insert("Item", {"n": n}).fact)
                    self.assertEqual(own.counts()["kept"], {"Item": 20})
            threads = [threading.Thread(target=work) for _ in range(6)]
            for thread in threads:
                thread.start()
            for thread in threads:
                thread.join()
            self.assertEqual(shared.counts()["kept"], {"Item": 120})

    def test_the_handle(self) -> None:
        engine = Engine(SMOKE.read_bytes(), as_text=True)
        script = Path(TOP, "examples", "smoke.jsonl").read_bytes()
        for at in range(0, len(script), 7):
            engine.feed(script[at:at + 7])
        self.assertEqual(engine.end(), 0)
        told = b"".join(line for line in engine.output().splitlines(True) if not line.startswith(b"done "))
        self.assertEqual(told, Path(TOP, "examples", "smoke.out").read_bytes())
        engine.close()

    def test_another_that_begins(self) -> None:
        desk = Desk(text=LOOP)
        desk.insert("Item", {"n": 1})
        with desk.restart() as again:
            self.assertEqual(again.kept(), [])
        self.assertRaises(Ended, desk.insert, "Item", {"n": 1})


class Without(unittest.TestCase):
    def test_no_library(self) -> None:
        kept, Engine.library = Engine.library, None
        named = os.environ.get("SOZHIPEN_LIBRARY")
        os.environ["SOZHIPEN_LIBRARY"] = "/no/such/library"
        try:
            self.assertRaises(NoProgram, Desk, SMOKE)
        finally:
            Engine.library = kept
            os.environ.pop("SOZHIPEN_LIBRARY")
            os.environ.update({} if named is None else {"SOZHIPEN_LIBRARY": named})


if __name__ == "__main__":
    unittest.main()
