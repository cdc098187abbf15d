"""The workbench's findings, its child process and its server."""

import http.client
import json
import os
import tempfile
import threading
import unittest
from pathlib import Path
from typing import Any, Optional
from unittest import mock

from sozhipen_tools.reference.meaning.program import Program
from sozhipen_tools.reference.meaning.run import program_or_refusal
from sozhipen_tools.workbench import findings, work as work_module
from sozhipen_tools.workbench.child import answer
from sozhipen_tools.workbench.findings import fault_words, life_reasons
from sozhipen_tools.workbench.server import BODY_MOST, Workbench, WorkbenchServer

RULES = """declare Fire @role( event ) room : long end
declare Water @role( event ) room : long end
rule "no water" when
  $f : Fire( $r : room )
  not( Water( room == $r, this after[0s,10s] $f ) )
then end
rule "dear room" when Fire( room > 9007199254740993 ) then end
"""
SCRIPT = """{"do":"insert","type":"Fire","fields":{"room":1}}
{"do":"at","ms":10000}
{"do":"fire"}
{"do":"at","ms":10001}
{"do":"fire"}
{"do":"at","ms":1}
"""


def of_kind(said: list, kind: str) -> dict:
    return next(message for message in said if message["kind"] == kind)


def work(seconds: int = 60, **asked: Any) -> list:
    return answer({"do": "run", "title": "t", "rules": RULES, "script": SCRIPT, **asked}, seconds)


class Findings(unittest.TestCase):
    def test_words_are_those_of_the_documents(self) -> None:
        self.assertIn("below the floor", fault_words("Late"))
        self.assertIn("the world has begun", fault_words("ReferenceFixed"))
        self.assertEqual(fault_words("NoSuchCode"), "")

    def test_lives(self) -> None:
        more = b"declare Old @role( event ) @expires( 1s ) end declare P end rule p when P() Old() Fire() then end"
        program = program_or_refusal(RULES.encode() + more)
        assert isinstance(program, Program)
        self.assertEqual([(it["type"], it["life"]) for it in life_reasons(program)],
                         [("Fire", "infinite"), ("Water", "0"), ("Old", "explicit 1000")])


class OtherTools(unittest.TestCase):
    def test_refusals_and_advice(self) -> None:
        found = findings.refusals(b'declare A n : long end\nrule a when A( n = 1 ) A( m == 1 ) then end\n')
        self.assertEqual([(it["line"], it["column"], it["code"]) for it in found],
                         [(2, 18, "Syntax"), (2, 27, "UnknownField")])
        self.assertIn("correct the name", found[1]["words"].lower())
        found = findings.advice(b'declare A @role( event ) end rule a when A() from entry-point x then end')
        self.assertIn("undeclared-entry", [it["code"] for it in found])

    def test_reasons_of_lives(self) -> None:
        program = program_or_refusal(b"declare A @role( event ) end declare P end rule p when P() A() then end")
        assert isinstance(program, Program)
        self.assertIn('rule "p", condition 2: condition 1 is of the plain type `P`', life_reasons(program)[0]["why"])

    def test_reasons_of_lines(self) -> None:
        self.assertEqual([it["reasons"] for it in work() if it["kind"] == "fault"],
                         [["the clock is 10001, and would go to 1"]])
        said = of_kind(work(do="why", rule="no water", line=3, facts=[1]), "why")["lines"]
        self.assertIn("waits until the clock is 10001", "\n".join(said))


class Work(unittest.TestCase):
    def test_a_run(self) -> None:
        said = work()
        run = of_kind(said, "run")
        self.assertEqual([(it["line"], it["clock"], it["rule"], it["facts"], it["values"]) for it in run["firings"]],
                         [(5, 10001, "no water", [{"id": 1, "type": "Fire", "text": "room 1"}], "$r 1")])
        self.assertEqual([(it["line"], it["code"]) for it in run["faults"]], [(6, "ClockBack")])
        self.assertIn("<title>t</title>", of_kind(said, "timeline")["html"])
        self.assertEqual([it["life"] for it in of_kind(said, "lives")["lives"]], ["10000", "0"])

    def test_promises(self) -> None:
        """A line that promises is told of, and a faulty one is not."""
        script = "".join(f'{{"do":"promise","from":{start}}}\n' for start in (5, 4, 9))
        words = "no event that starts before {} comes into DEFAULT"
        self.assertEqual(of_kind(work(script=script), "run")["promises"],
                         [{"line": 1, "text": words.format(5)}, {"line": 3, "text": words.format(9)}])

    def test_a_refused_file(self) -> None:
        refused = of_kind(work(rules="rule"), "refused")
        self.assertEqual((refused["text"], refused["findings"][0]["line"]), ("refused item 1 line 1 Syntax", 1))

    @unittest.skipUnless(hasattr(os, "memfd_create"), "the program would be given a file in memory")
    def test_the_built_program(self) -> None:
        """Here a program that stands for it: it reads both files from memory."""
        with tempfile.TemporaryDirectory() as folder:
            program = Path(folder) / "replay_main"
            program.write_text('#!/bin/sh\necho "$1 $2"\ncat "$3" -\n')
            program.chmod(0o755)
            with mock.patch.object(work_module, "BUILT", program):
                self.assertEqual(list(work_module.built(b"declare A end\n", b'{"do":"fire"}\n')),
                                 ["--limit 2000", "declare A end", '{"do":"fire"}'])

    @unittest.skipUnless(hasattr(os, "memfd_create"), "the program would be given a file in memory")
    def test_a_program_that_was_built_elsewhere(self) -> None:
        with tempfile.TemporaryDirectory() as folder:
            program = Path(folder) / "replay"
            program.write_text("#!/bin/sh\necho held by another\n")
            program.chmod(0o755)
            said = work(program=str(program))
        self.assertEqual(of_kind(said, "accepted")["program"], f"the program {program}")
        self.assertEqual(of_kind(said, "output")["lines"], ["held by another"])

    def test_lines_to_add(self) -> None:
        types = of_kind(work(), "accepted")["types"]
        self.assertEqual(types[0], {"type": "Fire", "timestamp": None, "line": {"do": "insert", "type": "Fire",
                                                                                "fields": {"room": 0}}})

    def test_a_run_that_takes_too_long(self) -> None:
        rules = ('declare A n : long end rule "tick" when $a : A() $b : A() $c : A( n != $a.n ) then modify( $a ) { n '
                 '= $a.n + 1 } end')
        script = '{"do":"insert","type":"A","fields":{"n":1}}\n' * 1_200 + '{"do":"fire"}\n'
        said = work(seconds=2, rules=rules, script=script)
        self.assertEqual(said[-1]["kind"], "note")
        self.assertIn("ended after 2 s", said[-1]["text"])

    def test_a_rule_that_makes_itself_pending(self) -> None:
        rules = 'declare A n : long end rule "tick" when $a : A() then modify( $a ) { n = $a.n + 1 } end'
        said = work(rules=rules, script='{"do":"insert","type":"A","fields":{"n":1}}\n{"do":"fire"}\n')
        self.assertEqual(of_kind(said, "run")["printed"][-1]["text"], "limit 2000")


class Server(unittest.TestCase):
    def setUp(self) -> None:
        folder = tempfile.TemporaryDirectory()
        self.addCleanup(folder.cleanup)
        self.rules, self.script = Path(folder.name) / "rules.drl", Path(folder.name) / "script.jsonl"
        self.rules.write_text(RULES)
        self.server = WorkbenchServer(Workbench(self.rules, self.script, "t", 60), 0)
        thread = threading.Thread(target=self.server.serve_forever, kwargs={"poll_interval": 0.05})
        thread.start()
        self.addCleanup(thread.join)
        self.addCleanup(self.server.server_close)
        self.addCleanup(self.server.shutdown)
        self.port, self.token = self.server.server_address[1], self.server.workbench.token
        self.host = f"127.0.0.1:{self.port}"

    def ask(self, name: str, body: Any = None, token: Optional[str] = None, **changed: Any) -> tuple[int, Any]:
        """The status and the answer; `changed` are headers, with `_` for `-`, left out where they are None."""
        headers = {"Host": self.host, "Origin": f"http://{self.host}", "Content-Type": "application/json"}
        headers.update({name.replace("_", "-"): value for name, value in changed.items()})
        connection = http.client.HTTPConnection("127.0.0.1", self.port, timeout=60)
        self.addCleanup(connection.close)
        connection.putrequest("GET" if body is None else "POST", f"/{token or self.token}/{name}", skip_host=True)
        data = body if isinstance(body, bytes) else json.dumps(body).encode()
        for key, value in {"Content-Length": str(len(data)) if body is not None else None, **headers}.items():
            if value is not None:
                connection.putheader(key, value)
        connection.endheaders(None if body is None else data)
        self.reply = connection.getresponse()
        text = self.reply.read().decode()
        return (self.reply.status, json.loads(text) if self.reply.headers.get_content_type() == "application/json"
                else text)

    def test_only_the_loopback_address(self) -> None:
        self.assertEqual(self.server.server_address[0], "127.0.0.1")

    def test_the_page(self) -> None:
        status, text = self.ask("", Origin=None)
        self.assertEqual(status, 200)
        self.assertIn("page.js", text)
        policy = self.reply.headers["Content-Security-Policy"]
        self.assertIn("default-src 'none'; script-src 'self'", policy)
        self.assertNotIn("http", policy)
        self.assertFalse([name for name in self.reply.headers if name.lower().startswith("access-control")])
        self.assertEqual(self.ask("texts")[1]["script"], {"name": "script.jsonl", "text": ""})
        self.assertEqual(self.ask("../../etc/passwd")[0], 404)

    def test_who_may_not_ask(self) -> None:
        changes: tuple[dict[str, Any], ...] = ({"token": "x" * 32}, {"Host": "evil.example"}, {"Host": "localhost"},
                                               {"Host": None}, {"Origin": "http://evil.example"}, {"Origin": "null"},
                                               {"Sec_Fetch_Site": "cross-site"})
        for changed in changes:
            self.assertEqual(self.ask("texts", **changed)[0], 403, changed)
            self.assertEqual(self.ask("save", {"file": "rules", "text": ""}, **changed)[0], 403, changed)
        self.assertEqual(self.ask("save", {"file": "rules", "text": ""}, Origin=None)[0], 403)
        self.assertEqual(self.rules.read_text(), RULES)

    def test_what_is_too_much_or_none(self) -> None:
        asks: list[tuple[Any, int, dict[str, Any]]] = [
            (b"", 413, {"Content_Length": str(BODY_MOST + 1)}), (b"x", 400, {}), (b"[]", 400, {}),
            ({"rules": "", "script": 5}, 400, {}), ({"rules": "x" * (1 << 20) + "x", "script": ""}, 413, {}),
            ({"rules": "", "script": "\n" * 5001}, 413, {}), ({}, 415, {"Content_Type": "text/plain"}),
            (b"", 411, {"Content_Length": None}), ({"rules": "\ud800", "script": ""}, 413, {})]
        for body, status, changed in asks:
            shown = body if len(str(body)) < 99 else ".."
            self.assertEqual(self.ask("run", body, **changed)[0], status, (shown, status))
        wrongs: tuple[dict[str, Any], ...] = ({"line": "1"}, {"line": 1, "facts": [True]},
                                              {"line": 1, "facts": [1] * 21})
        for wrong in wrongs:
            self.assertEqual(self.ask("why", {"rules": "", "script": "", "rule": "a", **wrong})[0], 400)

    def test_a_run_and_its_time_line(self) -> None:
        said = self.ask("run", {"rules": RULES, "script": SCRIPT})[1]["said"]
        self.assertEqual(of_kind(said, "timeline"), {"kind": "timeline", "run": 1})
        status, text = self.ask("timeline/1", Origin=None)
        self.assertEqual((status, "no water" in text), (200, True))
        self.assertIn("sandbox allow-scripts", self.reply.headers["Content-Security-Policy"])
        self.assertEqual(self.ask("timeline/2")[0], 404)
        self.assertEqual((self.rules.read_text(), self.script.exists()), (RULES, False))

    def test_saving(self) -> None:
        self.ask("texts")
        self.assertEqual(self.ask("save", {"file": "script", "text": SCRIPT})[0], 200)
        self.assertEqual(self.script.read_text(), SCRIPT)
        self.script.write_text("changed by another")
        status, said = self.ask("save", {"file": "script", "text": ""})
        self.assertEqual((status, "changed by another" in said["error"], self.script.read_text()),
                         (409, True, "changed by another"))
        self.assertEqual(self.ask("save", {"file": "/etc/passwd", "text": ""})[0], 400)


if __name__ == "__main__":
    unittest.main()
