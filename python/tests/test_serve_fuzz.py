"""Requests that no client means, of which none is answered by a fault or not at all."""
import os
import unittest
from concurrent.futures import ThreadPoolExecutor

from fuzzing import fuzz
from serving import FEED, ServeCase

from misteluk import Store
from misteluk.serve.limits import ServerLimits
from misteluk.serve.people import People
from misteluk.serve.server import Server

# How many requests there are; a release has 10,000.
COUNT = int(os.environ.get("MISTELUK_FUZZ", "4000"))


class Fuzz(ServeCase):
    def test_requests_by_chance(self):
        self.fed()
        before = self.rows_of("/v1/edges?kind=owes")
        with ThreadPoolExecutor(4) as pool:
            found = list(pool.map(lambda seed: fuzz(self.server.address.port, COUNT // 4, seed), range(4)))
        self.assertEqual([it for wrong, _ in found for it in wrong], [])
        self.assertGreater(sum(well for _, well in found), COUNT // 20)
        self.assertEqual(self.rows_of("/v1/edges?kind=owes"), before)
        self.assertIn(self.post("/v1/rows", {"rows": FEED}).status, (200, 409))  # (a request by chance may have taken the seat)

    def test_a_store_with_a_file(self):
        """Its calls ask the file too."""
        with Store(str(self.room / "graph.db"), seats=16, sync="off") as store, Server(
                store, "127.0.0.1:0", limits=ServerLimits(time=0.5)) as self.server:
            self.assertEqual(self.post("/v1/rows", {"rows": FEED}).status, 200)
            wrong, well = fuzz(self.server.address.port, COUNT // 8, 5)
            self.assertEqual((wrong, well > COUNT // 160), ([], True))

    def test_with_roles(self):
        """By people of each role, and by some that are none: who only reads changes nothing."""
        path = self.file("people", "rita read token-of-rita\nfred feed token-of-fred\nalma admin token-of-alma\n")
        os.chmod(path, 0o600)
        self.serve(people=People(path))
        self.assertEqual(self.post("/v1/rows", {"rows": FEED}, Authorization="Bearer token-of-fred").status, 200)
        for tokens in (("token-of-rita", "token-of-nobody"), ("token-of-fred", "token-of-alma", "token-of-rita")):
            wrong, well = fuzz(self.server.address.port, COUNT // 16, 9, tokens=tokens)
            self.assertEqual((wrong, well > COUNT // 320), ([], True))
            if "token-of-fred" not in tokens:
                self.assertEqual(self.server.board.stat.version, 1)


if __name__ == "__main__":
    unittest.main()
