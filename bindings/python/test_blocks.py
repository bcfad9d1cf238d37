"""Jobs of many blocks and of subtrees: late ones, those of threads that share the work, and the workers of a shared vector. Run it with
`python3 test_blocks.py`."""
import threading
import time
import unittest
from typing import Any

import livevec
from livevec import SharedVector, Taken, Vector

SIZE = 30004


class Blocks(unittest.TestCase):
    def test_batches_come_late(self) -> None:
        vector, blocks = Vector(range(SIZE)), SIZE // 8
        first, again = vector.copy_blocks(), vector.copy_blocks()
        self.assertEqual((len(first), repr(first)), (blocks, f"<livevec.Batch of {blocks} blocks>"))
        vector[17] = 0
        vector.truncate(SIZE - 5)
        self.assertRaises(livevec.Closed, vector.take_in, first)
        for batch, wanted in ((first, Taken(blocks - 2, 0, 2, 0)), (again, Taken(0, blocks - 2, 2, 0))):
            batch.run()
            self.assertRaises(livevec.Closed, batch.run)
            self.assertEqual(vector.take_in(batch), wanted)
            self.assertRaises(livevec.Closed, vector.take_in, batch)
        self.assertIsNone(vector.copy_blocks(3))
        self.assertEqual(len(vector.copy_blocks(0, 3)), 1)
        self.assertEqual(vector.reduce().values.sum, sum(range(SIZE - 5)) - 17)

    def test_strangers_and_wrong_arguments_change_nothing(self) -> None:
        other, batch = Vector([5] * 100), Vector(range(SIZE)).copy_blocks(0, 12)
        batch.run()
        self.assertEqual((other.take_in(batch), other.sum()), (Taken(0, 0, 0, 12), 500))
        self.assertRaises(TypeError, other.take_in, None)
        self.assertRaises(OverflowError, other.copy_blocks, -1)
        self.assertRaises(OverflowError, other.copy_blocks, 0, 1 << 32)
        self.assertRaises(livevec.Closed, livevec.Batch().run)
        other.close()
        self.assertRaises(livevec.Closed, other.copy_blocks)

    def test_threads_share_the_work_by_ranges_apart(self) -> None:
        vector, lock, at, stale = Vector(range(SIZE)), threading.Lock(), [0], []

        def work() -> None:
            while True:
                with lock:
                    first = at[0]
                    at[0] += 256
                    batch = vector.copy_blocks(first, 256)
                    if batch is None:
                        return
                    # its block is stale by then
                    vector[first * 8] = -1
                batch.run()
                with lock:
                    stale.append(vector.take_in(batch).stale)

        for _ in range(3):
            at[0] = 0
            threads = [threading.Thread(target=work) for _ in range(4)]
            for it in threads:
                it.start()
            for it in threads:
                it.join()
            self.assertEqual(vector.reduce().values.sum, sum(-1 if i % 2048 == 0 else i for i in range(SIZE)))
        self.assertEqual(stale, [1] * 3 * (SIZE // 2048 + 1))

    def test_four_workers_refresh_all_again_and_again(self) -> None:
        with SharedVector(Vector(range(SIZE))) as shared:
            shared.start_workers(4)
            for turn in range(1, 6):
                # one summary has 4,096 elements once all below it are there, and nothing keeps them but the workers
                end = time.monotonic() + 30
                while shared.reduce(0, 7 * 4096).summaries > 7:
                    self.assertLess(time.monotonic(), end)
                    time.sleep(0.002)
                self.assertEqual(shared.reduce().values.sum, sum(range(SIZE)) + (turn - 1) * SIZE)
                shared.write_many(range(SIZE), range(turn, SIZE + turn))
                shared.write(9, 9 + turn)
            shared.stop_workers()
            self.assertEqual(len(shared.close()), SIZE)


WRITTEN = 100_000


def waves(size: Any) -> Any:
    """Elements that rise and fall."""
    return [i * 7919 % 2003 - 1000 for i in range(size)]


def folded(elements: Any) -> Any:
    """The sum, the least, the greatest and the best run's sum of a list, by a plain fold."""
    best = run = 0
    for it in elements:
        run = max(run, 0) + it
        best = max(best, run)
    return sum(elements), min(elements), max(elements), best


def told(of: Any, lo: Any, hi: Any) -> Any:
    values = of.reduce(lo, hi).values
    return values.sum, values.least, values.greatest, values.best


class Subtrees(unittest.TestCase):
    def test_subtrees_come_late(self) -> None:
        many = waves(9000)
        vector, other = Vector(many), Vector([5] * 5000)
        self.assertIsNone(vector.copy_subtree(2))
        self.assertIsNone(vector.copy_subtree((1 << 32) - 1))
        first, late = vector.copy_subtree(0), vector.copy_subtree(1)
        self.assertEqual((first.number, late.number, repr(late)), (0, 1, "<livevec.Subtree 1>"))
        self.assertRaises(livevec.Closed, vector.take_subtree, first)
        first.run()
        late.run()
        self.assertFalse(other.take_subtree(first))
        self.assertEqual((other.reduce(0, 4096).summaries, other.sum()), (0, 25000))
        self.assertTrue(vector.take_subtree(first))
        self.assertFalse(vector.take_subtree(first))
        self.assertRaises(livevec.Closed, first.run)
        self.assertIsNone(vector.copy_subtree(0))
        self.assertIsNone(vector.copy_blocks(0, 512))
        for lo, hi in ((0, 4096), (0, 512), (64, 128), (4088, 4096)):
            did = vector.reduce(lo, hi)
            self.assertEqual((did.cells, did.summaries), (0, 1))
            self.assertEqual(told(vector, lo, hi), folded(many[lo:hi]))
        # a write comes between, and is made good by another
        vector[5000] = -1
        self.assertFalse(vector.take_subtree(late))
        self.assertEqual(vector.reduce(4096, 8192).summaries, 0)
        vector[5000] = many[5000]
        self.assertTrue(vector.take_subtree(late))
        self.assertEqual(vector.reduce(4096, 8192).summaries, 1)
        self.assertEqual(told(vector, 4096, 8192), folded(many[4096:8192]))
        self.assertEqual(told(vector, 0, 9000), folded(many))
        # a subtree of which the last block is there is gone over by its blocks
        vector[0] = 1
        self.assertIsNone(vector.copy_subtree(0))
        self.assertEqual(len(vector.copy_blocks(0, 512)), 1)

    def test_wrong_arguments_change_nothing(self) -> None:
        vector = Vector([5] * 5000)
        self.assertRaises(TypeError, vector.take_subtree, vector.copy_blocks())
        self.assertRaises(TypeError, vector.take_in, vector.copy_subtree(0))
        self.assertRaises(OverflowError, vector.copy_subtree, -1)
        self.assertRaises(OverflowError, vector.copy_subtree, 1 << 32)
        self.assertRaises(livevec.Closed, livevec.Subtree().run)
        self.assertRaises(livevec.Closed, vector.take_subtree, livevec.Subtree())
        self.assertEqual((repr(livevec.Subtree()), vector.reduce().summaries), ("<livevec.Subtree of nothing>", 0))
        vector.close()
        self.assertRaises(livevec.Closed, vector.copy_subtree, 0)

    def test_workers_get_on_beside_a_writer(self) -> None:
        many = waves(WRITTEN)
        with SharedVector(Vector(many)) as shared:
            shared.start_workers(4)
            for i in range(20000):
                index = i * 7919 % WRITTEN
                many[index] = i * 31 % 1999 - 900
                shared.write(index, many[index])
                if i == 10000:
                    shared.stop_workers()
                    shared.start_workers(4)
            # they become idle, and have left nothing out: each whole node of each level is read as one summary
            end = time.monotonic() + 60
            while not self.is_all_fresh(shared):
                self.assertLess(time.monotonic(), end)
                time.sleep(0.01)
            self.assertEqual((shared.reduce().cells, told(shared, 0, WRITTEN)), (0, folded(many)))
            self.assertEqual(shared.close().refresh(), 0)

    def is_all_fresh(self, shared: Any) -> Any:
        with shared.locked() as vector:
            nodes = ((at, at + 8 ** level) for level in (5, 4, 3, 2, 1) for at in range(0, WRITTEN - 8 ** level + 1, 8 ** level))
            return all((did.cells, did.summaries) == (0, 1) for did in (vector.reduce(lo, hi) for lo, hi in nodes))


if __name__ == "__main__":
    unittest.main()
