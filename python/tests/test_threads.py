"""Tests of threads, of their stack, and of forked processes, over the real library."""
import json
import os
import signal
import threading
import time
import unittest
from concurrent.futures import ThreadPoolExecutor

import fairsplit
from common import FLAT, example, heirs, in_little_stack, refusal, text
from fairsplit import Verdict, _library, _stack


def divides_in_little_stack():
    """Whether a thread with little stack gets its division."""
    return in_little_stack(lambda: fairsplit.rent(900, FLAT)[1].pays) == 700


def forked(test):
    """The status of a forked process that ends with 0 if this test is true; the system ends one that hangs."""
    child = os.fork()
    if not child:
        signal.alarm(20)
        try:
            os._exit(not test())
        finally:
            os._exit(2)
    return os.waitpid(child, 0)[1]


class Threads(unittest.TestCase):
    def test_many_at_once(self):
        with ThreadPoolExecutor(8) as pool:
            texts = set(pool.map(lambda _: fairsplit.goods(heirs()).text, range(200)))
        self.assertEqual(texts, {text('three-heirs')})

    def test_a_thread_with_little_stack(self):
        case = example('ten-in-a-taxi')
        solved = in_little_stack(lambda: fairsplit.run('solve', json.dumps(case).encode())[1])
        self.assertEqual(in_little_stack(lambda: fairsplit.check(solved)), Verdict(True))
        division = in_little_stack(lambda: fairsplit.fares(case['flag'], case['legs'], case['bids']))
        self.assertEqual(division.text, solved.decode())
        self.assertEqual(in_little_stack(lambda: fairsplit.rent(900, FLAT)), fairsplit.rent(900, FLAT))
        self.assertEqual(in_little_stack(lambda: refusal(lambda: fairsplit.goods(heirs(), limit=10))), ('OverLimit', {'limit': 10, 'best': None, 'said': 'step limit 10'}))

    def test_an_error_in_the_thread_with_more_stack_is_that_of_the_call(self):
        def fails():
            raise MemoryError

        def call():
            with self.assertRaises(MemoryError):
                _stack.with_stack(fails)
            return True

        self.assertTrue(in_little_stack(call))

    def test_a_forked_process_writes_into_a_buffer_of_its_own(self):
        fairsplit.check(text('flat-for-three'))
        child = os.fork()
        if not child:
            try:
                fairsplit.run('check', b'')
            finally:
                os._exit(0)
        os.waitpid(child, 0)
        self.assertEqual(_library._buffer()[:4], b'yes\n')

    def test_the_size_of_new_stacks_stays_as_the_application_sets_it(self):
        stopped = threading.Event()
        before = threading.stack_size(256 * 1024)
        try:
            threads = [threading.Thread(target=lambda: [fairsplit.rent(900, FLAT) for _ in iter(stopped.is_set, True)]) for _ in range(3)]
            for thread in threads:
                thread.start()
            lost = 0
            for turn in range(100):
                size = (1 + turn % 2) * 512 * 1024
                threading.stack_size(size)
                time.sleep(0.001)
                lost += threading.stack_size() != size
        finally:
            stopped.set()
            threading.stack_size(before)
            for thread in threads:
                thread.join()
        self.assertEqual(lost, 0)

    def test_forks_while_threads_with_little_stack_call(self):
        stopped = threading.Event()
        before = threading.stack_size(256 * 1024)
        try:
            threads = [threading.Thread(target=lambda: [fairsplit.rent(900, FLAT) for _ in iter(stopped.is_set, True)]) for _ in range(4)]
            for thread in threads:
                thread.start()
        finally:
            threading.stack_size(before)
        bad = [status for status in (forked(divides_in_little_stack) for _ in range(40)) if status]
        stopped.set()
        for thread in threads:
            thread.join()
        self.assertEqual(bad, [])


if __name__ == '__main__':
    unittest.main()
