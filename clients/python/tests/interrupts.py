"""Interrupts in tests."""

import signal
import unittest


def heed(test: unittest.TestCase) -> None:
    """Has an interrupt raise KeyboardInterrupt in this test, also where the tests were started with interrupts ignored, as a
    shell starts what it runs in the background. What the test starts heeds interrupts too."""
    test.addCleanup(signal.signal, signal.SIGINT, signal.signal(signal.SIGINT, signal.default_int_handler))
