#!/usr/bin/env python3
"""What tools/log_from makes of clouds and poses, and tools/cloud_from of logs: there and back it is the same points.

Where the program stands, by the variable MAPPER or where ./mapper builds it, it runs the logs in between.
"""

import unittest

from cloud_tests.failures import Failures
from cloud_tests.folds import Folds
from cloud_tests.libraries import Libraries, Packings
from cloud_tests.mutations import Mutations
from cloud_tests.origins import Origins
from cloud_tests.poses import Poses
from cloud_tests.readings import Readings
from cloud_tests.refusals import Refusals
from cloud_tests.there_and_back import ThereAndBack

CASES = [Failures, Folds, Libraries, Mutations, Origins, Packings, Poses, Readings, Refusals, ThereAndBack]

if __name__ == "__main__":
    unittest.main()
