"""Long lists, compared without the list of all differences, for which unittest takes minutes."""

import unittest


class LongLists(unittest.TestCase):
    def assertAlike(self, answers, wanted, *named):
        places = zip(answers, wanted)
        differing = next(((n, a, w) for n, (a, w) in enumerate(places) if a != w), None)
        self.assertIsNone(differing, named)
        self.assertEqual(len(answers), len(wanted), named)
