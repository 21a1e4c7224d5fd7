"""The lines of a script, split into their core events."""

import unittest

import split

MASKS = {1: 256, 7: 1}


class Split(unittest.TestCase):
    def check(self, script, wanted):
        """Wanted are the lines for each line."""
        cores, numbers = split.split(script, MASKS, (2, 3, 4, 5))
        found = [[core for core, number in zip(cores, numbers) if number == k] for k in range(1, len(script) + 1)]
        self.assertEqual(found, wanted)
        self.assertEqual(numbers, sorted(numbers))

    def test_a_line_without_a_message_in_a_box_is_its_own_core_event(self):
        script = ["ipi 1 3 11 # a", "", "#post", "irq 46", " boot 7\t0", "task 0 1", "cancel 0"]
        self.check(script, [[line] for line in script])
        self.assertFalse(split.is_split(script))

    def test_messages_are_served_by_rising_mask(self):
        script = ["post 1 1", "\tpost\t0x7 3 11 # a", "serve", " serve # b", "post 007 1", "serve"]
        self.check(script, [[""], [""], ["\tipi\t0x7 3 11 # a", "ipi 1 1"], [""], [""], ["ipi 007 1"]])
        self.assertTrue(split.is_split(script) and split.is_split(["", "serve"]) and split.is_split([" post 1 1"]))

    def test_a_full_box_stays(self):
        self.check(["post 1 1", "post 1 3", "ipi 1 4", "serve"], [[""], [""], ["ipi 1 4"], ["ipi 1 1"]])

    def test_a_power_call_is_lowered(self):
        script = ["smc 2 0xC4000003 1 4096 0", "smc 3 0x84000002 # off", "smc 2 0xC4000004 3", "smc 2 0x84000008", "smc 5 0x84000009"]
        wanted = [["ipi 1 10 3 4097 0 2"], ["ipi 1 7 3 0 0 0 0", "wfi 3"], ["ipi 1 3 5"], ["ipi 1 12 0 2"], ["ipi 1 12 1 2"]]
        self.check(script, wanted)
        self.assertTrue(split.is_split(script[:1]))
        wide = ["smc 2 0x84000003 0x100000001 0x500000004", "smc 2 0xC4000003 1 0x500000004", "smc 2 0xC4000004 1 0x100000000"]
        self.check(wide, [["ipi 1 10 3 5 0 2"], ["ipi 1 10 3 5 5 2"], ["ipi 1 3 3"]])

    def test_a_power_call_that_is_refused_does_nothing(self):
        script = ["smc 7 0x84000002", "smc 2 1", "smc 2 0xC4000003 4", "smc 2 0xC4000003 1 1", "smc 2 0xC4000004 1 1", "smc 2 0xC4000002"]
        self.check([*script, "smc 2 0xC4000003 0x100000001"], [[""]] * 7)

    def test_a_message_of_no_master_is_sent_at_once(self):
        self.check(["post 8 1", "serve"], [["ipi 8 1"], [""]])


if __name__ == "__main__":
    unittest.main()
