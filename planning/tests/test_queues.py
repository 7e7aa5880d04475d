"""The replay of one server's line, on sequences whose services are worked out by hand."""
import unittest

import samples  # noqa: F401  (puts the package on the path)
from cloner_planning.queues import ServerQueue


def replay(messages, order="arrival"):
    """Returns the queue after the messages, and who began service when: (time, job, when it came)."""
    queue = ServerQueue(order)
    begun = []
    for time, payload, counts in messages:
        what, about = payload.split()[:2]
        begun += [(time, job, came) for job, came in queue.handle(time, what, about, counts)]
    return queue, begun


class ByArrival(unittest.TestCase):
    def test_one_server(self):
        queue, begun = replay([
            (1, "job a.0", (1, 0, 0, 0)), (2, "job a.1", (1, 1, 0, 0)), (3, "job a.2", (1, 2, 0, 0)),
            (6, "done a.0", (1, 1, 1, 0)), (8, "done a.1", (1, 0, 2, 0)), (9, "done a.2", (0, 0, 3, 0))])
        self.assertEqual(begun, [(1, "a.0", 1), (6, "a.1", 2), (8, "a.2", 3)])
        self.assertEqual((queue.busy, queue.wait, queue.done, queue.lost, queue.misfit), (0, 0, 3, 0, None))

    def test_more_servers_start_two_at_once(self):
        _, begun = replay([
            (1, "job a.0", (1, 0, 0, 0)), (2, "job a.1", (1, 1, 0, 0)), (3, "job a.2", (1, 2, 0, 0)),
            (4, "job a.3", (1, 3, 0, 0)), (6, "set servers 3", (3, 1, 0, 0))])
        self.assertEqual(begun, [(1, "a.0", 1), (6, "a.1", 2), (6, "a.2", 3)])

    def test_fewer_servers_start_nobody_until_enough_are_done(self):
        queue, begun = replay([
            (0, "set servers 2", (0, 0, 0, 0)), (1, "job a.0", (1, 0, 0, 0)), (1, "job a.1", (2, 0, 0, 0)),
            (2, "set servers 1", (2, 0, 0, 0)), (3, "job a.2", (2, 1, 0, 0)), (4, "done a.1", (1, 1, 1, 0)),
            (7, "done a.0", (1, 0, 2, 0))])
        self.assertEqual(begun, [(1, "a.0", 1), (1, "a.1", 1), (7, "a.2", 3)])
        self.assertEqual(queue.jobs(), [])

    def test_a_lost_job_is_in_no_line(self):
        queue, begun = replay([
            (1, "job a.0", (1, 0, 0, 0)), (2, "job a.1", (1, 1, 0, 0)), (2, "job a.2", (1, 1, 0, 1)),
            (5, "done a.0", (1, 0, 1, 1))])
        self.assertEqual(begun, [(1, "a.0", 1), (5, "a.1", 2)])
        self.assertEqual(queue.lost, 1)

    def test_a_second_visit_has_its_own_wait(self):
        _, begun = replay([
            (1, "job a.0", (1, 0, 0, 0)), (4, "done a.0", (0, 0, 1, 0)), (5, "job a.1", (1, 0, 1, 0)),
            (6, "job a.0", (1, 1, 1, 0)), (9, "done a.1", (1, 0, 2, 0)), (11, "done a.0", (0, 0, 3, 0))])
        self.assertEqual(begun, [(1, "a.0", 1), (5, "a.1", 5), (9, "a.0", 6)])

    def test_classes_do_not_matter(self):
        queue, begun = replay([
            (1, "job a.0:1", (1, 0, 0, 0)), (2, "job b.0:2", (1, 1, 0, 0)), (3, "job a.1:1", (1, 2, 0, 0)),
            (5, "done a.0:1", (1, 1, 1, 0))])
        self.assertEqual(begun[-1], (5, "b.0:2", 2))
        self.assertEqual(queue.jobs(), [("a.1:1", 3)])


class ByClass(unittest.TestCase):
    # the example of docs/FORMATS_MODEL.md, to its end
    MESSAGES = [
        (4, "job high.0:1", (1, 0, 0, 0)), (5, "job low.0:2", (1, 1, 0, 0)), (6, "job high.1:1", (1, 2, 0, 0)),
        (8, "job high.2:1", (1, 3, 0, 0)), (8, "done high.0:1", (1, 2, 1, 0)), (12, "done high.1:1", (1, 1, 2, 0)),
        (16, "done high.2:1", (1, 0, 3, 0)), (20, "done low.0:2", (0, 0, 4, 0))]

    def test_the_least_class_is_next_and_within_it_the_first(self):
        queue, begun = replay(self.MESSAGES, "class")
        self.assertEqual(begun, [(4, "high.0:1", 4), (8, "high.1:1", 6), (12, "high.2:1", 8), (16, "low.0:2", 5)])
        self.assertIsNone(queue.misfit)

    def test_a_wrong_order_is_noticed_when_a_job_is_done_before_its_turn(self):
        queue, begun = replay(self.MESSAGES, "arrival")
        # by arrival low.0 would begin at 8, so high.1, done at 12, could not have begun
        self.assertEqual(begun[1], (8, "low.0:2", 5))
        self.assertEqual(queue.misfit, "high.1:1")

    def test_the_line_is_in_the_order_of_service(self):
        queue, _ = replay(self.MESSAGES[:4], "class")
        self.assertEqual(queue.jobs(), [("high.1:1", 6), ("high.2:1", 8), ("low.0:2", 5)])


class NotFollowing(unittest.TestCase):
    def test_counts_that_do_not_follow_are_refused(self):
        first = (1, "job a.0", (1, 0, 0, 0))
        for words, counts in [
                ("job a.1", (1, 0, 0, 0)), ("job a.1", (2, 1, 0, 0)), ("job a.1", (1, 1, 1, 0)),
                ("job a.1", (1, 0, 0, 2)), ("done a.0", (1, 0, 0, 0)), ("done a.0", (0, 0, 2, 0)),
                ("done a.0", (0, 1, 1, 0)), ("done a.0", (0, 0, 1, 1)), ("set room 3", (0, 0, 0, 0)),
                ("set servers 2", (1, 1, 0, 0)), ("set servers 2", (2, 0, 0, 0))]:
            with self.assertRaisesRegex(ValueError, "do not follow", msg=(words, counts)):
                replay([first, (2, words, counts)])

    def test_lines_that_begin_in_the_middle_are_refused(self):
        with self.assertRaises(ValueError):
            replay([(9, "done a.7", (1, 2, 7, 0))])


if __name__ == "__main__":
    unittest.main()
