"""Tests of Detector: the end of each epoch in a network of queues, control messages late and twice, refusals, a miscount."""
import collections
import pickle
import random
import unittest

from gerfmuod import Detector, Refused


class Network:
    """Detectors with an inbox each, from which a message is drawn at random. One may come twice if it is a control message."""

    def __init__(self, processes, seed=0):
        self.draw = random.Random(seed)
        self.inboxes = [[] for _ in range(processes)]
        self.detectors = [Detector(number, processes, self.carry) for number in range(processes)]
        self.kept = collections.defaultdict(list)
        self.received = 0

    def carry(self, to, control):
        self.inboxes[to].extend([control] * self.draw.randint(1, 2))

    def send(self, number, hops):
        epoch = self.detectors[number].sent()
        self.inboxes[self.draw.randrange(len(self.inboxes))].append((epoch, hops))

    def receive(self, number, message):
        detector = self.detectors[number]
        if isinstance(message, bytes):
            if not detector.take(message):
                self.kept[number].append(message)
            return
        epoch, hops = message
        try:
            with detector.received(epoch):
                self.received += 1
                for _ in range(2 if hops else 0):
                    self.send(number, hops - 1)
        except Refused as error:
            assert error.name == "NotYet", error
            self.kept[number].append(message)

    def begin(self, number, hops):
        self.send(number, hops)
        self.detectors[number].finish()
        self.inboxes[number].extend(self.kept.pop(number, ()))

    def step(self):
        """Makes one process receive a message, if it has one, and go on. Returns its number if the epoch has ended there."""
        number = self.draw.randrange(len(self.inboxes))
        inbox = self.inboxes[number]
        if inbox:
            self.receive(number, inbox.pop(self.draw.randrange(len(inbox))))
        return number if self.detectors[number].ended() else None


class Epochs(unittest.TestCase):
    def test_each_epoch_ends_when_all_its_messages_were_received(self):
        for processes, epochs, hops in ((1, 2, 3), (2, 2, 4), (5, 3, 3)):
            with self.subTest(processes=processes):
                network = Network(processes, seed=processes)
                for number in range(processes):
                    network.begin(number, hops)
                while any(detector.epoch < epochs for detector in network.detectors):
                    number = network.step()
                    if number is not None:
                        of_an_epoch = processes * (2 ** (hops + 1) - 1)
                        detector = network.detectors[number]
                        self.assertGreaterEqual(network.received, (detector.epoch + 1) * of_an_epoch)
                        if detector.epoch < epochs:
                            detector.reopen()
                            network.begin(number, hops) if detector.epoch < epochs else detector.finish()


class Misuse(unittest.TestCase):
    def refused(self, name, call, *arguments):
        with self.assertRaises(Refused) as caught:
            call(*arguments)
        self.assertEqual(caught.exception.name, name)
        self.assertEqual(pickle.loads(pickle.dumps(caught.exception)).number, caught.exception.number)

    def test_refusals(self):
        detector = Detector(0, 2, lambda to, control: None)
        self.refused("NoProcess", Detector, 2, 2, print)
        self.refused("NotYet", detector.received(1).__enter__)
        self.refused("NotEnded", detector.reopen)
        self.refused("Malformed", detector.take, b"\xff" * 56)
        self.assertRaises(ValueError, detector.take, b"")
        detector.finish()
        self.refused("NoWork", detector.sent)
        self.refused("NoWork", detector.add)
        self.assertEqual(str(detector), "process 0 of 2, epoch 0: 0 pieces of work open, 0 messages sent, 0 received, wave 0; "
                                        "gerfmuod_process_next is due, which has a control message for process 1")

    def test_a_piece_of_work_that_raises_is_finished(self):
        detector = Detector(0, 1, lambda to, control: None)
        for context in (detector.work, detector.received):
            with self.assertRaises(ZeroDivisionError), context():
                1 // 0
        self.assertIn(" 1 pieces of work open", str(detector))

    def test_a_receipt_that_is_counted_twice_is_told(self):
        controls = []
        detectors = [Detector(number, 2, lambda to, control: controls.append((to, control))) for number in range(2)]
        detectors[1].sent()
        for _ in range(2):
            with detectors[0].received():
                pass
        for detector in detectors:
            detector.finish()
        with self.assertRaises(Refused) as caught:
            for _ in range(100):
                for detector in detectors:
                    detector.ended()
                while controls:
                    to, control = controls.pop()
                    detectors[to].take(control)
        self.assertEqual(caught.exception.name, "Miscounted")


if __name__ == "__main__":
    unittest.main()
