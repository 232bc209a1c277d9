"""Wrong programs, each the right one with one step changed, and what the parts of the law say to it."""

from .fleet_model import NO_SPACE, NOT_HELD, Accepted, Carrier, Fleet, Receive, Refused, Send
from .table_format import READING_AT, REGISTER, REGISTERS, TRUTH_AT

VERDICT = "verdict"
COUNTS = "counts"
PASSED = "passed through"
SAME = "same everywhere"


def read_elsewhere(table, j):
    """The nodes whose word in a record of switch j some node reads."""
    return {b for kind, a, b in table.nodes if kind in (TRUTH_AT, READING_AT) and a == j}


def unread_registers(table):
    read = {a for kind, a, _ in table.nodes if kind == REGISTER}
    return [register for register in range(REGISTERS) if register not in read]


# Programs that only one part refuses.


class NoRuleEverBroken(Fleet):
    name = "answers the mask 0 to every event"
    refused_by = {VERDICT}

    def answer(self, count, mask, number):
        return Accepted(count, 0, number)


class AtReadsOwnOldWord(Fleet):
    name = '"at" its own switch reads the word from before the call'
    refused_by = {VERDICT}

    def own_at(self, own, old, b):
        return old[b]


class CountGrowsByTwo(Fleet):
    name = "the own count grows by 2"
    refused_by = {COUNTS}

    def next_count(self, count):
        return count + 2


class AnswersNoCount(Fleet):
    name = "answers the count 0 to every event"
    refused_by = {COUNTS}

    def answer(self, count, mask, number):
        return Accepted(0, mask, number)


class TakesOverOnlyWordsRead(Fleet):
    name = "a receive takes over only the words that some node reads there"
    refused_by = {PASSED}

    def take_record(self, block, j, record):
        kept = self.record(block, j)
        read = read_elsewhere(self.table, j)
        words = [new if b in read else old for b, (old, new) in enumerate(zip(kept[1:], record[1:]))]
        self.put_record(block, j, [record[0], *words])


class StampsUnreadRegister(Fleet):
    name = "writes the fleet's number of events to an unread register"
    refused_by = {SAME}
    total = 0

    def put_block(self, s, block):
        self.total += 1
        block[self.records_length + unread_registers(self.table)[-1]] = self.total
        super().put_block(s, block)


# Programs that several parts refuse.


class ReceiveOnlyCounts(Fleet):
    name = "a receive takes over nothing"
    refused_by = {VERDICT, COUNTS, PASSED}

    def take_over(self, s, block, copy):
        pass


class CopyMadeBeforeStep(Fleet):
    name = "a copy is made before its send's step"
    refused_by = {VERDICT, COUNTS, PASSED}

    def copy_of(self, s, before, after):
        return [s, *before[: self.records_length]]


class TakesOlderRecords(Fleet):
    name = "a receive takes over older records too"
    refused_by = {VERDICT, COUNTS, PASSED}

    def take_over(self, s, block, copy):
        for j in range(self.table.switches):
            if j != s:
                self.put_record(block, j, self.record(copy[1:], j))


class CarrierKeepsNothing(Fleet):
    name = "a carrier keeps numbers only, and hands out empty copies"
    refused_by = {VERDICT, COUNTS, PASSED}

    def fetched(self, number):
        return [0] * len(self.hand)


class ReceivesWhatWasNotSent(Fleet):
    name = "a receive of a copy that is not held gives an empty one"
    refused_by = {VERDICT, COUNTS, PASSED, SAME}

    def refusal(self, call):
        reason = super().refusal(call)
        return None if isinstance(call, Receive) and reason == NOT_HELD else reason

    def fetched(self, number):
        return self.carrier.held.get(number, [0] * len(self.hand))


class ReceivesWhatTheHandHolds(Fleet):
    name = "a receive never fetches, and takes what the hand holds"
    refused_by = {VERDICT, COUNTS, PASSED, SAME}

    def fetched(self, number):
        return self.hand


class ReceivesFromSendersBlock(Fleet):
    name = "a receive reads the sender's block as it is now"
    refused_by = {VERDICT, COUNTS, PASSED, SAME}

    def fetched(self, number):
        sender = self.carrier.fetch(number)[0]
        return [sender, *self.block(sender)[: self.records_length]]


class StepsNextBlock(Fleet):
    name = "the step is made in the next switch's block"
    refused_by = {VERDICT, COUNTS, PASSED}

    def block(self, s):
        return super().block((s + 1) % self.table.switches)

    def put_block(self, s, block):
        super().put_block((s + 1) % self.table.switches, block)


class GivesNumbersAgain(Fleet):
    name = "a retired copy's number is given again"
    refused_by = {VERDICT, COUNTS, PASSED, SAME}

    class LowestFree(Carrier):
        def put(self, copy):
            number = next(x for x in range(self.next + 1) if x not in self.held)
            self.held[number] = copy
            self.next = max(self.next, number + 1)
            return number

    def new_carrier(self, capacity):
        return self.LowestFree(capacity)


class EchoesFirstAnswer(Fleet):
    name = "later events answer count and mask of the first"
    refused_by = {VERDICT, COUNTS, SAME}
    first = None

    def answer(self, count, mask, number):
        self.first = self.first or (count, mask)
        return Accepted(*self.first, number)


class CountsForWholeFleet(Fleet):
    name = "answers how many events the whole fleet had"
    refused_by = {COUNTS, SAME}
    total = 0

    def answer(self, count, mask, number):
        self.total += 1
        return Accepted(self.total, mask, number)


class FullOneCopyEarly(Fleet):
    name = "refuses the send that would fill the carrier"
    refused_by = {PASSED, SAME}

    def refusal(self, call):
        reason = super().refusal(call)
        early = isinstance(call, Send) and len(self.carrier.held) == self.carrier.capacity - 1
        return NO_SPACE if reason is None and early else reason


class RefusedReceiveCounts(Fleet):
    name = "a receive of a copy that is not held is refused, but counted"
    refused_by = {VERDICT, COUNTS, PASSED, SAME}

    def call(self, call):
        answer = super().call(call)
        if isinstance(call, Receive) and answer == Refused(NOT_HELD):
            block = self.block(call.switch)
            self.advance(call.switch, block)
            self.put_block(call.switch, block)
        return answer


# Programs that no part refuses: of refusals, retires, the hand and words that decide no rule the law says only that they
# are the same in every order, or nothing. Each call's own promise fixes them.


class RefusesEverything(Fleet):
    name = "refuses every call"
    refused_by = set()

    def refusal(self, call):
        return NO_SPACE


class RetireKeepsCopy(Fleet):
    name = "a retire is accepted, but the copy stays"
    refused_by = set()

    class Keeping(Carrier):
        def retire(self, number):
            pass

    def new_carrier(self, capacity):
        return self.Keeping(capacity)


class ReceiveUsesCopyUp(Fleet):
    name = "a copy can be received once only"
    refused_by = set()

    def fetched(self, number):
        return self.carrier.held.pop(number)


class HandLeftAlone(Fleet):
    name = "the hand is never written"
    refused_by = set()

    def event(self, call):
        hand = self.hand
        answer = super().event(call)
        self.hand = hand
        return answer


class TrueWrittenAsTwo(Fleet):
    name = "a step writes true as 2"
    refused_by = set()

    def own_words(self, s, block, old):
        truths = {b for b, (kind, _, _) in enumerate(self.table.nodes) if kind <= 12}
        words = super().own_words(s, block, old)
        return [2 if b in truths and word == 1 else word for b, word in enumerate(words)]


class LosesUnreadRegisters(Fleet):
    name = "a set of a register that no node reads writes nothing"
    refused_by = set()

    def set_register(self, block, register, word):
        if register not in unread_registers(self.table):
            super().set_register(block, register, word)


ONE_PART = (
    NoRuleEverBroken,
    AtReadsOwnOldWord,
    CountGrowsByTwo,
    AnswersNoCount,
    TakesOverOnlyWordsRead,
    StampsUnreadRegister,
)
SEVERAL_PARTS = (
    ReceiveOnlyCounts,
    CopyMadeBeforeStep,
    TakesOlderRecords,
    CarrierKeepsNothing,
    ReceivesWhatWasNotSent,
    ReceivesWhatTheHandHolds,
    ReceivesFromSendersBlock,
    StepsNextBlock,
    GivesNumbersAgain,
    EchoesFirstAnswer,
    CountsForWholeFleet,
    FullOneCopyEarly,
    RefusedReceiveCounts,
)
NO_PART = (
    RefusesEverything,
    RetireKeepsCopy,
    ReceiveUsesCopyUp,
    HandLeftAlone,
    TrueWrittenAsTwo,
    LosesUnreadRegisters,
)
