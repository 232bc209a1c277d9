"""Names for the operations of a rehearsal file, and the making of its bytes.

Used by every script that makes rehearsal files. It checks nothing: scripts make faulty files too.
"""

from .table_format import encode_words

# Operations.
SET = 1
SEND = 2
RECEIVE = 3
RETIRE = 4

MOST_CALLS = 1024

# The copies that the rehearsal's pool can hold.
POOL_COPIES = 16

# The words of a call.
CALL_WORDS = 4


# A call is its four words: operation, switch, a, b.
def set_register(switch, register, word):
    return SET, switch, register, word


def send(switch):
    return SEND, switch, 0, 0


def receive(switch, number):
    return RECEIVE, switch, number, 0


def retire(number):
    return RETIRE, 0, number, 0


def encode_calls(calls):
    """The calls as an array: their count, then the four words of each."""
    return encode_words(len(calls), *(word for call in calls for word in call))


def encode_rehearsal(table, calls):
    return table.encode() + encode_calls(calls)
