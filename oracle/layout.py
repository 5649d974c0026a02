"""Where the words of a memory stand, for the recording scripts: as src/layout.rs says. The total comes first, then the shards."""

TOTAL_WORDS = 1
SLOT_COUNT = 0
HEAD_WORDS, SLOT_WORDS = 3, 7
LEDGER_HEAD_WORDS, DEBT_WORDS = 2, 2
PLACES_PER_ITEM = 2


def slot(place):
    """Where a slot begins."""
    return HEAD_WORDS + SLOT_WORDS * place


def ledger(cap):
    """Where the ledger starts: the debt count, and the cursor after it."""
    return slot(cap)


def debt(cap, place):
    """Where a debt begins."""
    return ledger(cap) + LEDGER_HEAD_WORDS + DEBT_WORDS * place


def places(cap):
    """The places of each of the two indexes, that of the slots and that of the debts. They come after the debts."""
    return PLACES_PER_ITEM * cap


def shard_words(cap):
    """The words of a shard."""
    return debt(cap, cap) + 2 * places(cap)


def memory_words(shards, cap):
    """The words of a memory."""
    return TOTAL_WORDS + shards * shard_words(cap)


def memory(shards):
    """The words of a memory, by those of its shards."""
    return [sum(words[SLOT_COUNT] for words in shards), *(word for words in shards for word in words)] if shards else []


def cap_of(words):
    """The cap of a shard of these words."""
    return next(cap for cap in range(1, len(words)) if shard_words(cap) == len(words))
