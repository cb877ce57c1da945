"""Answers from a label, by the words of docs/02-change-requests.md (Wish 1) alone. Tables are lists of numbers, bytes are bytes."""


def matches(pattern, label):
    """The whole label is what the pattern's bytes stand for: `*` any run of bytes, empty too, `?` exactly one byte, everything else itself. By the set of places that the pattern so far can reach."""
    places = {0}
    for c in pattern:
        if c == ord('*'):
            places = set(range(min(places), len(label) + 1)) if places else places
        else:
            places = {i + 1 for i in places if i < len(label) and c in (ord('?'), label[i])}
    return len(label) in places


def fits(patterns, data, first, count):
    """Every pattern of a row is a row of the table, and its bytes are in the data. A claim of more patterns than there are rows fails by the first that is missing."""
    rows = len(patterns) // 2
    if count > 0 and first + count > rows:
        return False
    return all(length == 0 or start + length <= len(data) for start, length in (patterns[2 * p:2 * p + 2] for p in range(first, first + count)))


def answers(label, questions, patterns, data, before):
    """Number, and the answer slice after the call."""
    rows = [questions[4 * q:4 * q + 4] for q in range(len(questions) // 4)]
    if not all(fits(patterns, data, first, count) for _, _, first, count in rows):
        return 24, before
    if len(before) < len(rows):
        return 20, before
    given = bytes(any(matches(part(data, *patterns[2 * p:2 * p + 2]), label) for p in range(first, first + count)) for _, _, first, count in rows)
    return 0, given + before[len(rows):]


def part(data, start, length):
    return data[start:start + length]
