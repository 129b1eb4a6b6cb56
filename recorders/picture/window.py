"""The stretches of a history that a picture shows: calls by column, and what lies between."""

GAP = 8  # columns of what is left out between two stretches


class Call:
    """A call: its start, and its end where that is shown. `is_never` says that it has no end in the
    whole recording."""

    def __init__(self, start):
        self.start, self.end, self.is_never = start, None, False
        self.left_at = None  # the last event that is known to be in the call


class Window:
    """Stretches of events, (first, last), and all calls that were under way in them."""

    def __init__(self, history, ranks, width):
        """Around the first of these events, and a little around each other."""
        self.stretches = []
        wanted = [(r, width // 2 if r == ranks[0] else width // 8) for r in ranks]
        for first, last in sorted((max(1, r - w), min(history.events, r + w)) for r, w in wanted):
            if self.stretches and first <= self.stretches[-1][1] + width // 8 + GAP:
                self.stretches[-1][1] = max(last, self.stretches[-1][1])
            else:
                self.stretches.append([first, last])
        calls = {}
        self.events = []
        for first, last in self.stretches:
            under_way, events = history.replayed(first, last)
            for start in under_way.values():
                calls.setdefault(start.rank, Call(start)).left_at = first
            for event in events:
                if event.is_start:
                    calls[event.rank] = Call(event)
                else:
                    calls[event.start.rank].end = event
            self.events += events
        never = {start.rank for start in history.never_ended.values()}
        for rank, call in calls.items():
            call.is_never = call.end is None and rank in never
        self.calls = [calls[rank] for rank in sorted(calls)]
        self.before = self.stretches[0][0] - 1 if self.stretches else 0
        self.behind = history.events - self.stretches[-1][1] if self.stretches else 0
        self.starts = []
        at = 0
        for first, last in self.stretches:
            self.starts.append(at)
            at += last - first + 1 + GAP
        self.columns = max(0, at - GAP)

    def column(self, rank):
        """Where an event stands; of one that is left out the middle of what is left out there."""
        for (first, last), at in zip(self.stretches, self.starts):
            if rank < first:
                return at - GAP / 2
            if rank <= last:
                return at + rank - first
        return self.columns + GAP / 2

    def is_shown(self, rank):
        return any(first <= rank <= last for first, last in self.stretches)

    def last_seen(self, call):
        """The last column at which a call without an end that is shown is known to be under way."""
        if call.is_never:
            return self.columns
        # It ends in the first stretch's gap behind all in which it was seen.
        seen = max(call.start.rank, call.left_at or 0)
        for (first, last), at in zip(self.stretches, self.starts):
            if seen <= last:
                return at + last - first + 1 + GAP / 2
        return self.columns
