"""How many locks of a file were got, and how many of them another owner saw: by the definition, each lock beside each denial.

A lock is got by a set or a wait that is done. It may be held from the begin of that call to the end of the one that gives it up: of the calls of its owner that set,
unlock or drop a byte of it the next one by their begins, and of those that begin at one time by their places. It is observed where a call of another owner is denied
in a mode that it excludes, for bytes of which one is its own, at a time that may be one at which it is held; where the denial tells an owner, that is its."""
from .reader import GREATEST

EVERYTHING = (0, GREATEST)


def changed(call):
    """The bytes of which the call changes its owner's locks, None where it changes none."""
    if call.operation in ("unlock", "close", "exit"):
        return call.span or EVERYTHING
    return call.span if call.operation in ("set", "wait") and call.reply in (None, "done") else None


def meet(one, other):
    return one[0] <= other[1] and other[0] <= one[1]


def until(calls, place):
    """When the lock that a call got is given up at last, None where it need not be."""
    got = calls[place]
    for call in calls[place + 1 :]:
        if call.owner == got.owner and changed(call) and meet(changed(call), got.span):
            return call.end
    return None


def sees(denied, got, end):
    """Whether the denied call may have been denied by the lock, which is held up to that end."""
    is_told = denied.told is None or denied.told[2] in (None, got.owner)
    in_time = denied.begin <= (denied.begin if end is None else end) and got.begin <= denied.end
    return is_told and in_time and denied.owner != got.owner and meet(denied.span, got.span) and "write" in (denied.mode, got.mode)


def text(of_file):
    """The counts, as they are told."""
    calls = sorted(of_file, key=lambda call: call.begin)
    denied = [call for call in calls if call.reply in ("again", "blocked")]
    got = [place for place, call in enumerate(calls) if call.operation in ("set", "wait") and call.reply == "done"]
    observed = sum(any(sees(call, calls[place], until(calls, place)) for call in denied) for place in got)
    return f"locks {len(got)} observed {observed} never observed {len(got) - observed}"
