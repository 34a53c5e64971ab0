"""Scenarios whose server does what no real one does, by the reason: the kit does not run them in
front of a listener, where each of them is found out (`--lying`)."""
import fnmatch

LYING = {
    "since what comes is no right reply to the request": (
        "bad-reply-*",
        "bad-body-*",
        "results-of-*s-unknown-*",
        "shared-bad-reply",
        "*after-another-*",
    ),
    "since only seats say NotYet": (
        "refused-NotYet*",
        "*after-NotYet*",
    ),
    "since no server replies twice, or before it is asked": (
        "tls-reply-twice",
        "tls-bytes-before-request",
    ),
    "since a session from a file is never below the server's, nor its number": (
        "*after-NewerSession*",
        "*after-NewerRequest*",
    ),
}


def reason(name):
    """Why no real server plays a scenario, or nothing."""
    found = (why for why, patterns in LYING.items() for it in patterns if fnmatch.fnmatch(name, it))
    return next(found, "")
