"""The causes of Q.850 and the statuses of SIP, one for the other."""

from __future__ import annotations

STATUS_OF_CAUSE = {
    1: 404, 2: 404, 3: 404, 16: 480, 17: 486, 18: 408, 19: 480, 20: 480, 21: 603, 22: 410, 23: 410, 26: 404, 27: 502,
    28: 484, 29: 501, 31: 480, 34: 503, 38: 503, 41: 503, 42: 503, 44: 503, 47: 503, 55: 403, 57: 403, 58: 503, 65: 488,
    69: 501, 70: 488, 79: 501, 87: 403, 88: 503, 102: 504, 111: 500, 127: 500,
}  # fmt: skip
OTHER_STATUS = 500
CAUSE_OF_STATUS = {
    400: 41, 401: 21, 402: 21, 403: 21, 404: 1, 405: 63, 406: 79, 407: 21, 408: 102, 410: 22, 413: 127, 414: 127, 415: 79,
    416: 127, 420: 127, 421: 127, 423: 127, 480: 18, 481: 41, 482: 25, 483: 25, 484: 28, 485: 1, 486: 17, 487: 127,
    488: 31, 500: 41, 501: 79, 502: 38, 503: 41, 504: 102, 505: 127, 513: 127, 600: 17, 603: 21, 604: 1, 606: 31,
}  # fmt: skip
OTHER_CAUSE = 31

UNALLOCATED = 1
NORMAL = 16
NO_CHANNEL = 34
TEMPORARY_FAILURE = 41
NO_RESOURCE = 47
REJECTED = 21
INVALID_REFERENCE = 81
INCOMPATIBLE = 88
TIMER_EXPIRY = 102


def status_of(cause: int) -> int:
    return STATUS_OF_CAUSE.get(cause, OTHER_STATUS)


def cause_of(status: int) -> int:
    return CAUSE_OF_STATUS.get(status, OTHER_CAUSE)
