"""Where the fuzz begins: inputs for the four programs, made of the stored sheets and their answers, of openings, runs
and forged states as input.h and runs.cpp read bytes, and of calls as shelves.cpp does."""

import replay_sheet

# The bytes by which Input::number and Input::whole choose: an odd double or an edge by its place in the tables of
# input.h, and a small number.
USUAL = 0
NAN, ZERO, TINY_UROUND, TINY_SAFETY, TEN = 96 + 30, 96 + 0, 96 + 8, 96 + 11, 96 + 18
SEVENTEEN, THIRTY_THREE = 184 + 10, 184 + 13
NOT_SELDOM, SELDOM = 0, 3
FLOATS = 17  # the place of the first float among the settings


def small(number):
    return 144 + number


def opening(size=1, choices=0, changes=(), ends=(USUAL, USUAL), tolerances=(USUAL, USUAL), order=(NOT_SELDOM,),
            misfit=(NOT_SELDOM,), model=0):
    """In the order in which a session reads them."""
    settings = [byte for change in changes for byte in change]
    return bytes([0, size, choices, len(changes), *settings, *ends, *tolerances, *order, 0, *misfit, model])


def refused_openings():
    """One for each row of document 01's list."""
    return [
        opening(order=(SELDOM, THIRTY_THREE)),
        opening(misfit=(SELDOM, 3, 0)),
        opening(ends=(NAN, USUAL)),
        opening(changes=[(0, small(0))]),
        opening(changes=[(FLOATS, TINY_UROUND)]),
        opening(changes=[(FLOATS + 1, TINY_SAFETY)]),
        opening(changes=[(FLOATS + 2, ZERO)]),
        opening(changes=[(1, SEVENTEEN)]),
        opening(tolerances=(ZERO, USUAL)),
        opening(changes=[(11, small(1)), (12, small(5))]),
        opening(changes=[(10, small(1))]),
        opening(changes=[(8, small(1)), (FLOATS + 5, TEN)]),
    ]


# Steps of a session.
WRONG_REPLY, FORGED, DRAWN_STATE, MISFIT, RESULT = 8, 9, 11, 12, 15


def gone_on(count):
    return bytes([6, count - 1])


def runs():
    """Every model with every choice of mass, Jacobian, rule and tolerances, gone on with for some
    steps; one of 32 amounts."""
    return [opening(size, choices, model=model) + 4 * gone_on(64) for size in (0, 2) for choices in range(16)
            for model in range(6)] + [opening(223) + gone_on(64)]


def forged():
    """Each word of a state set to each limit, after each of a few numbers of replies."""
    return [
        opening() + gone_on(replies) + bytes([FORGED, 1, word, 1, limit, 1])
        for replies in (1, 2, 5, 9, 14)
        for word in range(73)
        for limit in (0, 6)
    ]


def others():
    tails = [bytes([WRONG_REPLY, small(0)]), bytes([DRAWN_STATE, 0, 0, 0]), bytes([MISFIT, 3, 1]), bytes([RESULT])]
    return [opening() + gone_on(replies) + tail for replies in (1, 3, 8, 20) for tail in tails]


# Calls of a shelf.
EMPTIED, FORGED_SHELF, MANY, ONE, ASKED = 0, 1, 2, 3, 8
BACKWARD = 192  # the usual step with the other sign


def shelf_questions(count, ends=None):
    """So many steps one after the other, then a question at each quarter of the newest and of older ones."""
    put = bytes([MANY, count]) if ends is None else bytes([ONE, NOT_SELDOM, *ends, NOT_SELDOM]) * count
    questions = [bytes([ASKED, back, quarter, USUAL, NOT_SELDOM]) for back in (0, 1, 49) for quarter in range(5)]
    return put + b"".join(questions)


def shelves():
    """Few and many steps of few and many amounts, forwards and backwards, emptied and gone on with, asked at a NaN, and
    shelves of other words and lengths."""
    filled = [bytes([seed, size]) + shelf_questions(count, ends) for seed, size in enumerate((0, 1, 3, 231))
              for count, ends in ((1, None), (5, None), (48, None), (99, None), (9, (USUAL, BACKWARD)))]
    full = bytes([7, 1, MANY, 55])
    tails = [bytes([ASKED, 0, 0, NAN, NOT_SELDOM]), bytes([EMPTIED, ASKED, USUAL, NOT_SELDOM]),
             bytes([FORGED_SHELF, SELDOM, SELDOM, 3, SELDOM, SELDOM, 2, ASKED, 0, 2, USUAL, NOT_SELDOM]),
             bytes([ASKED, 0, 2, USUAL, SELDOM, 1]), bytes([ONE, NOT_SELDOM, USUAL, USUAL, SELDOM, 1, 0, 0])]
    return filled + [full + tail for tail in tails]


OVER_AND_OVER = 63  # a first byte by which nights.cpp has the lines over and over


def nights(answers):
    """Nothing; a few status lines, whole, with their end cut off, and over and over."""
    lines = [f"{answer.splitlines()[0]}\n".encode() for answer in answers if answer.startswith("status")][:24]
    few, more = b"".join(lines[:3]), b"".join(lines)
    return [bytes([0]), bytes([1]) + few, bytes([2]) + few[:-1], bytes([3]) + few + b"refused 4\n",
            bytes([OVER_AND_OVER]) + more]


def inputs():
    """For each program its inputs."""
    stored = list(replay_sheet.records_of(replay_sheet.STORED.read_bytes()))
    return {"runs": refused_openings() + runs() + forged() + others(), "sheets": [data for data, _ in stored],
            "shelves": shelves(), "nights": nights(answer for _, answer in stored)}


def write(folder):
    """One file for each input, in a folder for each program."""
    for name, found in inputs().items():
        (folder / name).mkdir(parents=True, exist_ok=True)
        for number, data in enumerate(found):
            (folder / name / f"seed{number}").write_bytes(data)
