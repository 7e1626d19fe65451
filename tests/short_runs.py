"""Books and runs with lower limits, and the fields of a run. The tests of both share them."""
from model_run import DayRun, KtRun, Run
from started_run import StartedRun
from started_transcript import StartedTranscript
from transcript import DayTranscript, KtTranscript, Transcript

# Low enough that random lists of calls pass them.
ABSORB_LIMIT, SQUEEZE_LIMIT = 900, 700
KT_ABSORB_LIMIT = 26_000
CUSTOM_LIMIT = 17_000
EVENT_LIMIT = 8300


class ShortTranscript(Transcript):
    ABSORB_LIMIT, SQUEEZE_LIMIT = ABSORB_LIMIT, SQUEEZE_LIMIT


class ShortRun(Run):
    ABSORB_LIMIT, SQUEEZE_LIMIT = ABSORB_LIMIT, SQUEEZE_LIMIT


class ShortKtTranscript(KtTranscript):
    ABSORB_LIMIT, SQUEEZE_LIMIT, CUSTOM_LIMIT = KT_ABSORB_LIMIT, SQUEEZE_LIMIT, CUSTOM_LIMIT


class ShortKtRun(KtRun):
    ABSORB_LIMIT, SQUEEZE_LIMIT, CUSTOM_LIMIT = KT_ABSORB_LIMIT, SQUEEZE_LIMIT, CUSTOM_LIMIT


class ShortDayTranscript(DayTranscript, ShortKtTranscript):
    EVENT_LIMIT = EVENT_LIMIT


class ShortDayRun(DayRun, ShortKtRun):
    EVENT_LIMIT = EVENT_LIMIT


class ShortStartedTranscript(StartedTranscript):
    ABSORB_LIMIT, SQUEEZE_LIMIT = ABSORB_LIMIT, SQUEEZE_LIMIT


class ShortStartedRun(StartedRun):
    ABSORB_LIMIT, SQUEEZE_LIMIT = ABSORB_LIMIT, SQUEEZE_LIMIT


def fields(run):
    """All that a run has: phase, totals, permutations, output length or bit, and of each sponge the position and the lanes."""
    return [run.phase, *run.totals(), run.permutations, *run.after_count(), *((sponge.position, tuple(sponge.lanes)) for sponge in run.sponges())]
