"""The results of a season in JUnit's form: a case for each stream."""
from fzcheck import junit
from fzcheck.batch.results import Outcome, Stored

NOT_JUDGED = (Outcome.UNDECIDED, Outcome.NO_BLOCKS, Outcome.MODEL, Outcome.OUT_OF_MEMORY,
              Outcome.TIME_LIMIT, Outcome.FAILED)


def case_of(stored: Stored) -> junit.Case:
    """A stream that is wrong fails, and one of which nothing is known is left out."""
    result = stored.result
    failure = skipped = None
    if result.is_wrong:
        failure = "\n".join([result.words, *result.explanation])
    elif result.outcome in NOT_JUDGED:
        skipped = result.words
    return junit.Case(result.solver, result.model, stored.usage.seconds, failure, skipped)
