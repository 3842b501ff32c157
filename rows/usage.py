"""Words that are no command's. Where a file has a name of theirs, its text does not matter."""

from typing import List, Tuple, Union

from rows import Row
from rows.texts import CTL_USAGE, USAGE

WRONG: List[Union[str, Tuple[str, ...]]] = [
    # the worked row
    (), "check topology", "case 1 1 3",
    # one word too few or too many, another case, another order
    "solo", "schedule solo", "Solo schedule", "solo schedule schedule", "plans topology", "plan topology plan",
    "renew topology plan", "renew topology plan absent absent", "migrate", "migrate file file", "file migrate",
    "twoway", "twoway topology", "twoway topology exchanges exchanges", "topology twoway exchanges",
    "Twoway topology exchanges", "replay topology schedule", "order topology schedule", "plan", "check topology plan growth",
    "renew topology plan absent growth", "replay", "replay topology", "order", "order topology", "drill topology plan 800000",
    "drill topology plan 800000 3000000000 0",
    "case", "case 1 2", "case 1 2 3 4", "cases 1 2 3",
    # more than 64 plans
    "replay topology " + "plan " * 65 + "schedule", "order topology " + "plan " * 65 + "schedule",
    # numbers just past their limits, and such as are not written as numbers are
    "case 1 257 3", "case 1 2 2", "case 1 2 33", "case 18446744073709551616 2 3", "case 01 2 3", "case 1 +2 3", "case 1 2 ",
    "drill topology plan 01 0", "drill topology plan 0 ", "drill topology plan -1 0",
    "drill topology plan 1152921504606846977 0", "drill topology plan 0 1152921504606846977",
    "drill topology plan 0 99999999999999999999",
]

CTL_WRONG: List[Union[str, Tuple[str, ...]]] = [
    (), "plan topology", "Search topology 1 1 1 0", "search topology 1 1 1", "search topology 1 1 1 0 0", "search topology 01 1 1 0", "search topology 1152921504606846977 1 1 0",
    "search topology 1 1 18446744073709551616 0", "search topology 1 1 1 1152921504606846977",
    "renew topology plan 1 1 1 0", "renew topology plan absent 1 1 1", "why", "why topology plan", "Why topology", "bounds topology plan 1", "bounds topology plan 1 1 1",
    "bounds topology plan 1 1152921504606846977", "bounds topology plan 1152921504606846977 0", "version 1", "Version", "merge", "merge 2", "merge 0 feed", "merge 02 feed",
    "merge 4097 feed", "merge 2 feed feed", "record topology " + "plan " * 65 + "log", "record", "record topology", "record topology log", "resume", "resume topology plan schedule opening",
    "resume topology schedule / opening", "resume topology plan schedule / opening",
    "resume topology plan schedule / plan opening /", "resume topology " + "plan " * 65 + "schedule / plan opening",
    # an opening has the last plans of the schedule
    "resume topology plan schedule / other opening", "resume topology plan schedule / plan plan opening",
    "resume topology other plan schedule / other opening",
]

ROWS = [
    *[Row(f"{words!r:.60}", words, {}, USAGE, 2) for words in WRONG],
    *[Row(f"sundialctl {words!r:.60}", words, {}, CTL_USAGE, 2, "sundialctl") for words in CTL_WRONG],
]
