"""Day plans: which one holds on a day, what is refused, and the scenario of a day."""

import json

import pytest

from streettools.plan import reading, toml_text, writing
from streettools.shared.given import Unreadable

from .conftest import plan, said

DAYS = '''title = "Main"

[[day_plan]]
name = "working day"
days = "monday to friday"
schedule = [
  {at = 06:30:00, pattern = 1},
  {at = 19:00:00, pattern = "free"},
]

[[day_plan]]
name = "weekend and holidays"
days = ["saturday", "sunday"]
dates = [2026-12-24, "12-25"]
schedule = [{at = 09:00:00, pattern = "free"}]

[[day_plan]]
name = "market"
dates = [2026-12-25, 2026-12-28]
schedule = [{at = 08:00:00, pattern = 1}]

[[intersection]]
name = "Main & 1st"
'''


@pytest.fixture
def week(tmp_path):
    """The sheet above, or with some of its words replaced, as a file."""

    def written(*pairs):
        text = DAYS
        for old, new in pairs:
            assert old in text
            text = text.replace(old, new)
        path = tmp_path / "week.toml"
        path.write_text(text)
        return path

    return written


@pytest.mark.parametrize(
    ("day", "told", "seconds"),
    [
        ("2026-12-23", "Wednesday: day plan 'working day'", [23_400, 68_400]),
        ("2026-12-24", "Thursday: day plan 'weekend and holidays'", [32_400]),  # its date comes before its weekday
        ("2026-12-25", "Friday: day plan 'market'", [28_800]),  # the date of one year before that of every year
        ("2027-12-25", "Saturday: day plan 'weekend and holidays'", [32_400]),
        ("2028-12-25", "Monday: day plan 'weekend and holidays'", [32_400]),
        ("2026-12-27", "Sunday: day plan 'weekend and holidays'", [32_400]),
        ("2026-12-28", "Monday: day plan 'market'", [28_800]),
    ],
)
def test_the_scenario_of_a_day_has_the_schedule_of_its_plan(week, tmp_path, day, told, seconds):
    """Days of the week by the calendar; dates of one year, then of every year, then the day of the week."""
    out = tmp_path / "day.json"
    ran = plan("day", week(), day, "-o", out)
    assert ran.returncode == 0 and ran.stderr.decode() == f"plan: {day} is a {told}\n"
    found = json.loads(out.read_text())
    assert [it["second"] for it in found["master"]["schedule"]] == seconds
    assert json.loads((tmp_path / "day.names.json").read_text())["title"] == "Main"


def test_the_program_takes_the_scenario_of_a_day(week, program):
    assert said(program, plan("day", week(), "2026-12-25").stdout) == ""


@pytest.mark.parametrize(
    ("pairs", "words"),
    [
        ([('"saturday", "sunday"', '"friday", "saturday", "sunday"')],
         "friday: both 'working day' and 'weekend and holidays'"),
        ([("2026-12-28", "2026-12-24")], "2026-12-24: both 'weekend and holidays' and 'market'"),
        ([('"saturday", "sunday"', '"sunday"')],
         "saturday: in none of 'working day', 'weekend and holidays', 'market'"),
        ([('days = "monday to friday"', 'days = "monday to friday"\nmonths = [1, 2, 3, 4, 5, 6, 9, 10, 11, 12]')],
         "monday, tuesday, wednesday, thursday, friday in months 7, 8: in none of"),
        ([('name = "market"', 'name = "working day"')], "two day plans are called 'working day'"),
        ([("title =", 'schedule = [{at = 1, pattern = 1}]\ntitle =')],
         "schedule: day plans have schedules of their own"),
        ([("friday", "freitag")], "'freitag' is none of monday, tuesday"),
        ([('"12-25"', '"25-12"')], "'25-12' is not a date"),
        ([("2026-12-28", "2026-12-25")], "a date is said twice"),
        ([('days = "monday to friday"\n', "")], "say on which days it holds: days, dates"),
        ([('schedule = [{at = 08:00:00, pattern = 1}]', "")], "day_plan 3 (market), schedule: is missing"),
        ([('dates = [2026-12-24, "12-25"]', "date = [2026-12-24]")], "date: is unknown; did you mean dates?"),
    ],
)  # fmt: skip
def test_days_with_two_plans_or_without_one_are_errors(week, pairs, words):
    """Overlapping and missing days with the names of the plans; words that can't be meant."""
    _, faults = reading.read_sheet(toml_text.read(week(*pairs).read_text()))
    assert words in "\n".join(map(str, faults))


def test_a_check_of_overlapping_days_ends_with_status_2(week):
    ran = plan("check", week(("2026-12-28", "2026-12-24")))
    assert ran.returncode == 2
    assert b"day_plan: error: 2026-12-24: both 'weekend and holidays' and 'market'\n" in ran.stdout


def test_plans_of_months_share_the_days_of_the_week():
    """A plan of the summer and one of the other months, both from Monday to Sunday."""
    summer = 'days = "monday to sunday"\nmonths = [7, 8]\n'
    rest = 'days = "monday to sunday"\nmonths = [1, 2, 3, 4, 5, 6, 9, 10, 11, 12]\n'
    text = f'[[day_plan]]\nname = "s"\n{summer}schedule = []\n[[day_plan]]\nname = "r"\n{rest}schedule = []\n'
    street = reading.street_of(toml_text.read(text + "[[intersection]]\n"))
    assert [it.months for it in street.day_plans] == [(7, 8), (1, 2, 3, 4, 5, 6, 9, 10, 11, 12)]
    with pytest.raises(Unreadable, match="monday, .*sunday in month 7: both 's' and 'r'"):
        reading.street_of(toml_text.read(text.replace("6, 9", "6, 7, 9") + "[[intersection]]\n"))


def test_day_plans_go_through_a_sheet_and_a_workbook(week, tmp_path):
    street = reading.street_of(toml_text.read(DAYS))
    again = toml_text.read(toml_text.text(writing.sheet_of(street)))
    assert reading.street_of(again).day_plans == street.day_plans
    assert plan("sheet", week(), "-o", tmp_path / "week.xlsx").returncode == 0
    assert plan("sheet", tmp_path / "week.xlsx").stdout == plan("sheet", week()).stdout


def test_each_day_plan_is_checked(week):
    """A pattern that isn't defined, in a plan that isn't the first; the first is told by a note."""
    ran = plan("check", week(("{at = 08:00:00, pattern = 1}", "{at = 08:00:00, pattern = 7}")))
    assert ran.returncode == 0
    text = ran.stdout.decode()
    assert ": day plan 'market': the schedule commands pattern 7 at 08:00:00, which isn't defined" in text
    assert "note: the schedule is that of day plan 'working day'" in text


@pytest.mark.parametrize("words", [["2026-13-01"], ["tomorrow"], ["2026-2-29"]])
def test_a_day_that_is_none_is_refused(week, words):
    ran = plan("day", week(), *words)
    assert ran.returncode == 2 and b"is not a date, as 2026-12-24" in ran.stderr


def test_a_sheet_without_day_plans_has_no_scenario_of_a_day(tmp_path):
    (tmp_path / "street.toml").write_text('[[intersection]]\nname = "Main"\n')
    ran = plan("day", tmp_path / "street.toml", "2026-12-24")
    assert ran.returncode == 2 and b"the sheet has no [[day_plan]]" in ran.stderr
