"""Tests of what decides whether rows are stored and what tables say; pytest runs them."""
import pytest

from . import comparing, conditions, metg, preloaded, soundness, tables
from .measuring import Bench, quantiles
from .peers import Peers
from .rows import ProcessRow, Row


def row(case, milliseconds, workers=1, measurement="patterns", units=1600, spread=0.1):
    """Returns a row of the program `patterns` at one node. Of 1,600 tasks 1,000 iterations of each take 3.2 ms alone."""
    quartiles = milliseconds * (1 - spread), milliseconds * (1 + spread)
    numbers = milliseconds, *quartiles, *[None] * 6
    return Row(measurement, case, "task", units, "patterns", 1, workers, 0, 5, *numbers, kernel_nanoseconds=2.0)


def test_efficiency_is_kernels_by_the_time_of_all_workers():
    slow, fast = (row(f"stencil, {count} iterations", time, 4) for count, time in (("1,000", 3.2), ("10,000", 10)))
    points = metg.curve([fast, slow], "stencil", "patterns", 1, 4)
    assert [round(point.efficiency, 2) for point in points] == [0.25, 0.8]
    assert [round(point.task, 1) for point in points] == [8, 25]


def test_metg_is_interpolated_and_has_bounds():
    less, more = metg.Point(5, 2), metg.Point(9, 5)
    assert metg.metg([less, more]) == metg.Metg("", 7)
    assert metg.metg([less]) == metg.Metg("over", 5) and metg.metg([more]) == metg.Metg("under", 9)
    # a larger task that uses less than half counts, and a smaller one that uses more does not
    assert metg.metg([metg.Point(1, 0.9), metg.Point(20, 5)]) == metg.Metg("over", 20)


def test_impossible_rows_have_names():
    assert soundness.impossible("patterns", [row("stencil, 1,000 iterations", 0.77, 4)]) == []
    for time in (0.76, 0.0, -0.1, float("nan")):
        reasons = soundness.impossible("patterns", [row("stencil, 1,000 iterations", time, 4)])
        assert len(reasons) == 1 and reasons[0].startswith("stencil, 1,000 iterations, patterns, 1 by 4: ")
    assert soundness.impossible("patterns", [row("stencil, 1,000 iterations", 3, 4)._replace(kernel_nanoseconds=None)])


def test_missing_sizes_have_names():
    rows = [row(f"{name}, {count} iterations", 99, 4) for name in soundness.PATTERNS_OF_TASKS for count in soundness.TOGETHER]
    assert list(soundness.missing(rows)) == []
    assert list(soundness.missing(rows[:-1])) == ["all_to_all, patterns, 1 by 4: 7 of 8 sizes of tasks"]


def test_patterns_over_processes():
    def process_row(way, iterations, time):
        return ProcessRow("processes", f"stencil, {iterations:,} iterations", way, 4, 5, *[time] * 4, *[None] * 5, 1600, 2.0)

    # with four processes tasks of 5 and 9 microseconds have kernels of 2 and 5; those of the second way are half as long
    sizes = ("graph", 1000, 2000), ("graph", 2500, 3600), ("MPI alone", 500, 1000), ("MPI alone", 1250, 1800)
    rows = [process_row(*size) for size in sizes]
    assert "| stencil | 4 | 7.00 (7.00–7.00) | 3.50 (3.50–3.50) | 2.00 |\n" in tables.detectors(rows) and "METG" not in tables.detectors([])
    assert len(soundness.impossible("processes", [*rows, process_row("graph", 1000, 700)])) == 1


def test_speed_up_is_not_more_than_the_workers():
    alone, four = row("blocks of 100, 100 steps", 41, 1, "body"), row("blocks of 100, 100 steps", 10, 4, "body")
    assert soundness.impossible("body", [alone, four]) == []
    assert len(soundness.impossible("body", [alone._replace(milliseconds=42.5), four])) == 1


def test_checkers_are_compared_with_nothing_by_times():
    times = {"without": (2, 1, 3), "with": (8, 7, 9)}
    rows = [preloaded.NO_ROW._replace(case="a", detector=name, **dict(zip(preloaded.TIMES, own))) for name, own in times.items()]
    assert soundness.impossible("preloaded", rows) == []
    assert len(soundness.impossible("preloaded", [rows[0], rows[1]._replace(lower_quartile=0)])) == 1
    assert tables.preloaded(rows).endswith("| a | 2.00 (1.00–3.00) | 8.00 (7.00–9.00) | 4.00 (2.33–9.00) |")


def test_smallest_body_is_named_only_if_all_larger_ones_are_fast():
    place = "heat", 1, 4
    bodies = [tables.Body("", {"heat": length}, {place: [speed_up]}) for length, speed_up in ((1, 1.0), (2, 2.1), (3, 1.9), (4, 2.5))]
    assert tables.twice_as_fast(bodies, place) == "4.0, and some below"
    assert tables.twice_as_fast(bodies[:3], place) == "none, and some sizes"
    assert tables.twice_as_fast(bodies[:1], place) == "none" and tables.twice_as_fast(bodies[3:], place) == "4.0"


def test_ratio_is_not_printed_if_quartiles_overlap():
    assert tables.TIME(row("", 1.0), row("", 1.1)) == tables.NO_DIFFERENCE
    assert tables.TIME(row("", 1.0), row("", 2.0)) == "0.50 (0.41–0.61)"


def test_conditions():
    line = "cpu  100 10 200 9999 9999 5 5 80 7 7"
    ticks = conditions.os.sysconf("SC_CLK_TCK")
    assert conditions.used(line) == 400 / ticks
    assert conditions.others((0, 10, 1), (100, 60, 31)) == 0.2 and conditions.others((0, 0, 0), (1, 1, 2)) == 0
    assert conditions.faults(0.5, 0.15) == "" and "load average" in conditions.faults(0.51, 0.15)
    assert "others used 0.16 processors" in conditions.faults(0.5, 0.16)


def test_two_folders_are_compared(tmp_path, monkeypatch, capsys):
    for name, time in (("old", 3), ("new", 6)):
        for program in comparing.PROGRAMS:
            path = tmp_path / name / program
            path.parent.mkdir(parents=True, exist_ok=True)
            path.write_text(f"#!/bin/sh\necho done\n[ ${{0##*/}} = tp ] || seq -f 'nanoseconds {time}00000%g' {len(name)}\n")
            path.chmod(0o755)
    monkeypatch.setattr(conditions, "load_average", lambda: 0.0)
    monkeypatch.setattr(conditions, "others", lambda *_: 0.2)
    bench = Bench(Peers(tmp_path), tmp_path, 1, 3, 0, False, False, "wavefront")
    folders = [str(tmp_path / name) for name in comparing.NAMES]
    assert comparing.compare(bench, folders, [0], False) == 1 and comparing.compare(bench, folders, [0], True) == 0
    assert "| wavefront:64:64:0 | 8 by 8 | 3.00 (3.00–3.00) | 6.00 (6.00–6.00) | 2.00 |" in capsys.readouterr().out
    (tmp_path / "new/bin/tp").write_text("#!/bin/sh\necho other\n")
    with pytest.raises(SystemExit, match="another output"):
        comparing.compare(bench, folders, [0], True)


def test_quantiles():
    assert quantiles([40, 10, 20, 30, 50]) == (30, 20, 40, 40) and quantiles([7]) == (7, 7, 7, 7)
    assert quantiles(range(101)) == (50, 25, 75, 90)
