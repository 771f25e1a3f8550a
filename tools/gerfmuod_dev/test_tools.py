"""Tests of these tools, by pytest: that each check finds the fault that it is for."""
import json
import os
import random
import re
import shutil
import sys

import pytest

from . import checks, contracts, event_format, mutant_files, mutants, new_pool, pages, plots, repository, running, summary, together
from . import tries, visible
from .limits import memory, second_model, terminal, texts

EVENTS = {"0-draw-a-run-as-events", "0-draw-two-generations-as-events", "0-draw-a-run-that-has-not-ended-as-events"}
MUTANTS = repository.text_of(f"{repository.TOP}/tools/data/tests/mutants")


@pytest.mark.parametrize("name", EVENTS)
def test_stored_events_are_those_of_their_traces(name):
    text = tries.stored_outputs(f"{tries.OUTPUTS}/samples")[name]
    trace, tally = repository.text_of(f"{tries.STATUSES}/samples/{name}"), running.Tally()
    pages.check_events(tally, {"": trace}, {"": text})
    assert (tally.passed, tally.failed) == (2, 0) and not tries.agrees(text, f"{text}x")
    pages.check_events(tally, {"": trace.replace("begin ", "supply ", 1)}, {"": text})
    assert (tally.passed, tally.failed) == (3, 1)


def test_each_fault_of_events_is_found():
    for text in event_format.spoiled(tries.stored_outputs(f"{tries.OUTPUTS}/samples")["0-draw-a-run-as-events"]):
        assert event_format.faults(text), text


def test_summary_of_nodes_and_threads():
    events = [
        {"ph": "M", "pid": 1, "tid": 1, "name": "process_name", "args": {"name": "node 0"}},
        {"ph": "X", "pid": 1, "tid": 2, "ts": 0, "dur": 10, "name": "task 1", "cat": "task"},
    ]
    nodes = {"otherData": {"workers": 2, "nodes": 1, "elapsed_us": 20, "lost_bodies": 1}, "traceEvents": events}
    _, row, time, lost = summary.summary(json.dumps(nodes))
    assert (row.split(), time, lost.split()[0]) == (["node", "0", "1", "25.0%", "75.0%"], "0.020 ms", "1")


def test_critical_path_of_cholesky():
    tasks = plots.tasks_of(2)
    assert [kind for kind, _ in tasks] == ["factor", "solve", "square", "factor"]
    assert plots.critical_path(tasks, [1, 1, 1, 1]) == ([3, 2, 1, 0], 4)


@pytest.mark.parametrize("command, text, expected", [
    ("sim", b"nodes 1\nready 0\nready 0", (2, "syntax line 3\n")),
    ("sim", b"nodes 1\nsend 0 0 1\n", (0, "refused 2 SameNode\nnode 0 pending 1 sent 0 received 0\n"
                                          "total pending 1 sent 0 received 0 under 0\nquiet no\n")),
    ("audit", b"trace 2\nnodes 1\njudge\n", (2, "syntax line 3\n")),
    ("audit", b"trace 1\nnodes 1\nready 0\nstart\ngive 0\njudge ended 1\n", (2, "line 6 unjustified\n")),
])
def test_second_model(command, text, expected):
    assert second_model.expected(command, text) == expected


def test_random_texts_have_what_is_rare():
    outputs = [second_model.expected(*case)[1] for case in texts.random_texts(random.Random(2), 60)]
    assert all(any(rare in output for output in outputs) for rare in ("unjustified", "Stranger", "ended ", "syntax "))


def test_another_output_than_the_models_is_a_failure():
    tally = running.Tally()
    texts.try_all(tally, "/bin/echo", [("sim", b"nodes 1\n")])
    assert (tally.passed, tally.failed) == (0, 1)


def test_mutants_are_read_and_written():
    file = mutant_files.parse("mutants", MUTANTS)
    edit = mutant_files.parse_edit("in_gate", "file: src/a.rt\nold: x\nnew: y\nold: z\nnew:\n")
    assert edit.text == "file: src/a.rt\nold: x\nnew: y\nold: z\nnew: \n"
    assert mutant_files.rendered([edit, *file.mutants], file.killers, file.notes).split("\n")[1:] == MUTANTS.split("\n")[1:]
    for line in MUTANTS.split("\n")[5:8]:
        with pytest.raises(mutant_files.Fault):
            mutant_files.parse("mutants", MUTANTS.replace(line + "\n", ""))


def test_attributes_of_a_function_are_its_own():
    function, = contracts.read_items("}\n/// One.\n#[inline]\nfn one() {\n    1\n}\n".split("\n"), "crates/a/src/a.rt", ())
    mutant = together.PlacedMutant("one_is_two", function, "", ())
    assert [together.is_in(f"src/a.rt:{line}:1: error", mutant) for line in range(1, 8)] == [False, *[True] * 5, False]


def test_crates_are_proved_and_mutants_that_survive_are_found(tmp_path):
    shutil.copytree("tools", tmp_path / "tools")
    for path, text in {
        "HANDLES": "", "crates.txt": "# all\nlow: std\ntp: low\n", "crates/tp/src/main.rt": "fn main() {\n}\n",
        "crates/low/src/lib.rt": "fn one() {\n    1\n}\n\nfn two() {\n    2\n}\n",
        "crates/low/mutants": "one_is_wrong in src/lib.rt\n- 1\n+ WRONG\ntwo_is_three in src/lib.rt\n- 2\n+ 3\n",
    }.items():
        os.makedirs(tmp_path / os.path.dirname(path), exist_ok=True)
        running.write(tmp_path / path, text)
    environment = {**os.environ, "PATH": f"{tmp_path}/tools/data/tests:{os.environ['PATH']}", "TMPDIR": str(tmp_path)}

    def run(*command):
        result = running.run(["tools/dev", *command], cwd=tmp_path, env=environment)
        return result.status, result.out.decode()

    status, out = run("build", "tp")
    assert status == 0 and out.index("low: proved") < out.index("tp: proved, bin/tp is built")
    status, out = run("mutants")
    assert status == 1 and "low/one_is_wrong: killed" in out and "low/two_is_three: SURVIVED" in out
    assert run("mutants", "--stale")[0] == 1
    path = tmp_path / "crates/low/mutants"
    running.write(path, path.read_text().replace("+ 3", "+ WRONG"))
    assert run("mutants")[0] == 0 and "two_is_three in src/lib.rt: src/lib.rt, returns" in path.read_text()
    assert run("mutants", "--stale")[0] == 0
    running.write(tmp_path / "crates/low/src/lib.rt", "fn one() {\n    1 + WRONG\n}\n\nfn two() {\n    2\n}\n")
    status, out = run("build", "tp")
    assert status == 1 and "low: NOT PROVED" in out and run("mutants", "--stale")[0] == 1
    assert not list(tmp_path.glob("gerfmuod-*"))


@pytest.mark.parametrize("command", ["build tp", "mutants --all", "new-pool none/new one", "try tp_flow"])
def test_a_missing_toolchain_is_named_in_one_line(command, tmp_path):
    for name in ("python3", "sh", "timeout", "cc"):
        os.symlink(shutil.which(name), tmp_path / name)
    result = running.run([sys.executable, "tools/dev", *command.split()], env={"PATH": str(tmp_path)})
    assert result.status == 1 and re.fullmatch(rb"rt is not on the path: .*README.md.*\n", result.err), result


@pytest.mark.parametrize("kind", new_pool.KINDS)
def test_a_new_pool_imports_what_it_has(kind, tmp_path, monkeypatch):
    monkeypatch.setattr(new_pool, "keep", lambda *_: None)
    monkeypatch.setattr(new_pool.subprocess, "run", lambda *_, **__: None)
    counts = [new_pool.create(str(tmp_path), name, kind) for name in ("mine", "two")]
    assert counts[0] == counts[1] and all(new_pool.fault_of(str(tmp_path), name) for name in ("mine", "two", "data"))
    assert new_pool.fault_of(".", "three")
    for path in repository.files_in(f"{tmp_path}/crates/mine"):
        text = visible.one_a_line(repository.text_of(path))
        assert all(os.path.exists(f"{tmp_path}/crates/mine/src/{name}.rt") for name in re.findall(r"^mod (\w+);", text, re.M)), path
        for crate, file, name in re.findall(r"\bRattle\.(\w+)\.((?:specs|proofs)\.[A-Z]\w+)\.\{([^}]*)\}", text):
            own, of_crate = (repository.text_of(f"{tmp_path}/crates/{of}/{file.replace('.', '/')}.antt", "") for of in ("mine", crate))
            is_known = crate not in (*repository.crates(), "mine") or name in of_crate.split()
            assert is_known and (crate == "mine" or not own), (path, crate, file, name)


def test_compilers_and_options_are_those_of_the_environment():
    names = {"CC": "C COMPILE LINK", "CFLAGS": "C COMPILE", "LDFLAGS": "LINK"}
    names.update(CXX="CPP", CXXFLAGS="CPP", FC="FORTRAN", FFLAGS="FORTRAN")
    code = "from gerfmuod_dev.shared_object import COMPILE, LINK\nfrom gerfmuod_dev.c_programs import C, CPP, FORTRAN\n"
    commands = "".join(f"print({name!r}, *{name})\n" for name in ("C", "COMPILE", "LINK", "CPP", "FORTRAN"))
    environment = {**os.environ, "PYTHONPATH": "tools", **{name: f"own-{name}" for name in names}}
    printed = running.run([sys.executable, "-c", code + commands], env=environment).out.decode().splitlines()
    for name, those in names.items():
        assert those == " ".join(line.split()[0] for line in printed if f"own-{name}" in line.split()), name


def test_a_tally_has_counts_and_a_status(capsys):
    tally = running.Tally()
    tally.judge("one", "")
    assert tally.end() == 0
    tally.judge("", "reason")
    tally.skips("what", "a package")
    assert tally.end() == 1
    assert capsys.readouterr().out.endswith("reason\nSKIPPED for lack of a package: what\n1 passed, 1 failed, 1 skipped\n")


def test_digests_are_of_what_they_are_to_see(monkeypatch):
    tp, own, plot = repository.digest(["tp"]), mutants.digest(repository.crates()["tp_wave"]), plots.digest_of({"a": 1})
    assert mutants.meaning("fn a(b: u8) { // c\n}") == mutants.meaning("fn a(\n    b: u8,\n) {}") != mutants.meaning("fn a(b: u9) {}")
    original = repository.text_of

    def changed(path, *otherwise):
        return original(path, *otherwise) + "fn more() {}\n" * path.endswith(("tp_base/src/lib.rt", "tp_wave/src/lib.rt", "drawing.py"))

    for module in (repository, mutants, plots):
        monkeypatch.setattr(module, "text_of", changed)
    assert tp != repository.digest(["tp"]) and own != mutants.digest(repository.crates()["tp_wave"]) and plot != plots.digest_of({"a": 1})


def test_parts_without_a_closing_line_fail():
    assert checks.counts_of("SKIPPED for lack of gcc: all\n3 passed, 0 failed, 1 skipped\n", 0) == [3, 0, 1]
    assert checks.counts_of("3 passed, 0 failed", 1)[1] == 1 and checks.counts_of("Traceback", 0)[1] == 1
    part = checks.run_part("slow", ["sleep", "9"], 0.001, False)
    assert part.counts[1] == 1 and "did not end" in part.output


def test_runs_have_a_status_and_a_limit():
    assert running.run(["sh", "-c", "cat; kill -9 $$"], b"a") == running.Result(137, b"a", b"")
    assert running.run(["sleep", "9"], timeout=0.1).status == running.NOT_ENDED
    assert running.run(["/nowhere"]).status == running.NOT_STARTED


@pytest.mark.parametrize("status, out, err, line, is_refused", [
    (3, b"", b"refused 17 NoMemory\n", "tp run", True), (3, b"66\n", b"refused 17 NoMemory\n", "tp run", False),
    (3, b"pool 0 a ended tasks 7 messages 0\npool 1 b refused 17 NoMemory\n", b"", "tp pools", True),
    (3, b"pool 0 a ended tasks 7 messages 0\n", b"", "tp pools", False), (0, b"", b"there is no memory\n", "samples heat", False),
])
def test_what_a_program_prints_out_of_memory(status, out, err, line, is_refused):
    assert memory.is_refused(running.Result(status, out, err), line) == is_refused


def test_terminals():
    is_terminal = ["sh", "-c", "test -t 2 && echo error >&2; test -t 0 && read line; echo $line"]
    assert terminal.run_at_terminal(is_terminal) == running.Result(0, b"\n", b"error\n")
    assert terminal.run_at_terminal(is_terminal, b"typed\n", is_typed=True) == running.Result(0, b"typed\n", b"error\n")
