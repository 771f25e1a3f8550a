"""Tests of the checks of documents and of the manual, by pytest: that each finds the fault that it is for."""
import re

import pytest

from . import cli, contracts, docs, plots, proved, repository, running, shared_object

CODE = repository.text_of(f"{repository.TOP}/tools/data/tests/code")


def test_contracts_are_read():
    step, hidden = contracts.read_items(CODE.split("\n"), "src/lib.rt", {"step"})
    assert (step.path, step.is_public, step.names_of("ensures"), step.names_of("requires")) == ("step", True, ["taken"], ["small"])
    assert (hidden.path, hidden.is_public) == ("Core::hidden", False)
    assert proved.SAYS_MEMORY.search(step.docstring) and proved.FALLIBLE.search(step.head)


def test_citations_are_compared_with_the_code():
    sentence = "By `tp_a::b`, `c` (`d`, `e`) and the private `tp_a::f` (one clause); `tp_a::g`."
    both, last = ("`d`, `e`", False), ("tp_a::g", "", False)
    assert [*proved.citations_in(sentence)] == [("tp_a::b", *both), ("tp_a::c", *both), ("tp_a::f", "one clause", True), last]
    cited = [citation for part in proved.EVIDENCE.findall(repository.text_of(proved.PAGE)) for citation in proved.citations_in(part)]
    path, brackets, is_private = next(citation for citation in cited if "`" in citation[1])
    assert not proved.faults_of(path, brackets, is_private) and proved.faults_of(path, brackets, not is_private)
    assert proved.faults_of(path, "`no_such_clause`", is_private) and proved.faults_of(f"{path}_x", "", is_private)


def test_faults_of_documents_are_found():
    block = "```rust\nno such line\n```\n"
    assert docs.unknown_blocks(f"`crates/chain/src/main.rt`:\n\n{block}", False) == docs.unknown_blocks(block) == ["no such line"]
    assert docs.unknown_blocks(f"`tree.c`:\n\n{block}{block}", False) == []
    assert docs.headings_of("# A b\n## `C`, d\n# A b\n") == {"a-b", "c-d", "a-b-1"}
    assert [docs.exists("docs/GATE.md", link) for link in ("#the-gate", "#tea", "TEA.md")] == [True, False, False]


def test_dead_links_are_found(tmp_path):
    page = running.write(tmp_path / "page.md", "# A b\n[one](page.md#a-b) [two](page.md#b) [three](no.md)\n[four]: no-file\n`[five](no)`\n")
    assert docs.dead_links(page) == ["page.md#b", "no.md", "no-file"]


def test_wrong_statements_are_found(monkeypatch):
    rows = [["# {}", "echo make"], ["no such text"], ["", "exit 3"], ["{}", "echo no such text"]]
    monkeypatch.setattr(docs.json, "loads", lambda _: {"first": "", "own": [["Makefile", *row] for row in rows]})
    docs.check_statements(tally := running.Tally(), "own")
    assert (tally.passed, tally.failed) == (1, 3)


def test_commands_in_documents_are_accepted():
    form = re.compile(r"`tools/dev ([a-z-]+\s(?!NAME|--help)[^`]*)`|^    tools/dev ([a-z-]+ .*?)(?:  .*)?$", re.M)
    for path in (path for path in docs.documents() if path != docs.OF_ITS_DAY):
        for command in form.findall(repository.text_of(path)):
            assert cli.parser_of_all().parse_args("".join(command).split())


@pytest.mark.parametrize("check, path, old, new", [
    (plots.check_map, plots.PAGE, "| tp_core |", "| tp_cores |"),
    (proved.check_memory, proved.OUT_OF_MEMORY, "`tp_base::Table::insert`", ""),
    (proved.check_names, "docs/TOUR.md", "`takes_sums_twice`", "`no_such_mutant`"),
    (proved.check_names, "docs/measurements/mutants-killed-by-tests.md", "`faults_of_writing`", "`no_such_test`"),
])
def test_a_changed_text_is_a_failure(monkeypatch, check, path, old, new):
    original = repository.text_of

    def changed(name, *otherwise):
        text = original(name, *otherwise)
        return text.replace(old, new) if name == path else text

    for module in (repository, plots, proved):
        monkeypatch.setattr(module, "text_of", changed)
    tally = running.Tally()
    check(tally)
    assert tally.failed


def test_a_page_of_the_manual_has_the_text_and_the_code_of_its_header():
    header = b"/* a/b.h: Adds a*b. It has\n *\n *     c_d\n */\nint a_b(void); /* e_f */\n"
    command = ["awk", "-v", "name=a_b.h", "-v", "version=1", "-f", f"{repository.TOP}/packaging/header.awk"]
    page = running.run(command, header).out.decode()
    assert page.partition("# NAME\n\n")[2] == (
        "a\\_b.h - Adds a\\*b\n\n# DESCRIPTION\n\nIt has\n\n    c_d\n\n\n~~~~\nint a_b(void); /* e_f */\n~~~~\n\n"
    )
    assert "gerfmuod_core_step" in shared_object.declared()
