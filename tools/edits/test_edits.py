"""Tests of the tool's own logic, without any proof: `python3 -m unittest discover tools/edits`."""
import tempfile
import unittest
from pathlib import Path
from unittest import mock

import answers
import edits_main
import pairs
import record
import rounds
from pairs import Change, EditError, Pair
from record import Row
from rt_texts import functions_of, without_comments

CODE = """//! Numbers.

/// The next number.
fn next(n: u8) -> u8
requires { n < 255 }
{
    n + 1 // and no more
}

impl Counter {
    /// Whether the text has a brace.
    fn has_brace(&self) -> bool {
        self.text == "{ // }"
    }
}
"""

EDITS = """-- Of the next number
# adds_two
file: src/lib.rt
old: n + 1
new: n + 2

# takes_more
file: src/lib.rt
old: n < 255
new: n < 256
"""

SAID = """
note: src/lib.rt:4:1: it is not proved that what the function ensures holds when it returns (`returns-clause-next`); more
./proofs/Counter/has_brace/Proof.antt:3:5: error: `the-goal`: the goal does not follow
./proofs/Counter/has_brace/Answers.antt:7:1: error: `returns`: the goal does not follow
fn low::twice: no proof: it calls `low::next`, which is not proved
logic=not-proved
"""


class WithCrate(unittest.TestCase):
    """A crate in a folder of its own."""

    def setUp(self):
        folder = tempfile.TemporaryDirectory()
        self.addCleanup(folder.cleanup)
        self.crate = Path(folder.name) / "low"
        self.put("src/lib.rt", CODE)
        self.put_pairs(EDITS)

    def put_pairs(self, text):
        """Puts the first of these pairs where the gate applies it, and the others beside it."""
        applied, _, others = text.partition("\n\n")
        self.put("must-fail/gate.edit", f"{applied}\n")
        self.put("must-fail/pairs.md", f"# More pairs\n\n```text\n{others}```\n")

    def put(self, path, text):
        (self.crate / path).parent.mkdir(parents=True, exist_ok=True)
        (self.crate / path).write_text(text)

    def texts(self):
        return record.own_texts(self.crate)

    def sums(self, goal=None):
        return {it.name: record.sum_of(self.texts(), it, goal) for it in pairs.read_pairs(self.crate)}


class Pairs(WithCrate):
    """How pairs are read, and what they change."""

    def test_each_pair_has_its_name_and_changes(self):
        first, second = pairs.read_pairs(self.crate)
        self.assertEqual(first, Pair("adds_two", (Change("src/lib.rt", "n + 1", "n + 2"),)))
        self.assertEqual(second.name, "takes_more")
        self.assertEqual(list(pairs.pairs_of(first.text())), [first])

    def test_a_pair_of_two_changes_is_made_as_one(self):
        self.put_pairs(EDITS + "old: n: u8\nnew: n: u16\n")
        texts = pairs.edited(pairs.read_pairs(self.crate)[1], {}, self.crate)
        self.assertIn("fn next(n: u16) -> u8\nrequires { n < 256 }", texts["src/lib.rt"])

    def test_what_cannot_be_used_is_told(self):
        again = EDITS + "\n# adds_two\nfile: src/lib.rt\nold: -> bool\nnew: -> u8\n"
        behind = EDITS + "\n# adds_three\nfile: src/lib.rt\nold: n + 2\nnew: n + 3\n"
        for text in [again, behind, "old: a\nnew: b\n", "# empty\n", "# two words\nfile: src/lib.rt\nold: n + 1\nnew: n\n"]:
            self.put_pairs(text)
            with self.subTest(text=text), self.assertRaises(EditError):
                pairs.read_pairs(self.crate)

    def test_pairs_of_one_text_stand_side_by_side(self):
        self.put_pairs(EDITS + "\n# adds_three\nfile: src/lib.rt\nold: n + 1\nnew: n + 3\n")
        self.assertEqual([it.name for it in pairs.read_pairs(self.crate)], ["adds_two", "takes_more", "adds_three"])

    def test_the_gate_applies_one_pair(self):
        for text in ["", EDITS.partition("-- Of the next number\n")[2]]:
            self.put("must-fail/gate.edit", text)
            with self.subTest(text=text), self.assertRaisesRegex(EditError, "and not one"):
                pairs.read_pairs(self.crate)

    def test_a_change_outside_of_the_block_is_told(self):
        written = (self.crate / "must-fail/pairs.md").read_text()
        behind = written + "\n# adds_three\nfile: src/lib.rt\nold: n + 1\nnew: n + 3\n"
        for text in [behind, written.replace("```text", "```")]:
            self.put("must-fail/pairs.md", text)
            with self.subTest(text=text), self.assertRaisesRegex(EditError, "outside"):
                pairs.read_pairs(self.crate)

    def test_another_file_of_edits_is_refused(self):
        self.put("must-fail/words.edit", EDITS)
        with self.assertRaisesRegex(EditError, "words.edit"):
            pairs.read_pairs(self.crate)

    def test_a_body_is_the_functions_and_a_clause_is_not(self):
        first, second = pairs.read_pairs(self.crate)
        self.assertEqual([it.name for it in pairs.functions_changed(first, self.crate)], ["next"])
        self.assertFalse(pairs.functions_changed(second, self.crate))

    def test_functions_end_where_their_braces_do(self):
        found = {it.name: CODE[body.start : body.stop] for it, body in functions_of("src/lib.rt", CODE)}
        self.assertEqual(found["next"], "{\n    n + 1 // and no more\n}")
        self.assertTrue(found["has_brace"].endswith('"{ // }"\n    }'))


class Sums(WithCrate):
    """What a sum counts, and what it does not."""

    def test_comments_and_blank_space_do_not_count(self):
        before = self.sums()
        self.put("src/lib.rt", CODE.replace("/// The next number.", "/// The number behind it.  \n/// No more.\n").replace("n + 1 //", "n + 1  \n //"))
        self.assertEqual(self.sums(), before)

    def test_tests_and_other_files_do_not_count(self):
        self.put("src/lib.rt", CODE + "#[cfg(test)]\nmod cases;\n")
        before = self.sums()
        for path in ["src/tests.rt", "src/tests/one.rt", "src/cases.rt", "README.md"]:
            self.put(path, "fn tests() {}")
        self.assertEqual(self.sums(), before)

    def test_code_specifications_and_proofs_count(self):
        seen = [self.sums()]
        for path, text in [("src/lib.rt", CODE.replace('"{ // }"', '"{ /// }"')), ("specs/Lib.antt", "pub a = c"), ("proofs/next/Answers.antt", "pub a = b")]:
            self.put(path, text)
            seen.append(self.sums())
            self.assertNotIn(seen[-1], seen[:-1], path)

    def test_answers_of_another_function_than_the_goals_do_not_count(self):
        goal = "src/lib.rt: next: returns"
        before = self.sums(goal)
        for path in ["proofs/first/Answers.antt", "proofs/Low/first/Invariants.antt", "proofs/Low/first/Proof.antt"]:
            self.put(path, "pub a = b")
        self.assertEqual(self.sums(goal), before)
        seen = [before]
        for path in ["proofs/Low/next/Answers.antt", "proofs/+both/Proof.antt", "proofs/Less.antt"]:
            self.put(path, "pub a = b")
            seen.append(self.sums(goal))
            self.assertNotIn(seen[-1], seen[:-1], path)

    def test_a_lemma_may_move(self):
        lemma, user = "use Rattle.low.specs.Lib.{a}\nuse Rattle.std.proofs.Common.{refl}\npub b = a", "use Rattle.low.{}.Less.{{b}}\npub c = b"
        self.put("proofs/Less.antt", lemma)
        self.put("proofs/More.antt", user.format("proofs"))
        self.put("proofs/Lib.antt", "pub mod Less\npub mod More")
        before = self.sums()
        (self.crate / "proofs/Less.antt").unlink()
        self.put("specs/Less.antt", "\n".join([*reversed(lemma.split("\n")[:2]), "pub b = a"]))
        self.put("specs/Lib.antt", "pub mod Less")
        self.put("proofs/Lib.antt", "pub mod More")
        self.put("proofs/More.antt", user.format("specs"))
        self.assertEqual(self.sums(), before)
        self.put("proofs/More.antt", user.format("specs").replace("Rattle.low", "Rattle.lower"))
        self.assertEqual(self.sums(), before)
        self.put("proofs/More.antt", user.format("specs").replace("{b}", "{b as c}"))
        self.assertNotEqual(self.sums(), before)

    def test_an_import_counts_by_its_names(self):
        before = record.imported("use Rattle.a.specs.{B.c, D.e}\nuse Rattle.a.specs.F.TheVariants as f")
        self.assertEqual(before, ["use F.TheVariants as f", "use c", "use e"])
        self.assertEqual(record.imported("use Rattle.b.specs.D.{e}\nuse Rattle.a.specs.{B.c}\n  use Rattle.b.specs.F.TheVariants as f;"), before)
        self.assertEqual(record.imported("use Rattle.a.specs.G.TheVariants as f"), ["use G.TheVariants as f"])

    def test_the_text_of_a_pair_counts_for_it_alone(self):
        before = self.sums()
        self.put_pairs(EDITS.replace("n + 2", "n + 3").replace("# takes", "-- A remark\n# takes"))
        self.assertNotEqual(self.sums()["adds_two"], before["adds_two"])
        self.assertEqual(self.sums()["takes_more"], before["takes_more"])

    def test_comments_of_proofs_are_others(self):
        text = 'pub a′ = "-- b"  -- c\n{- d\n e -}\npub f = g // h'
        self.assertEqual(without_comments(text, True), 'pub a′ = "-- b"\npub f = g // h')


class Table(WithCrate):
    """The table, as it is written and compared."""

    EMPTY = f"# Edits\n\n{record.BEGIN}\n{record.END}\n\nMore.\n"
    ROWS = {"high": {"b": Row("src/lib.rt: b: returns|so", "0123456789ab")}, "low": {"adds_two": Row("src/lib.rt: next: returns", "ba9876543210")}}

    def test_what_is_written_is_read_back(self):
        document = record.with_table(self.EMPTY, self.ROWS)
        self.assertEqual(record.read_table(document), self.ROWS)
        self.assertEqual(record.with_table(document, self.ROWS), document)
        self.assertEqual(record.with_table(document, {}).replace("\n\n<", "\n<"), self.EMPTY.replace("\n\n<", "\n<"))

    def test_a_document_without_its_place_is_refused(self):
        with self.assertRaises(record.RecordError):
            record.read_table("# Edits\n")

    def test_only_the_rows_of_what_was_tried_change(self):
        document = self.crate / "EDITS.md"
        document.write_text(record.with_table(self.EMPTY, self.ROWS | {"gone": self.ROWS["high"]}))
        of = {"low": pairs.read_pairs(self.crate), "high": [Pair("b", ())]}
        with mock.patch("edits_main.DOCUMENT", document):
            edits_main.write(of, {"low": self.texts()}, ["low"], rounds.Tried({"takes_more": "src/lib.rt: next: small"}, [], [], [], 1))
        table = record.read_table(document.read_text())
        self.assertEqual(table["high"], self.ROWS["high"])
        self.assertEqual(list(table), ["high", "low"])
        self.assertEqual(list(table["low"]), ["adds_two", "takes_more"])
        self.assertEqual(table["low"]["adds_two"], self.ROWS["low"]["adds_two"])
        self.assertEqual(table["low"]["takes_more"], Row("src/lib.rt: next: small", self.sums()["takes_more"]))

    def test_rows_of_what_is_gone_or_breaks_nothing_are_dropped(self):
        rows = {name: Row("src/lib.rt: next: returns", "0" * 12) for name in ["gone", "takes_more", "adds_two"]}
        of = pairs.read_pairs(self.crate)
        self.assertEqual(list(record.renewed(rows, of, None, {})), ["adds_two", "takes_more"])
        self.assertEqual(list(record.renewed(rows, of, rounds.Tried({}, of[:1], of[1:], [], 1), {})), ["takes_more"])

    def test_what_differs_is_tried(self):
        of, own = {"low": pairs.read_pairs(self.crate)}, {"low": self.texts()}
        table = {"low": {name: Row("src/lib.rt: next: returns", of_pair) for name, of_pair in self.sums().items()}}
        self.assertEqual(edits_main.differing(of, own, table), {})
        table["low"]["adds_two"] = Row("src/lib.rt: next: returns", "0" * 12)
        self.assertEqual(edits_main.differing(of, own, table), {"low": of["low"][:1]})
        self.assertEqual(edits_main.differing(of, own, {}), of)

    def test_rows_and_pairs_without_the_other_are_told(self):
        of = {"low": pairs.read_pairs(self.crate)}
        self.assertEqual(list(edits_main.without_row(of, {})), ["low: 2 of 2 pairs have no row in EDITS.md"])
        self.assertIn("has a row for high/b", "\n".join(edits_main.without_pair(of, self.ROWS)))

    def test_a_derived_debug_does_not_count(self):
        self.assertEqual(record.without_debug("#[derive(Clone, Debug)]\nstruct A;"), "#[derive(Clone)]\nstruct A;")
        self.assertEqual(record.without_debug("#[derive(Debug)]\nstruct A;"), "struct A;")

    def test_a_module_of_tests_does_not_count(self):
        own = "pub fn a() {}\n"
        self.assertEqual(record.meant("src/lib.rt", f"{own}\n#[cfg(test)]\nmod tests;\n"), record.meant("src/lib.rt", own))
        self.assertNotEqual(record.meant("src/lib.rt", f"{own}\nmod tests;\n"), record.meant("src/lib.rt", own))

    def test_many_pairs_of_one_crate_are_tried_apart(self):
        many, few = list(range(45)), list(range(39))
        self.assertEqual(list(edits_main.parts({"a": many}, 4)), [("a", many[0::2]), ("a", many[1::2])])
        self.assertEqual(list(edits_main.parts({"a": many}, 1)), [("a", many)])
        self.assertEqual(list(edits_main.parts({"a": few}, 4)), [("a", few)])
        self.assertEqual(list(edits_main.parts({"a": many, "b": few}, 3)), [("a", many), ("b", few)])
        self.assertEqual(list(edits_main.parts({}, 4)), [])

    def test_words_name_crates_and_pairs(self):
        of = {"low": pairs.read_pairs(self.crate)}
        self.assertEqual(edits_main.wanted(["low/takes_more", "low/adds_two"], of), of)
        self.assertEqual(edits_main.wanted(["low/adds_two", "low"], of), of)
        for word in ["high", "low/none"]:
            with self.assertRaises(edits_main.WrongCall):
                edits_main.wanted([word], of)


class Gate(WithCrate):
    """The status of the gate's call, with what a check would say of the pairs."""

    def setUp(self):
        super().setUp()
        self.root = self.crate.parent / "root"
        self.crate.rename(self.crate.parent / "kept")
        (self.root / "crates").mkdir(parents=True)
        (self.crate.parent / "kept").rename(self.root / "crates" / "low")
        self.crate = self.root / "crates" / "low"
        (self.root / "crates.txt").write_text("low:\n")
        self.document = self.root / "EDITS.md"
        self.document.write_text(record.with_table(Table.EMPTY, {"low": {name: Row("src/lib.rt: next: returns", it) for name, it in self.sums().items()}}))

    def status(self, *words, goals=None, left=()):
        goals = {"adds_two": "src/lib.rt: next: returns", "takes_more": "src/lib.rt: returns"} if goals is None else goals

        def tries(name, of_crate, crates, minutes, keep):
            self.tried += [it.name for it in of_crate]
            found = {it.name: goals[it.name] for it in of_crate if it.name in goals}
            for it in found:
                keep({it: found[it]})
                self.rows.append(len(self.written()))
            missed = [it for it in of_crate if it.name not in goals and it not in left]
            return rounds.Tried(found, missed, list(left), [], 1)

        self.tried, self.rows = [], []
        with mock.patch.multiple(edits_main, ROOT=self.root, DOCUMENT=self.document, try_pairs=tries), mock.patch("builtins.print") as said:
            status = edits_main.main(list(words))
        self.said = "\n".join(" ".join(map(str, it.args)) for it in said.call_args_list)
        return status

    def written(self):
        return record.read_table(self.document.read_text()).get("low", {})

    def test_rows_are_written_as_they_are_found(self):
        self.document.write_text(record.with_table(self.document.read_text(), {}))
        self.assertEqual(self.status("--write", "low"), 0)
        self.assertEqual(self.rows, [1, 2])

    def test_no_row_is_written_unasked(self):
        self.document.write_text(record.with_table(self.document.read_text(), {}))
        self.status("low")
        self.assertEqual(self.rows, [0, 0])

    def test_nothing_is_tried_where_nothing_changed(self):
        self.assertEqual(self.status("--changed"), 0)
        self.assertEqual(self.tried, [])

    def test_a_change_that_is_refused_is_told_and_passes(self):
        self.put("src/lib.rt", CODE.replace("n < 255", "n < 254"))
        self.put_pairs(EDITS.replace("n < 255", "n < 254"))
        self.assertEqual(self.status("--changed"), 0)
        self.assertEqual(self.tried, ["adds_two", "takes_more"])
        self.assertIn("tools/each-edit --write --changed", self.said)

    def test_a_pair_that_breaks_nothing_fails(self):
        self.put("specs/Lib.antt", "pub a = c")
        self.assertEqual(self.status("--changed", goals={"adds_two": "src/lib.rt: next: returns"}), 1)

    def test_a_pair_without_a_row_fails_until_it_is_written(self):
        self.document.write_text(record.with_table(self.document.read_text(), {}))
        self.assertEqual(self.status("--changed"), 1)
        self.assertEqual(self.status("--changed", "--write"), 0)
        self.assertEqual(self.status("--changed"), 0)

    def test_a_row_without_a_pair_fails_until_it_is_written(self):
        self.put_pairs(EDITS.partition("\n# takes")[0] + "\n")
        self.assertEqual(self.status("--changed"), 1)
        self.assertEqual(self.status("--changed", "--write"), 0)
        self.assertEqual(self.tried, [])
        self.assertEqual(self.status("--changed"), 0)

    def test_what_the_minutes_did_not_reach_fails_and_is_named(self):
        self.put("specs/Lib.antt", "pub a = c")
        left = pairs.read_pairs(self.crate)
        self.assertEqual(self.status("--changed", goals={}, left=left), 1)
        self.assertIn("low: 2 not tried yet; `tools/each-edit --write low` tries all", self.said)

    def test_no_check_is_begun_without_minutes(self):
        with mock.patch("rounds.ROOT", self.root), mock.patch("rounds.run") as runs:
            (self.root / "HANDLES").write_text("Handles allowed: none.\n")
            tried = rounds.try_pairs("low", pairs.read_pairs(self.crate), {"low": []}, rounds.Minutes(0), lambda goals: None)
        self.assertEqual([it.name for it in tried.left], ["adds_two", "takes_more"])
        runs.assert_not_called()

    def test_wrong_calls(self):
        self.assertEqual(self.status("high"), 2)
        for words in [[], ["--changed", "low"], ["--minutes", "3", "low"]]:
            with self.subTest(words=words), mock.patch("sys.stderr"), self.assertRaises(SystemExit) as ended:
                self.status(*words)
            self.assertEqual(ended.exception.code, 2)


class Answers(unittest.TestCase):
    """What is read off a check."""

    def setUp(self):
        self.next, self.has_brace = (it for it, _ in functions_of("src/lib.rt", CODE))

    def test_a_goal_is_told_of_its_function(self):
        self.assertEqual(answers.goal_of(self.next, SAID), "src/lib.rt: next: returns-clause-next")
        self.assertEqual(answers.goal_of(self.has_brace, SAID), "proofs/Counter/has_brace/Proof.antt: the-goal")
        self.assertIsNone(answers.goal_of(self.next._replace(first=20, last=30), SAID))
        self.assertEqual(answers.any_goal(SAID, lambda file: CODE), "src/lib.rt: next: returns-clause-next")

    def test_an_answer_in_error_is_no_goal(self):
        lines = {"proofs/Counter/has_brace/Answers.antt": {7: "`returns`: the goal does not follow"}}
        self.assertEqual(answers.answers_in_error(None, SAID), lines)
        self.assertEqual(answers.answers_in_error([self.has_brace], SAID), lines)
        self.assertEqual(answers.answers_in_error([self.next], SAID), {})

    def test_an_answer_is_taken_out_whole(self):
        text = "use a\n\npub one\n  by b\n\npub two\n  by c\n"
        self.assertEqual(answers.without_answers(text, {4: "no"}), "use a\n\npub two\n  by c\n")

    def test_an_import_loses_what_it_does_not_find(self):
        text = "use m.Goals.{in-A, in-B, in-C}\nuse m.Goals as goal\n\npub one\n  by b\n"
        said = "module `m.Goals` has no `in-A` that can be named from here. Further on in this line, not found: `in-C`"
        self.assertEqual(answers.without_answers(text, {1: said}), text.replace("{in-A, in-B, in-C}", "{in-B}"))
        self.assertEqual(answers.without_names("use m.Goals.{in-A}", said), "")

    def test_a_function_waits_for_what_it_calls(self):
        twice = self.next._replace(name="twice")
        self.assertTrue(answers.waits(twice, SAID))
        self.assertFalse(answers.waits(self.next, SAID))

    def test_what_was_not_read_is_no_refusal(self):
        self.assertTrue(answers.is_read(1, SAID))
        self.assertFalse(answers.is_read(1, SAID + "src/lib.rt:4:1: error: no such name\n"))
        self.assertFalse(answers.is_read(3, SAID))


class OfRounds(WithCrate):
    """Which pairs share a check, and which are tried again."""

    OPEN = "note: src/lib.rt:%d:1: it is not proved that it returns (`returns`)\n"
    IN_ERROR = "./proofs/Counter/has_brace/Answers.antt:1:1: error: `returns`: no\n"
    MORE = "\n# tells_no_brace\nfile: src/lib.rt\nold: ==\nnew: !=\n"

    def rounds(self, *said):
        """The rounds of the crate, whose checks say these words one after another, and the texts that each was asked of."""
        made = object.__new__(rounds.Rounds)
        made.crate, made.goals, made.keep, self.asked = self.crate, {}, lambda goals: None, []
        words = iter(said)
        made.check = lambda texts, functions=(): self.asked.append(texts) or next(words)
        return made

    def bodies(self):
        """The pairs that change bodies alone, with the functions that they change."""
        self.put_pairs(EDITS + self.MORE)
        found = [(it, pairs.functions_changed(it, self.crate)) for it in pairs.read_pairs(self.crate)]
        return [it for it in found if it[1]]

    def test_what_is_refused_is_not_searched_again(self):
        self.put("proofs/Counter/has_brace/Answers.antt", "pub returns\n  by grind\n")
        made = self.rounds(self.OPEN % 6 + self.IN_ERROR, self.OPEN % 13)
        made.try_together(self.bodies())
        self.assertEqual(made.goals, {"adds_two": "src/lib.rt: next: returns", "tells_no_brace": "src/lib.rt: has_brace: returns"})
        self.assertIn("n + 2", self.asked[0]["src/lib.rt"])
        self.assertNotIn("n + 2", self.asked[1]["src/lib.rt"])
        self.assertEqual(self.asked[1]["proofs/Counter/has_brace/Answers.antt"], "")

    def test_what_waits_is_tried_in_the_next_round(self):
        made = self.rounds(self.OPEN % 6 + "fn low::Counter::has_brace: no proof: it calls `low::next`\n", self.OPEN % 13)
        made.try_together(self.bodies())
        self.assertEqual(list(made.goals), ["adds_two", "tells_no_brace"])
        self.assertEqual(len(self.asked), 2)

    def test_what_is_proved_still_is_not_refused(self):
        made = self.rounds(self.OPEN % 6, self.OPEN % 6)
        made.try_together(self.bodies())
        self.assertEqual(list(made.goals), ["adds_two"])

    def test_pairs_of_one_function_share_no_check(self):
        self.put_pairs(EDITS.replace("old: n + 1\nnew: n + 2", "old: n +\nnew: n *") + "\n# adds_none\nfile: src/lib.rt\nold: 1 //\nnew: 0 //\n")
        first, _, third = [(it, pairs.functions_changed(it, self.crate)) for it in pairs.read_pairs(self.crate)]
        self.assertEqual(self.rounds().together([first, third])[0], [first])

    def test_texts_that_are_not_read_are_halved(self):
        made = self.rounds(None, self.OPEN % 6, self.OPEN % 13)
        made.try_together(self.bodies())
        self.assertEqual(list(made.goals), ["adds_two", "tells_no_brace"])

    def test_a_pair_outside_bodies_leaves_any_goal_open(self):
        made = self.rounds(self.IN_ERROR, self.OPEN % 13)
        self.put("proofs/Counter/has_brace/Answers.antt", "pub returns\n  by grind\n")
        made.try_alone(pairs.read_pairs(self.crate)[1])
        self.assertEqual(made.goals, {"takes_more": "src/lib.rt: has_brace: returns"})


class Repository(unittest.TestCase):
    """The pairs of this repository."""

    def test_each_file_can_be_applied_and_each_pair_alone(self):
        for name in rounds.crates_of(rounds.ROOT):
            with self.subTest(crate=name):
                pairs.read_pairs(rounds.ROOT / "crates" / name)


if __name__ == "__main__":
    unittest.main()
