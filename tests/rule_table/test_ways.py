"""Tests of the names of ways out: each is the one that Rattle gives the goal there."""

import unittest

from .ways import ways_out


def ways_of(*body: str, head: str = "fn f(s: &[u8]) -> u64") -> dict[str, str]:
    """The ways out of a function with these lines."""
    return ways_out("\n".join([head, "{", *body, "}"]))


def named(*body: str) -> list[str]:
    """The names of the ways out of a function with these lines."""
    return list(ways_of(*body))


def tested(condition: str) -> str:
    """The name of a `return` below a test."""
    name, end = named(f"if {condition} {{", "    return 1;", "}", "2")
    assert end == "returns"
    return name.removeprefix("returns-then-")


class TestTests(unittest.TestCase):
    """What stands below an `if`."""

    def test_calls(self) -> None:
        self.assertEqual(tested("calendar::is_day(d)"), "is_day")
        self.assertEqual(tested("!whole(s.len(), p, w)"), "not-whole")
        self.assertEqual(tested("left > room_after(mark, room)"), "left-room_after")

    def test_variables(self) -> None:
        self.assertEqual(tested("!f.permitted"), "not-f")
        self.assertEqual(tested("s.len() > end"), "s-end")
        self.assertEqual(tested("n >= checked.count as usize"), "n-checked")
        self.assertEqual(tested("kind.customer & (v != 0)"), "kind-v")
        self.assertEqual(tested("!(columns & table)"), "not-columns-table")
        self.assertEqual(tested("!(receiver & customer_ok(customer) & keys)"), "not-receiver-customer_ok")
        self.assertEqual(tested("s[i] == z"), "s-i")
        self.assertEqual(tested("(i == 2) | (i == 6)"), "i")

    def test_numbers(self) -> None:
        self.assertEqual(tested("checked.verdict.number != 0"), "checked-ne0")
        self.assertEqual(tested("v == 0"), "v-eq0")
        self.assertEqual(tested("k <= 2"), "k-le2")
        self.assertEqual(tested("yy < 80"), "yy-lt80")
        self.assertEqual(tested("t[i] != b' '"), "t-i-ne32")

    def test_what_is_lent(self) -> None:
        self.assertEqual(tested("f != s"), "ne")
        self.assertEqual(tested("!(s == f)"), "not-eq")

    def test_constants(self) -> None:
        self.assertEqual(tested("s.len() > LONGEST"), "s-gt-LONGEST")
        self.assertEqual(tested("i >= length::MOST_PARTS"), "i-ge-MOST_PARTS")
        self.assertEqual(tested("sum > MOST_OF_17 - v"), "sum-v")
        self.assertEqual(tested("length::FIELDS_TOLD + length::PART_TOLD * k != l"), "k-l")


class TestBranches(unittest.TestCase):
    """The branches that a way out can stand in."""

    def test_one_within_another(self) -> None:
        lines = ["if e == l.len() {", "    if e == 0 {", "        return 1;", "    }", "    return 2;", "}", "3"]
        self.assertEqual(named(*lines), ["returns-then-e-eq0", "returns-then-e-l", "returns"])

    def test_values_that_are_taken_apart(self) -> None:
        lines = []
        for value in ("a", "read(n)", "read(q)", "added"):
            lines += [f"let Ok((n, q)) = {value} else {{", "    return 1;", "};"]
        more = ["returns-in_default-read", "returns-in_default-read-2", "returns-in_default-added"]
        self.assertEqual(named(*lines, "2"), ["returns-in_default", *more, "returns"])
        self.assertEqual(named("if let Some(n) = a {", "    return 1;", "}", "2"), ["returns-in-Some", "returns"])

    def test_questions(self) -> None:
        lines = ["let f = bytes_at(s, p, w.len())?;", "let (mut v, q) = fields::number_at(s, p)?;", "signs_at(f, q)?;",
                 "let (_, _) = read(q)?;", "let sum = self.0.add(v).ok_or(refuse(OVER, p))?;", "signs_at(f, q)?;"]
        asked = [f"returns-in_err-{name}" for name in ("f", "v", "signs_at", "read", "sum", "signs_at-2")]
        self.assertEqual(named(*lines, "Ok(sum)"), [*asked, "returns"])

    def test_questions_of_a_loop(self) -> None:
        lines = ["loop {", "    let (l, q) = length_at(s, at)?;", "    if l == END_TOLD {", "        return ended(q);",
                 "    }", "}"]
        self.assertEqual(named(*lines), ["returns-in_err-l", "returns-then-l-eq-END_TOLD"])

    def test_arms(self) -> None:
        lines = ["match a {", "    Read::Blank => 1,", "    Ok((n, q)) => match case(n, q) {",
                 "        Case::Early => return 2,", "        _ => 3,", "    },", "    Err(why) => refused(why),", "}"]
        names = ["returns-in-Blank", "returns-in-Early", "returns-in_default", "returns-in-Err"]
        self.assertEqual(named(*lines), names)

    def test_arms_in_a_loop(self) -> None:
        lines = ["loop {", "    match a {", "        Line::Ended => break,", "        Err(why) => return why,",
                 "        Line::Is(next) => {", "            p = next;", "        }", "    }", "}"]
        self.assertEqual(named(*lines, "p"), ["returns-in-Err", "returns"])

    def test_arms_that_give_a_value(self) -> None:
        lines = ["let n = match read(s) {", "    Ok(n) => n,", "    Err(why) => return refused(why),", "};"]
        self.assertEqual(named(*lines, "n"), ["returns-in-Err", "returns"])

    def test_names_that_recur(self) -> None:
        lines = ["if !has(s, n) {", "    return 1;", "}", "if !has(s, k) {", "    return 2;", "}"]
        self.assertEqual(named(*lines, "3"), ["returns-then-not-has", "returns-then-not-has-2", "returns"])

    def test_what_is_given(self) -> None:
        ways = ways_of("if a {", "    return refuse(ONE, p);", "}", "refuse(TWO, p)")
        self.assertEqual(ways["returns-then-a"].strip(), "refuse(ONE, p)")
        self.assertEqual(ways["returns"], "refuse(TWO, p)")

    def test_what_is_asked(self) -> None:
        ways = ways_of("let v = Some(number_in(f, p)?);", "Ok((v, q))", head="fn f()\n    ensures { get? a ≡ 1 }")
        self.assertEqual(ways, {"returns-in_err-number_in": "number_in(f, p)", "returns": "Ok((v, q))"})

    def test_what_is_handed_on(self) -> None:
        lines = ["let c3 = fields::number_at(s, p);", "let Ok((v, q)) = c3 else {", "    return Err(fields::why(c3));",
                 "};", "let c4 = g(q);", "let Ok(r) = c4 else {", "    return c4;", "};"]
        read, also_read, end = ways_of(*lines, "h(r)").values()
        self.assertEqual(read.strip(), "Err(fields::why(fields::number_at(s, p)))")
        self.assertEqual(also_read.strip(), "g(q)")
        self.assertEqual(end, "h(r)")


if __name__ == "__main__":
    unittest.main()
