"""Places where a result is handed on by hand are found as they stand, and are those that docs/DECISIONS.md names."""
import os
import re

from commands.tests.support import Case

from .. import rewraps

TEXT = """
fn plain() -> Result<u8, Stop> {
    let v = read()?;
    put(v)?;
    Ok(v) // let v = read()?; Ok(v)
}

fn listed(names: &[u8]) -> Result<Vec<u8>, Stop> {
    let mut list: Vec<u8> =
        names.iter().map(|name| {
            let open = count(name, b'{', "Ok(list)");
            open
        }).collect(alloc)?;

    Ok(list)
}

fn matched() -> Result<u8, Stop> {
    let v = match read() {
        Ok(v) => v,
        Err(why) => return Err(why),
    };
    match put(v) {
        Ok(()) => Ok(v),
        Err(Stop::NoMemory) => Err(Stop::NoMemory),
        Err(Stop::Bad) => Err(Stop::Read),
        Err(why) => Err(other),
    }
}

fn given() -> Result<Option<u8>, Stop> {
    let v = read()?;
    Ok(Some(v))
}
"""
NAMED = re.compile(r"`(\w+(?:::\w+){2,})`")


class Rewraps(Case):
    def test_each_form_is_found(self) -> None:
        self.assertEqual([(place.line, place.name) for place in rewraps.rewraps_in("cm_a/src/in/of.rt", TEXT)],
                         [(9, "cm_a::in::of::listed"), (21, "cm_a::in::of::matched"), (25, "cm_a::in::of::matched")])

    def test_tests_are_passed(self) -> None:
        for path in ("cm_a/src/lib.rt", "cm_a/src/in/tests.rt", "cm_a/src/tests/of.rt", "cm_b/src/test.rt",
                     "cm_b/src/latest.rt", "cm_b/proofs/Lib.antt"):
            self.put(f"crates/{path}", TEXT.encode())
        found = rewraps.rewraps(self.work)
        self.assertEqual({place.file for place in found}, {"cm_a/src/lib.rt", "cm_b/src/latest.rt"})
        self.assertEqual(len(found), 6)

    def test_the_decisions_name_each_with_its_reason(self) -> None:
        with open(os.path.join(rewraps.TOP, "docs", "DECISIONS.md"), encoding="utf-8") as file:
            decision = file.read().split("- **A result goes on by `?`**")[1].split("\n- **")[0]
        self.assertEqual(set(NAMED.findall(decision)), {place.name for place in rewraps.rewraps()})
