#!/usr/bin/env bash
# A ballot that a roll lends can't be kept while the roll changes: a test that does so must not compile. The same test with
# the two lines exchanged must compile and pass, so that nothing else is refused.
cd "$(dirname "$0")/.." || exit 1
command -v rt >/dev/null || { echo "lent_rows: no rt, skipped"; exit 0; }
work=$(mktemp -d) || exit 1
trap 'rm -rf "$work"' EXIT
mkdir -p "$work/crates/lent_rows/src" || exit 1
cp HANDLES "$work/" && tar -c --exclude=out crates/mov_base crates/ballot_form | tar -x -C "$work" || exit 1
printf 'mov_base:\nballot_form: mov_base\nlent_rows: mov_base ballot_form\n' >"$work/crates.txt"

# Writes the test with these two lines in its middle, and runs it; prints what rt says.
run_test() {
    cat >"$work/crates/lent_rows/src/lib.rt" <<TEXT
//! Keeps a ballot that a roll lends.
#![tactic(auto)]

#[cfg(test)]
mod keeps {
    use ballot_form::{PushFault, Roll};
    use std::test::Fail;

    #[test]
    fn a_row_is_kept(rt: HostRuntime) -> Result<(), Fail> {
        let mut roll = Roll::new(rt.alloc(), 2);
        let _ = roll.push_times(&[1], 1);
        $1
        $2
        assert_eq!(rt; row.len(), 1);
        Ok(())
    }
}
TEXT
    (cd "$work/crates/lent_rows" && rt try --test 2>&1)
}

push='let _ = roll.push_times(&[], 1);'
keep='let row = roll.row(0);'
failed=0
if ! run_test "$push" "$keep" | grep -q 'test result: ok. 1 passed'; then
    echo "lent_rows: the test that lends after the push doesn't pass"
    failed=$((failed + 1))
fi
if ! run_test "$keep" "$push" | grep -q 'error\[borrow-e0502\]'; then
    echo "lent_rows: the test that keeps a ballot over the push isn't refused"
    failed=$((failed + 1))
fi
echo "lent_rows: $((2 - failed)) passed, $failed failed"
[ "$failed" = 0 ]
