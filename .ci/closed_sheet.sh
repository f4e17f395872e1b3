#!/bin/sh
# Adding a value to a closed sheet does not compile. This checks a made-up crate that does so, over a copy of the crates below
# it, and expects the error of a value used after it was moved (borrow-e0382) at that line and no other error; the same crate
# without the line must be proved.
# Exit status: 0 exactly when both are so.
set -u

root=$(cd "$(dirname "$0")/.." && pwd -P) || exit 2
work=$(mktemp -d) || exit 2
trap 'rm -rf "$work"' EXIT

fail() { # MESSAGE LOG
    echo "closed_sheet: $1" >&2
    cat "$2" >&2
    exit 1
}

# Copies a crate of the repository, but for what checks have made of it.
copy_crate() { # NAME
    mkdir -p "$work/crates/$1"
    cp -R "$root/crates/$1/src" "$root/crates/$1/specs" "$root/crates/$1/proofs" "$work/crates/$1/"
}

# Writes the crate, with ARM for the sheet that is closed.
write_crate() { # NAME ARM
    mkdir -p "$work/crates/$1/src"
    cat >"$work/crates/$1/src/lib.rt" <<END
// A sheet that is closed.
#![tactic(auto)]

use sheet::sheet::Sheet;

pub fn close_it(sheet: Sheet, out: &mut [u8]) -> usize {
    match sheet.close(out) {
        $2
        Err((sheet, _)) => sheet.tear(),
    }
}
END
}

check_crate() { # NAME
    (cd "$work/crates/$1" && rt check) >"$work/$1.log" 2>&1
}

for name in cnf lay sheet; do
    copy_crate "$name"
done
write_crate proper 'Ok(written) => written,'
write_crate misuse 'Ok(_) => sheet.add(1, out).0.tear(),'
cat >"$work/crates.txt" <<END
cnf:
lay: itoa
sheet: lay cnf
proper: sheet
misuse: sheet
END

check_crate proper || fail "a sheet that is closed and left alone is refused" "$work/proper.log"
if check_crate misuse; then
    fail "adding to a closed sheet is not refused" "$work/misuse.log"
fi
errors=$(grep -c 'error' "$work/misuse.log")
moved=$(grep -c 'src/lib.rt:8:.*error\[borrow-e0382\]' "$work/misuse.log")
if [ "$moved" -lt 1 ] || [ "$errors" -ne "$moved" ]; then
    fail "adding to a closed sheet is refused for another reason" "$work/misuse.log"
fi
echo "closed_sheet: adding to a closed sheet is refused (borrow-e0382)"
