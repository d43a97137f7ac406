#!/bin/sh
# Checks clauses.py, edits.py and try_edits.py of tools, and layers.py, lines.py and parameters.py of tools/checks on a small repository: what
# they print, and their status, after each change of its files. `rt` is a script here, which proves nothing.
. "$(dirname "$0")/../common.sh"
need python3
make_folder
mkdir -p "$kept/crates/two/src" "$kept/crates/two/must-fail" "$kept/edits/two" "$kept/tools"
source=$kept/crates/two/src/pair.rt
edit=$kept/edits/two/adds_one_more.edit
count=0
wrong=0

# STATUS TEXT WORDS ..: a command that ends with this status, and has this text in a line that it prints.
expect() {
    status=$1
    text=$2
    shift 2
    said=$("$@" 2>&1)
    got=$?
    count=$((count + 1))
    [ "$got" = "$status" ] && printf '%s\n' "$said" | grep -qF -e "$text" || {
        echo "WRONG: '$*': status $got, and not $status with '$text': $said"
        wrong=1
    }
}

clauses() {
    python3 "$top/tools/clauses.py" --top "$kept" "$@"
}

edits() {
    python3 "$top/tools/edits.py" "$kept"
}

tries() {
    PATH="$kept/bin:$PATH" PYTHONPATH="$top/tools" python3 -B "$top/tools/try_edits.py" "$kept" two
}

layers() {
    python3 "$top/tools/checks/layers.py" "$@" "$kept"
}

lines() {
    python3 "$top/tools/checks/lines.py" "$kept"
}

parameters() {
    python3 "$top/tools/checks/parameters.py" "$kept"
}

whole() {
    cat >"$source" <<'END'
/// A number and its double.
pub struct Pair {
    first: u32,
}

impl Model for Pair {
    ghost view = { λ p. p.first };
}

impl Pair {
    /// Returns the sum.
    pub fn sum(&self, more: u32) -> u32
        requires small { more < 100 }
        ensures {
            result ≡ self.now +
                more
        }
    {
        self.first + more
    }

    fn half(&self) -> u32
        ensures { result ≡ self.now / 2 }
    {
        self.first / 2
    }
}

/// A number in each place.
pub trait Places {
    ghost places: { Self → ℕ };

    /// Returns the number.
    fn number(&self) -> u32
        ensures { result ≡ places self.now };
}
END
    printf 'file: src/pair.rt\nold:         self.first + more\nnew:         self.first + more + 1\n' >"$edit"
}

# SCRIPT: changes the source by sed.
change() {
    whole
    sed -i "$1" "$source"
}

whole
expect 2 'clauses.txt: No such file' clauses --check
expect 0 '5 public clauses of 4 functions and types written' clauses --update
expect 0 '5 public clauses, as tools/clauses.txt has them' clauses --check
expect 0 'two pair::Pair::sum: requires small { more < 100 }' clauses
expect 0 'ensures { result ≡ self.now + more }' clauses
expect 0 '' clauses --changed
change '/requires small/d'
expect 1 'dropped: two pair::Pair::sum: requires small' clauses --check
expect 0 'two' clauses --changed
change 's/more < 100/more < 99/'
expect 1 'requires small { more < 99 }' clauses --check
change 's/self.now +/self.now -/'
expect 1 'changed: two pair::Pair::sum: ensures' clauses --check
change 's/places self.now/1/'
expect 1 'changed: two pair::Places::number: ensures' clauses --check
change '/ghost view/d'
expect 1 'dropped: two pair::Model for Pair: ghost view' clauses --check
change 's/self.now \/ 2/1/; s/Returns the sum/Adds/; s/self.first + more/more + self.first/'
expect 0 '5 public clauses, as' clauses --check

whole
expect 0 '1 edits, of which 1 can be applied' edits
printf 'file: src/pair.rt\nold: self.first\nnew: more\n' >"$edit"
expect 1 "'self.first' is in src/pair.rt 2 times" edits
printf 'file: src/pair.rt\nold: self.second\nnew: more\n' >"$edit"
expect 1 "'self.second' is in src/pair.rt 0 times" edits
printf 'file: src/other.rt\nold: self\nnew: more\n' >"$edit"
expect 1 'two has no file src/other.rt' edits
printf 'file: src/pair.rt\nold: first + more\nnew: first\nold: more\nnew: less\n' >"$edit"
expect 1 "'more' is in src/pair.rt 3 times" edits
printf 'file: src/pair.rt\nold: first + more\n' >"$edit"
expect 1 "an 'old:' line without its 'new:' line" edits
printf 'file: src/pair.rt\nold: first + more\nnew: first + more\n' >"$edit"
expect 1 'stays as it is' edits
mv "$edit" "$kept/crates/two/must-fail/again.edit"
expect 1 'crates/two/must-fail/again.edit' edits

# Each sum of a number and one more is refused, a sum of three can't be read, and a difference has no verdict.
mkdir -p "$kept/bin"
cat >"$kept/bin/rt" <<'END'
#!/bin/sh
if grep -q 'more + 1' src/pair.rt; then
    printf 'fn two::pair::Pair::half: no proof: it calls one\nfn two::pair::Pair::sum: not proved\nlogic=not-proved\n'
elif grep -q 'more + more' src/pair.rt; then
    printf './src/pair.rt:20:9: error: `more` is not in scope\nfn two::pair::Pair::sum: not proved\nlogic=not-proved\n'
elif grep -q 'first - more' src/pair.rt; then
    echo 'rt: killed'
else
    echo 'logic=proved functions=2'
fi
END
chmod +x "$kept/bin/rt"
echo two: >"$kept/crates.txt"
echo 'Handles allowed: none.' >"$kept/HANDLES"
rm "$kept/crates/two/must-fail/again.edit"
# NEW: an edit whose new text this is
edit_to() {
    printf 'file: src/pair.rt\nold: self.first + more\nnew: %s\n' "$1" >"$edit"
}
whole
expect 0 'two/adds_one_more.edit: refused: two::pair::Pair::sum' tries
expect 0 '1 edits refused, 0 not' tries
expect 0 '        self.first + more' cat "$source"
edit_to 'more + self.first'
expect 1 'NOT REFUSED: the crate is still proved' tries
edit_to 'self.first + more + more'
expect 1 'BAD EDIT: ./src/pair.rt:20:9: error' tries
edit_to 'self.first - more'
expect 1 'NOT TRIED: rt: killed' tries
edit_to 'self.first'
sed -i 's/self.first + more/self.first - more/' "$source"
expect 1 'two: NOT PROVED, so its edits (1) are not tried' tries

# two crates, of which the second uses the first
crates() {
    mkdir -p "$kept/crates/one/src" "$kept/docs"
    printf '//! Numbers.\n//!\n//! They are whole.\npub struct Number;\n' >"$kept/crates/one/src/lib.rt"
    printf '//! Pairs.\nuse one::Number;\n' >"$kept/crates/two/src/lib.rt"
    printf '# == The bottom.\n# nothing to numbers\none:\n\n# == The top.\n# numbers to pairs\ntwo: one\n' >"$kept/crates.txt"
    printf '# Pairs\n\n## The layers\n\n- `one`: numbers\n- `two`: pairs of `Number`\n\n## Pairs\n' >"$kept/docs/architecture.md"
}

crates
expect 1 "two: its documentation doesn't say its layer" layers
expect 0 '2 crates, the longest chain has 2' layers --write
expect 0 'Layer: the top. It uses `one`.' cat "$kept/crates/two/src/lib.rt"
expect 0 'They are whole.' cat "$kept/crates/one/src/lib.rt"
expect 0 '2 crates, the longest chain has 2' layers
sed -i 's/use one/use own/' "$kept/crates/two/src/lib.rt"
expect 1 'two: one is not used' layers
crates
sed -i '/nothing to numbers/d' "$kept/crates.txt"
expect 1 'one: no line says what enters and what leaves' layers --write
crates
printf 'two: one\none:\n' >"$kept/crates.txt"
expect 1 'two: one has a later line' layers
crates
sed -i 's/`one`/`two`/' "$kept/docs/architecture.md"
expect 1 'docs/architecture.md: the list of crates' layers
expect 0 '3 files, 0 lines or files that are too long' lines
printf -- '-- %158d\n' 1 >"$kept/crates/two/src/long.antt"
expect 1 'long.antt:1: 161 characters' lines
seq 800 >"$kept/crates/two/src/long.antt"
expect 1 'long.antt: 800 lines' lines
printf 'fn five<T: Fn(u8) -> u8>(&self, a: (u8, u8), b: [u8; 2], c: fn(u8, u8) -> u8, d: T) {}\n' >"$source"
expect 0 '1 functions, 0 with more than 5 parameters' parameters
printf 'fn six(\n    a: u8,\n    b: u8,\n    c: u8,\n    d: u8,\n    e: u8,\n    f: u8,\n) {}\n' >>"$source"
expect 1 'pair.rt:2: six has 6 parameters' parameters
sed -i 's/^fn six/pub extern "C" fn six/' "$source"
expect 0 '2 functions, 0 with more than 5 parameters' parameters

echo "$count runs of the gate's tools, $([ $wrong = 0 ] && echo all as expected || echo some WRONG)"
exit $wrong
