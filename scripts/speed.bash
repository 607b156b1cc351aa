# What chain-speed, search-speed and lanes-speed share: the proved build of a small program beside the same program in plain
# Rust, run by turns. Each script sources this file, hands the text of both programs to `proved_main`,
# `proved_invariant` and `plain_main` on their standard input, and then calls `compare`, or `build_proved`, `build_plain` and
# `measure` itself.
#
# Needs `rt` and `rustc` on the PATH. Works in a temporary folder, which it removes at the end.
set -euo pipefail

repetitions=9

script=$(basename "$0")
root=$(cd "$(dirname "${BASH_SOURCE[0]}")/.." && pwd)
for tool in rt rustc; do
    command -v "$tool" >/dev/null || { echo "$script: $tool isn't on the PATH" >&2; exit 1; }
done
work=$(mktemp -d)
trap 'rm -rf "$work"' EXIT

# The proved program: a crate of its own, over a copy of the repository's crates. The arguments are the crates that it
# uses.
crate=speed
proved_main() {
    [ -d "$work/crates" ] || tar -C "$root" --exclude='crates/*/out' -cf - crates crates.txt HANDLES | tar -C "$work" -xf -
    printf '\n%s: %s\n' "$crate" "$*" >>"$work/crates.txt"
    mkdir -p "$work/crates/$crate"/{src,proofs/main}
    cat >"$work/crates/$crate/src/main.rt"
}

# What the loop of its main function keeps, and why, where the prover doesn't see that by itself.
proved_invariant() { cat >"$work/crates/$crate/proofs/main/Invariants.antt"; }
proved_answer() { cat >"$work/crates/$crate/proofs/main/Answers.antt"; }

# Flags for the build, of which there are none at first.
flags=()
build_proved() {
    (cd "$work/crates/$crate" && rt run "${flags[@]}" >"$work/build.log" 2>&1) || { tail -20 "$work/build.log" >&2; exit 1; }
}
build_plain() { rustc -O --edition 2024 -A dead_code -o "$work/plain" "$work/plain.rs"; }

# The plain program: the chain in Rust without contracts, in the same shape, and a main function.
plain_main() {
    { plain_chain; cat; } >"$work/plain.rs"
}

plain_chain() {
    cat <<'EOF'
#[derive(Clone, Copy)]
struct State {
    v0: u64,
    v1: u64,
    v2: u64,
    v3: u64,
}

impl State {
    fn start(key: &[u8; 16]) -> State {
        let k0 = u64::from_le_bytes(key[..8].try_into().unwrap());
        let k1 = u64::from_le_bytes(key[8..].try_into().unwrap());
        State {
            v0: k0 ^ 0x736f_6d65_7073_6575,
            v1: k1 ^ 0x646f_7261_6e64_6f6d,
            v2: k0 ^ 0x6c79_6765_6e65_7261,
            v3: k1 ^ 0x7465_6462_7974_6573,
        }
    }

    fn round(self) -> State {
        let State { mut v0, mut v1, mut v2, mut v3 } = self;
        v0 = v0.wrapping_add(v1);
        v1 = v1.rotate_left(13) ^ v0;
        v0 = v0.rotate_left(32);
        v2 = v2.wrapping_add(v3);
        v3 = v3.rotate_left(16) ^ v2;
        v0 = v0.wrapping_add(v3);
        v3 = v3.rotate_left(21) ^ v0;
        v2 = v2.wrapping_add(v1);
        v1 = v1.rotate_left(17) ^ v2;
        v2 = v2.rotate_left(32);
        State { v0, v1, v2, v3 }
    }

    fn absorb(mut self, word: u64) -> State {
        self.v3 ^= word;
        self = self.round().round();
        self.v0 ^= word;
        self
    }

    fn finish(mut self) -> u64 {
        self.v2 ^= 0xff;
        self = self.round().round().round().round();
        self.v0 ^ self.v1 ^ self.v2 ^ self.v3
    }
}

fn last(message: &[u8]) -> u64 {
    let mut word = [0; 8];
    let tail = &message[message.len() / 8 * 8..];
    word[..tail.len()].copy_from_slice(tail);
    u64::from_le_bytes(word) + ((message.len() as u64 % 256) << 56)
}

fn hash(key: &[u8; 16], message: &[u8]) -> u64 {
    let mut state = State::start(key);
    for word in message.chunks_exact(8) {
        state = state.absorb(u64::from_le_bytes(word.try_into().unwrap()));
    }
    state.absorb(last(message)).finish()
}

fn fold(hash: u64) -> u32 {
    let bits = ((hash >> 32) as u32 ^ hash as u32) >> 2;
    if bits > 999_999_999 { bits - 73_741_825 } else { bits }
}

fn step(key: &[u8; 16], code: u32) -> u32 {
    let mut bytes = [0; 8];
    bytes[..4].copy_from_slice(&code.to_be_bytes());
    bytes[4..].copy_from_slice(&code.to_be_bytes());
    fold(hash(key, &bytes))
}

EOF
}

# Processor time and time by the clock of one run of a program with its words, in seconds.
measure() {
    local output TIMEFORMAT='%U %R'
    { time output=$("$@"); } 2>&1
}

median() { sort -n | sed -n "$(((repetitions + 1) / 2))p"; }
ratio() { awk -v a="$1" -v b="$2" 'BEGIN { printf "%.3f", a / b }'; }

# Builds both programs and runs them by turns. Prints each time, the medians, and the ratio of proved to plain. The
# first argument says what a run does. Both programs must print the same, and the second argument where there is one.
compare() {
    local proved=$work/crates/$crate/out/$crate plain=$work/plain wanted kind a b
    echo "building both programs" >&2
    build_proved
    build_plain

    wanted=$("$plain")
    [ "$wanted" = "${2-$wanted}" ] || { echo "$script: the plain program prints $wanted" >&2; exit 1; }
    [ "$("$proved")" = "$wanted" ] || { echo "$script: the two programs print different things" >&2; exit 1; }

    echo "$1; both print $wanted; seconds of processor time, and by the clock"
    for ((turn = 1; turn <= repetitions; turn++)); do
        read -r proved_processor proved_clock < <(measure "$proved")
        read -r plain_processor plain_clock < <(measure "$plain")
        echo "$proved_processor" >>"$work/proved.processor"
        echo "$proved_clock" >>"$work/proved.clock"
        echo "$plain_processor" >>"$work/plain.processor"
        echo "$plain_clock" >>"$work/plain.clock"
        echo "turn $turn: proved $proved_processor $proved_clock, plain $plain_processor $plain_clock"
    done
    for kind in processor clock; do
        a=$(median <"$work/proved.$kind")
        b=$(median <"$work/plain.$kind")
        echo "median by the $kind: proved $a, plain $b, ratio $(ratio "$a" "$b")"
    done
}
