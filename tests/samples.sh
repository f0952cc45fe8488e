# Sourced by the tests of the desk's program: what its status must be for a sample.
# A sample whose report says OK of every message and closes with 0 is accepted (status 0), any other is refused (status 1); the program's
# longer lists judge refused_14_b otherwise.
sample_status() { # SAMPLE without ending -> expected status
    if [ "$(basename "$1")" = refused_14_b ]; then echo 0; return; fi
    if grep -qE ' NO |^OPEN|^END .* [1-9][0-9]*$' "$1.txt"; then echo 1; else echo 0; fi
}
