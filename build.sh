# Sourced by bash, with `root`, the top of the repository.

# Proves and builds the program crates/NAME with all below it, as crates/NAME/out/NAME, and runs it on the crate's stdin. Fails where
# something is not proved, or where it prints something else than the crate's stdout. What rt says goes to standard error.
build_program() { # NAME
    local crate=$root/crates/$1 input=/dev/null wanted=/dev/null
    [ ! -f "$crate/stdin" ] || input=$crate/stdin
    [ ! -f "$crate/stdout" ] || wanted=$crate/stdout
    (cd "$crate" && rt run <"$input") | cmp -s - "$wanted"
}
