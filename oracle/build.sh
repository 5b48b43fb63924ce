# For `run` and `store`: builds the oracle, if need be, and says where it is in $oracle. $repository is the repository.
command -v cargo >/dev/null || {
    echo "oracle: cargo is missing: install Rust" >&2
    exit 2
}
cargo build --release --quiet --manifest-path "$repository/oracle/Cargo.toml" --target-dir "$repository/target/oracle" || exit 2
oracle=$repository/target/oracle/release/oracle
