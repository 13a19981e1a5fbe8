#!/bin/bash
# The documents' tables of crates are those that crates.txt gives.
# shellcheck source=scripts/check_lib.sh
. "$(dirname -- "${BASH_SOURCE[0]}")/../check_lib.sh"

tell "the tables of crates" bash "$top/scripts/crate_tables.sh" --check
