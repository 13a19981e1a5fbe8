#!/bin/bash
# How many must-fail edits a crate has.
# shellcheck source=scripts/check_lib.sh
. "$(dirname -- "${BASH_SOURCE[0]}")/../check_lib.sh"

tell "few must-fail edits a crate" bash "$top/scripts/edits.sh" --check
