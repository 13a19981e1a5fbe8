#!/bin/bash
# What the documents quote is there.
# shellcheck source=scripts/check_lib.sh
. "$(dirname -- "${BASH_SOURCE[0]}")/../check_lib.sh"

tell "the names in the documents" bash "$top/scripts/doc_names.sh"
