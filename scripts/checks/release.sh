#!/bin/bash
# The released program: of this tree's sources, and the gate's build byte for byte.
# shellcheck source=scripts/check_lib.sh
. "$(dirname -- "${BASH_SOURCE[0]}")/../check_lib.sh"

tell "the released program" bash "$top/scripts/release.sh" --check
