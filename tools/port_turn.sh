#!/usr/bin/env bash
# Turns the repository of before the port to today's spelling, as the port's first commits did it. docs/PORT.md says
# more.
# usage: tools/port_turn.sh FOLDER
# FOLDER is a checkout of the first commit that docs/PORT.md names, outside this one.
set -euo pipefail
here=$(cd "$(dirname "$0")" && pwd)
cd "$1"
# One local name of one proof is spelled as today's names are. The kit's script would take the whole repository for one
# that was turned already.
sed -i 's/\bso_far\b/soFar/g; s/l \.so-far/l .so-far/' crates/samples/proofs/all_good/Proof.antt
git -c user.name=port -c user.email=port@localhost commit -qam "One local name"
python3 "$(dirname "$(dirname "$(realpath "$(command -v rt)")")")/port/port.py"
python3 "$here/port_names.py" .
python3 "$here/port_values.py" .
python3 "$here/port_edits.py" .
