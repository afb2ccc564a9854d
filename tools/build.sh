#!/usr/bin/env bash
# Builds what stands outside the crates: the library of the services under their C names, target/staticlib/libservices.a, and the two programs
# of document 01, target/bin/translate and target/bin/run. Each is proved first. Run from anywhere.
set -euo pipefail
cd "$(dirname "$0")/.."

mkdir -p target/staticlib target/bin
(cd crates/services && rt lib)
cp crates/services/out/libservices.a target/staticlib/
for program in translate run; do
    # A run on its example builds it.
    (cd "crates/$program" && rt run < stdin > /dev/null)
    cp "crates/$program/out/$program" target/bin/
done
echo "built: target/staticlib/libservices.a, target/bin/translate, target/bin/run"
