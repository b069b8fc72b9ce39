#!/bin/sh
# Proves and builds the archive, and puts it at target/staticlib/libplanner.a: archive.sh
# It is made of the crate planner_c, which exports the calls of planner, and for every x86-64 processor. Status other than 0 if it is not built; what stood there stays then.
set -eu
cd "$(dirname "$0")/.."
(cd crates/planner_c && rt lib --cpu x86-64)
mkdir -p target/staticlib
cp crates/planner_c/out/libplanner_c.a target/staticlib/libplanner.a.new
mv target/staticlib/libplanner.a.new target/staticlib/libplanner.a
