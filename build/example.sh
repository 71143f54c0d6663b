#!/usr/bin/env bash
# Shows an example report and runs it: build/example.sh RPG2 NAME, at the top of the repository.
set -euo pipefail

rpg2=$1 name=$2
source=examples/$name/$name
mkdir -p out

cat "$source.rpg"
echo
echo "\$ rpg2 compile $name.rpg $name.obj"
"$rpg2" compile "$source.rpg" "out/$name.obj"
echo "\$ rpg2 verify $name.obj"
"$rpg2" verify "out/$name.obj"
echo "\$ rpg2 run $name.obj $name.txt $name.print --date 010576"
"$rpg2" run "out/$name.obj" "$source.txt" "out/$name.print" --date 010576
echo
cat "out/$name.print"
cmp "out/$name.print" "$source.expected"
