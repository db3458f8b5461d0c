#!/bin/sh
# Lays out the unfinished work as a tree of its own in a new folder, where `rt all check` proves it:
# the crates as they were before the design pass, less the files that that tree does not have, with those of unfinished/
# over them. It needs that commit, the first line of docs/DESIGN-PASS.md, in the clone.
# usage: sh tools/lay_out_unfinished.sh FOLDER
set -eu
top=$(cd "$(dirname "$0")/.." && pwd)
to=$1
mkdir "$to"
git -C "$top" archive "$(head -1 "$top/docs/DESIGN-PASS.md")" crates | tar xf - -C "$to"
while read -r gone; do
  rm -f "$to/crates/$gone"
done < "$top/unfinished/not-in-that-tree.txt"
cp -R "$top/unfinished/crates/." "$to/crates/"
find "$to/crates" \( -name '*.rt.txt' -o -name '*.antt.txt' \) | while read -r file; do
  mv -f "$file" "${file%.txt}"
done
find "$to/crates" -type d -empty -delete
cp "$top/unfinished/crate-list.txt" "$to/crates.txt"
