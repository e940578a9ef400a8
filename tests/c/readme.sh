#!/usr/bin/env bash
# README's C example: the program there, compiled with the gcc line there, prints what README says.
set -eu
cd "$(dirname "$0")/../.."
out=$(mktemp -d)
trap 'rm -rf "$out"' EXIT
sed -n '/^```c$/,/^```$/p' README.md | sed '1d;$d' >"$out/count.c"
line=$(sed -n 's/^    \(gcc .*\)$/\1/p' README.md)
[ -n "$line" ] && [ -s "$out/count.c" ]
line=${line/-o count count.c/-Wall -Wextra -Werror -o $out/count $out/count.c}
$line
said=$(sed -n 's/.*in a file count\.c, prints `\([^`]*\)`:.*/\1/p' README.md | tr -d '\n')
[ -n "$said" ] || said=$(tr '\n' ' ' <README.md | sed -n 's/.*in a file count\.c, prints `\([^`]*\)`:.*/\1/p')
printed=$("$out/count")
[ "$printed" = "$said" ] || { echo "it prints '$printed', README says '$said'"; exit 1; }
echo "README's C example: ok"
