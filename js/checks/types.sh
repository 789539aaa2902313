#!/bin/sh
# usage: js/checks/types.sh FOLDER
#
# Checks the types of the package in strict mode, and writes them into FOLDER, as js/types has them. It needs tsc (Debian:
# node-typescript).
set -eu
js=$(dirname "$0")/..
tsc -p "$js" --outDir "$1"
# What is written by hand stands beside the sources.
(cd "$js/src" && find . -name '*.d.ts') | while read -r file; do
    cp "$js/src/$file" "$1/$file"
done
# For the symbols of `using`: tsc leaves out an import that has no names.
sed -i '1i import "./dispose.js";' "$1/index.d.ts"
# Who uses the package has Node's own types, in place of what is declared here.
find "$1" -name '*.d.ts' -exec sed -i '/^\/\/\/ <reference path=.*checks\/node\.d\.ts/d' {} +
