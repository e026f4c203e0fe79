#!/bin/sh
# A build step: checks every .wasm file below a folder, one process per processor. Prints a line for each
# refused module, and more about it on standard error. Exits with 0 if all are accepted.
#
#   examples/check_all.sh FOLDER
[ -d "$1" ] || { echo "no folder: $1" >&2; exit 2; }
find "$1" -name '*.wasm' -print0 | xargs -0 -r -n 64 -P "$(nproc)" sh -c '
  said=$(printf "%s\0" "$@" | wmod check --limit 100000000 --from - --null)
  status=$?
  printf "%s\n" "$said" | grep --line-buffered -v -e ": valid$" -e "^$"
  exit $status' sh
