#!/bin/sh
# In place of the compiler: it keeps the whole module and the words to compile it, and gives up.
for word; do
  case "$word" in -fsanitize=*)
    cp module.bc "{room}/module.bc"
    printf '%s\n' "$@" > "{room}/words"
    exit 1 ;;
  esac
done
exec "{clang}" "$@"
