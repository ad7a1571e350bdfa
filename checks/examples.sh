#!/usr/bin/env bash
# Each example in the documents prints what it says, and each file of examples is what its command prints.
source "$(dirname "${BASH_SOURCE[0]}")/common.bash"
use_built_program examples
for tool in python3 openssl sha256sum; do
  command -v $tool >/dev/null 2>&1 || { echo "examples: skipped: $tool is not here"; exit 0; }
done
tools/examples.py README.md docs/*.md || faults=$((faults + 1))
for wanted in examples/*.out; do
  name=$(basename "$wanted" .out)
  case $name in
    *.*) words=${name#*.} job=examples/${name%%.*}.json ;;
    *) words='walk 0' job=examples/$name.json ;;
  esac
  [ "$words" = walk ] && words='walk 0'
  words=${words//-/ }
  # The words of a command with a text stand in a file of their own.
  [ -f "${wanted%.out}.words" ] && words=$(cat "${wanted%.out}.words")
  read -ra list <<<"$words"
  wants "$wanted" "$(./cerealspit "${list[@]}" <"$job")" "$(cat "$wanted")"
done
ends examples 'each example of the documents and of examples/ was run'
