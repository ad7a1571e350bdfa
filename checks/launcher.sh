#!/usr/bin/env bash
# The launcher, over a toolchain that is played: where it finds its folder, when it builds, what it says.
source "$(dirname "${BASH_SOURCE[0]}")/common.bash"
unset CEREALSPIT_PROGRAM
room=$(mktemp -d) || exit 1
trap 'rm -rf "$room"' EXIT
export CEREALSPIT_CACHE=$room/cache BUILDS=$room/builds

# A checkout of the launcher with two crates, and a toolchain whose program prints its word, or its sources.
mkdir -p "$room/- a house/crates/cerealspit/src" "$room/- a house/crates/low/src" "$room/bin"
house="$room/- a house"
cp cerealspit VERSION HANDLES "$house/"
printf 'low:\ncerealspit: low\nother:\n' >"$house/crates.txt"
echo first >"$house/crates/low/src/lib.rt"
echo main >"$house/crates/cerealspit/src/main.rt"
cat >"$room/bin/rt" <<'FAKE'
#!/usr/bin/env bash
case $1 in
  all) echo 'crate low: modules loaded=1'; echo 'crate cerealspit: modules loaded=1' ;;
  run)
    echo build >>"$BUILDS"
    [ -f "$SLOW" ] && { sleep 1; echo edited >"$EDITS"; }
    mkdir -p out
    printf '#!/bin/sh\n[ "$1" = bad ] && { echo "error: words"; exit 2; }\necho %s\n' "$(cat ../low/src/*.rt | tr '\n' ' ')" >out/cerealspit
    chmod +x out/cerealspit
    echo 'rt: running cerealspit' ;;
  version) echo kit ;;
esac
FAKE
chmod +x "$room/bin/rt"
export PATH=$room/bin:$PATH SLOW=$room/slow EDITS="$house/crates/low/src/lib.rt"
builds() { wc -l <"$BUILDS" | tr -d ' '; }

# Where it is called from.
wants 'the first run builds' "$(cd "$room" && './- a house/cerealspit' check 2>/dev/null </dev/null)" first
wants 'from inside a folder that begins with -' "$(cd "$house" && ./cerealspit check 2>/dev/null)" first
wants 'by bash, relative to it' "$(cd "$room" && bash -- '- a house/cerealspit' check 2>/dev/null)" first
ln -s "$house/cerealspit" "$room/a link"
ln -s "../a link" "$room/bin/attest it"
wants 'through two links with spaces' "$(cd / && 'attest it' check 2>/dev/null)" first
wants 'with CDPATH set' "$(cd "$room" && CDPATH=$house:/ './- a house/cerealspit' check 2>/dev/null)" first
wants 'all that is one build' "$(builds)" 1

# When it builds.
echo second >"$house/crates/low/src/lib.rt"
wants 'an edited source' "$("$house/cerealspit" check 2>/dev/null)" second
touch "$house/crates/low/src/lib.rt"
wants 'a source with another time alone' "$("$house/cerealspit" check 2>/dev/null; builds)" "$(printf 'second\n2')"
echo more >"$house/crates/low/src/more.rt"
"$house/cerealspit" check >/dev/null 2>&1
rm "$house/crates/low/src/more.rt"
wants 'a source that was deleted' "$("$house/cerealspit" check 2>/dev/null; builds)" "$(printf 'second\n4')"
echo third >"$house/crates/low/src/lib.rt"
touch "$SLOW"
"$house/cerealspit" check >"$room/one" 2>/dev/null &
"$house/cerealspit" check >"$room/two" 2>/dev/null &
wait
rm "$SLOW"
wants 'two at once, while a source is edited' "$(sort -u "$room/one" "$room/two" | grep -c 'third\|edited')" "$(sort -u "$room/one" "$room/two" | grep -c .)"
wants 'an edit during a build is not taken as built' "$("$house/cerealspit" check 2>/dev/null)" edited

# What it says.
wants 'the status of wrong words' "$("$house/cerealspit" bad 2>/dev/null; echo $?)" "$(printf 'error: words\n2')"
wants 'the hint at wrong words' "$("$house/cerealspit" bad 2>&1 >/dev/null)" 'cerealspit: try --help'
wants 'help' "$("$house/cerealspit" --help | head -1)" 'usage: ./cerealspit WORDS < JOB'
"$house/cerealspit" --help >/dev/full 2>/dev/null
wants 'help to a full device' "$?" 125
wants 'version' "$("$house/cerealspit" --version)" "$(printf 'cerealspit %s\nkit' "$(cat VERSION)")"
rm -f "$house/crates/low/src/lib.rt"
wants 'progress' "$("$house/cerealspit" check 2>&1 >/dev/null | grep proved)" "$(printf 'cerealspit: proved 1 of 2: low\ncerealspit: proved 2 of 2: cerealspit')"
: >"$room/file"
wants 'a folder that cannot be written' "$(CEREALSPIT_CACHE=$room/file "$house/cerealspit" check 2>&1 | cut -d' ' -f1-4; echo "${PIPESTATUS[0]}")" "$(printf 'cerealspit: nothing can be\n126')"
printf '#!/bin/sh\nexit 1\n' >"$room/bin/rt"
echo fourth >"$house/crates/low/src/lib.rt"
wants 'a build that fails' "$("$house/cerealspit" check >/dev/null 2>&1; echo $?)" 126
rm "$room/bin/rt"
wants 'no toolchain' "$(PATH=/usr/bin:/bin "$house/cerealspit" check >/dev/null 2>&1; echo $?)" 127
printf '#!/bin/sh\nkill -ILL $$\n' >"$room/ill"
chmod +x "$room/ill"
wants 'a processor that lacks an instruction' "$(CEREALSPIT_PROGRAM=$room/ill "$house/cerealspit" check >/dev/null 2>&1; echo $?)" 124
ends launcher 'its folder, its builds and its statuses are as documented'
