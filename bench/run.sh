#!/usr/bin/env bash
# Times the built program on pages of several sizes, to show that the time grows in step with the input.
set -eu
here=$(cd "$(dirname "$0")" && pwd)
(cd "$here/../crates/html2text_program" && rt run -- --width 8 <stdin >/dev/null 2>&1)
program=$here/../crates/html2text_program/out/html2text_program
room=$(mktemp -d)
trap 'rm -rf "$room"' EXIT
for size in 1 2 4 8 10; do
  python3 "$here/make_page.py" "$size" >"$room/page"
  /usr/bin/time -f '%e %M' "$program" --width 72 <"$room/page" 2>"$room/time" >/dev/null
  read -r seconds kilobytes <"$room/time"
  python3 -c "print(f'{$size} MB: {$seconds} s, {$size / max($seconds, 0.005):.0f} MB/s, '
    f'peak {$kilobytes / 1000:.0f} MB')"
done
