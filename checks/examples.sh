# shellcheck shell=bash disable=SC2154
# What the programs of examples/ say to bad words, and the server of a script that is a pipe. Sourced by lines.sh.

cd -- "$top" || exit 1

# refused NAME TEXT WORDS..: frustum.py ends with status 1 and one line, which has this text, and prints nothing.
refused() {
  local name=$1 text=$2 why=() told
  shift 2
  told=$(limited python3 examples/frustum.py "$@" 2>&1 >"$room/printed")
  [ $? -eq 1 ] || why+=("the status is not 1")
  [ ! -s "$room/printed" ] || why+=("it printed '$(head -c 60 "$room/printed")'")
  [[ $told == *"$text"* && $told != *$'\n'* ]] || why+=("it says '$(head -c 200 <<<"$told")'")
  decide "frustum_refuses_$name" ${why[0]+"${why[@]}"}
}

refused a_view_straight_down 'straight down' 0 0 900 0 0 -1 90 4 3
refused a_view_straight_up 'straight up' 0 0 900 0 0 2 90 4 3
refused a_camera_that_is_no_whole_number "X is '0.5': a whole number is wanted" 0.5 0 900 1 0 0 90 4 3
refused a_direction_that_is_no_number "DY is 'x': a number is wanted" 0 0 900 1 x 0 90 4 3
refused a_direction_without_end "DZ is 'inf': a number is wanted" 0 0 900 1 0 inf 90 4 3
refused a_camera_beyond_the_script 'from -1073741824 to 1073741824' 0 0 1073741825 1 0 0 90 4 3
refused a_view_of_half_a_turn 'DEGREES is 180' 0 0 900 1 0 0 180 4 3
refused a_picture_without_height 'WIDTH and HEIGHT are 4 and 0' 0 0 900 1 0 0 90 4 0

# The server answers each frame before it is asked for the next, as a run of the whole script does; and a refused line ends it.
mkdir -- "$room/server"
printf 'camera %s\nframe\n' '0 0 0' '2000 2000 1200' '8000 7000 1100' >"$room/server/script"
(cd -- "$room/server" && limited "$program" mesh "$top/examples/jacksboro/grid.pgm" script out 2000 90 >report 2>said &&
  paste -d ' ' report <(for mesh in out*.obj; do echo "bytes $(wc -c <"$mesh")"; done) >wanted)
timeout 60 python3 examples/server.py "$program" examples/jacksboro/grid.pgm 2000 90 0,0,0 2000,2000,1200 8000,7000,1100 >"$room/server/told" 2>&1
status=$?
if [ $status -eq 0 ] && [ "$(wc -l <"$room/server/told")" -eq 3 ] && cmp -s "$room/server/told" "$room/server/wanted"; then
  ok a_script_that_is_a_pipe_is_answered_frame_by_frame
else
  wrong a_script_that_is_a_pipe_is_answered_frame_by_frame "status $status, '$(head -c 300 "$room/server/told")'"
fi
told=$(timeout 60 python3 examples/server.py "$program" examples/jacksboro/grid.pgm 2000 90 0,0,x 2>&1)
if [[ $told == *'RuntimeError: line 1 refused: bad number in field 3'* ]]; then
  ok a_refused_line_ends_the_server
else
  wrong a_refused_line_ends_the_server "'$(tail -c 200 <<<"$told")'"
fi

# docs/REFERENCE.md: a height of one unit on flat ground counts nothing at distance 131,072 and more. The box goes up to 1.
printf 'P2\n3 3\n9\n0 0 0\n0 1 0\n0 0 0\n' >"$room/one.pgm"
printf 'camera 0 0 131072\nframe\ncamera 0 0 131073\nframe\n' >"$room/far"
told=$(cd -- "$room" && limited "$program" mesh one.pgm far far_out 8 1 2>&1 | cut -d ' ' -f 4,8)
if [ "$told" = $'4 0\n2 0' ]; then
  ok a_height_of_one_unit_counts_nothing_from_afar
else
  wrong a_height_of_one_unit_counts_nothing_from_afar "triangles and worst are '${told//$'\n'/, }'"
fi
