# shellcheck shell=bash disable=SC2154
# Grids that other tools make, as docs/GRIDS.md tells: netpbm, ImageMagick and GDAL, each where it is there. `info` has to
# tell the side and the maxval that the tool was asked for, and the least and the greatest sample that the tool itself
# finds in its file. Sourced by lines.sh.

# begins FILE TEXT: whether the file begins with this text (as printf's %b).
begins() { cmp -s -n "$(printf '%b' "$2" | wc -c)" -- "$1" <(printf '%b' "$2"); }

# told NAME FILE HEADER SIDE MAXVAL LOW HIGH: one check. HEADER is how the file begins (as printf's %b), without which
# the check says nothing of the form that it is for.
told() {
  local why=() answer
  begins "$2" "$3" || why+=("the tool wrote another header: $(head -c 60 -- "$2" | tr -c '[:print:]' '/')")
  answer=$(limited "$program" info "$2" 2>&1 </dev/null) || why+=("exit status $?")
  [[ $answer == "side $4 maxval $5 low $6 high $7 thickness "* ]] ||
    why+=("'$(head -c 100 <<<"$answer")', not 'side $4 maxval $5 low $6 high $7 ..'")
  decide "$1" ${why[0]+"${why[@]}"}
}

# same_heights NAME FILE FILE: the two files are told of with the same line.
same_heights() {
  local one two
  one=$(limited "$program" info "$2" 2>&1)
  two=$(limited "$program" info "$3" 2>&1)
  if [ "$one" = "$two" ] && [[ $one == side* ]]; then ok "$1"; else wrong "$1" "'$one' and '$two'"; fi
}

mkdir -- "$room/tools" && cd -- "$room/tools" || exit 1

# --- netpbm: a picture of 300x200 samples is scaled to 257x257. ---

if has tools_netpbm pgmramp pamscale pnmscale pamdepth pnmtoplainpnm pnmtopng pngtopam ppmtopgm pamsumm; then
  pgmramp -ellipse 300 200 >in.pgm
  pamscale -width 257 -height 257 in.pgm >netpbm8.pgm 2>/dev/null
  pamdepth 65535 netpbm8.pgm >netpbm16.pgm 2>/dev/null
  pamdepth 1000 netpbm8.pgm >netpbm1000.pgm 2>/dev/null
  pnmtoplainpnm netpbm8.pgm >netpbm8plain.pgm
  pnmtoplainpnm netpbm16.pgm >netpbm16plain.pgm
  {
    pnmtopng in.pgm >netpbm.png
    pngtopam netpbm.png | ppmtopgm | pamscale -width 257 -height 257 | pamdepth 65535 >netpbm_of_png.pgm
    pngtopam netpbm.png | ppmtopgm | pnmscale -width 257 -height 257 | pamdepth 65535 | pnmtoplainpnm >netpbm_of_png_plain.pgm
    pngtopam netpbm.png | ppmtopgm | pamscale -plain -width 257 -height 257 >netpbm_of_png_by_plain.pgm
  } 2>/dev/null
  while read -r file magic maxval; do
    told "a_grid_of_$file" "$file.pgm" "$magic\n257 257\n$maxval\n" 257 "$maxval" \
      "$(pamsumm -min -brief "$file.pgm")" "$(pamsumm -max -brief "$file.pgm")"
  done <<'TABLE'
netpbm8 P5 255
netpbm16 P5 65535
netpbm1000 P5 1000
netpbm8plain P2 255
netpbm16plain P2 65535
netpbm_of_png P5 65535
netpbm_of_png_plain P2 65535
netpbm_of_png_by_plain P2 255
TABLE
  same_heights netpbm_raw_and_plain_of_one_byte_are_alike netpbm8.pgm netpbm8plain.pgm
  same_heights netpbm_raw_and_plain_of_two_bytes_are_alike netpbm16.pgm netpbm16plain.pgm
fi

# --- ImageMagick: the same, with a comment in the header where the image has one. It tells samples as 65,535ths. ---

# magick_made FILE HEADER MAXVAL WORDS..: makes FILE by ImageMagick and checks it.
magick_made() {
  local file=$1 header=$2 maxval=$3
  convert in.png -resize '257x257!' -colorspace Gray "${@:4}" "$file.pgm" 2>/dev/null
  local low high
  read -r low high < <(identify -format '%[min] %[max]\n' "$file.pgm" 2>/dev/null)
  told "a_grid_of_$file" "$file.pgm" "$header" 257 "$maxval" \
    "$((${low:-0} * maxval / 65535))" "$((${high:-0} * maxval / 65535))"
}

if has tools_imagemagick convert identify; then
  convert -size 300x200 radial-gradient:white-black -depth 16 in.png 2>/dev/null
  magick_made magick8 'P5\n257 257\n255\n' 255 -depth 8
  magick_made magick16 'P5\n257 257\n65535\n' 65535 -depth 16
  magick_made magick8plain 'P2\n257 257\n255\n' 255 -depth 8 -compress none
  magick_made magick16plain 'P2\n257 257\n65535\n' 65535 -depth 16 -compress none
  magick_made magick_one_comment 'P5\n#made by hand\n257 257\n65535\n' 65535 -depth 16 -set comment 'made by hand'
  magick_made magick_three_comments 'P2\n#one # two\n#\n#3 3\n257 257\n255\n' 255 -depth 8 -compress none \
    -set comment $'one # two\n\n3 3'
  same_heights magick_raw_and_plain_of_one_byte_are_alike magick8.pgm magick8plain.pgm
  same_heights magick_raw_and_plain_of_two_bytes_are_alike magick16.pgm magick16plain.pgm
  same_heights magick_with_and_without_a_comment_are_alike magick16.pgm magick_one_comment.pgm
fi

# --- GDAL: elevations from -40 to 1180 with a hole, which is filled first. ---

if has tools_gdal gdal_translate gdalinfo gdal_fillnodata.py; then
  awk 'BEGIN {
    print "ncols 60\nnrows 40\nxllcorner 0\nyllcorner 0\ncellsize 30\nNODATA_value -9999"
    for (y = 0; y < 40; y++) {
      for (x = 0; x < 60; x++) printf "%d ", (x > 20 && x < 24 && y > 10 && y < 14) ? -9999 : 14 * x + 10 * y - 40
      print ""
    }
  }' >in.asc
  gdal_translate -q -ot Int16 in.asc in.tif 2>/dev/null
  gdal_fillnodata.py -q in.tif filled.tif >said 2>&1
  gdal_translate -q -a_nodata none -of PNM -ot UInt16 -outsize 257 257 -r bilinear -scale -40 1180 0 1220 \
    filled.tif gdal16.pgm 2>/dev/null
  gdal_translate -q -a_nodata none -of PNM -ot UInt16 -outsize 257 257 -r bilinear -scale -40 1180 0 1220 -co MAXVAL=1220 \
    filled.tif gdal1220.pgm 2>/dev/null
  gdal_translate -q -a_nodata none -of PNM -ot Byte -outsize 257 257 -r bilinear -scale -40 1180 0 255 \
    filled.tif gdal8.pgm 2>/dev/null
  while read -r file maxval; do
    # The least and the greatest sample, from a line as `Computed Min/Max=0.000,1220.000`.
    read -r low high < <(gdalinfo -mm "$file.pgm" 2>/dev/null | sed -n 's|.*Computed Min/Max=\([0-9]*\)[.0-9]*,\([0-9]*\).*|\1 \2|p')
    told "a_grid_of_$file" "$file.pgm" "P5\n257 257\n$maxval\n" 257 "$maxval" "${low:-none}" "${high:-none}"
  done <<'TABLE'
gdal16 65535
gdal1220 1220
gdal8 255
TABLE
fi

# --- How refusals that people meet are mended, as docs/GRIDS.md tells. ---

# rows: nine samples of one byte, the least of them 65 and the greatest 75.
rows() { printf 'AAAAKAAAA'; }

if has tools_mended sed dd head tail; then
  { printf 'P5\r\n3 3\r\n255\r\n'; rows; } >crlf.pgm
  LC_ALL=C sed '1,3s/\r$//' crlf.pgm >crlf_mended.pgm
  told crlf_in_a_header_is_mended crlf_mended.pgm 'P5\n3 3\n255\n' 3 255 65 75
  { printf 'P5\n3 3\n255\n# a comment\n'; rows; } >comment.pgm
  LC_ALL=C sed 4d comment.pgm >comment_mended.pgm
  told a_comment_after_the_maxval_is_mended comment_mended.pgm 'P5\n3 3\n255\nA' 3 255 65 75
  { printf 'P5\n3 3\n255 # a comment\n'; rows; } >behind.pgm
  LC_ALL=C sed '3s/ *#.*//' behind.pgm >behind_mended.pgm
  told a_comment_behind_the_maxval_is_mended behind_mended.pgm 'P5\n3 3\n255\nA' 3 255 65 75
  { printf 'P5\n3 3\n70\n'; rows; } >above.pgm
  LC_ALL=C sed '3s/.*/255/' above.pgm >above_mended.pgm
  told a_maxval_that_is_too_small_is_mended above_mended.pgm 'P5\n3 3\n255\n' 3 255 65 75
  { printf 'P5\n3 3\n300\n'; printf 'A\0A\0A\0A\0K\0A\0A\0A\0A\0'; } >swapped.pgm
  head -n 3 swapped.pgm >swapped_mended.pgm
  tail -n +4 swapped.pgm | dd conv=swab 2>/dev/null >>swapped_mended.pgm
  told samples_with_the_least_significant_byte_first_are_mended swapped_mended.pgm 'P5\n3 3\n300\n' 3 300 65 75
  printf 'P2\n3 3\n75\n65 65 65 # top\n65 75 65\n65 65 65\n' >plain.pgm
  sed 's/#.*//' plain.pgm >plain_mended.pgm
  told comments_in_a_plain_raster_are_mended plain_mended.pgm 'P2\n3 3\n75\n' 3 75 65 75
fi
if has tools_pamsplit pamsplit; then
  { printf 'P5\n3 3\n255\n'; rows; printf 'P5\n3 3\n255\nAAAAAAAAA'; } >two.pgm
  pamsplit two.pgm 'image%d.pgm' 2>/dev/null
  told the_first_of_two_images_is_split_off image0.pgm 'P5\n3 3\n255\n' 3 255 65 75
  told the_second_of_two_images_is_split_off image1.pgm 'P5\n3 3\n255\n' 3 255 65 65
fi

cd -- "$top" || exit 1
